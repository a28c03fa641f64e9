/* mercurylink.c: a head that asks a Mercury meter, in memory of its exact size. The request for
 * every field, the description's examples, and every way that an answer can be hurt. Prints one
 * line, and exits with 1 on any difference. */
#include "exactly.h"

#include "dirgemist_mercury.h"

#define UNWRITTEN 0xA5

static int wrong = 0;
static int calls = 0;

static void expect(int right, const char *what) {
    if (!right) {
        printf("mercury: differs: %s\n", what);
        wrong = 1;
    }
}

/* The CRC by its bits. */
static uint16_t crc_of(const uint8_t *message, size_t length) {
    uint16_t crc = 0xFFFF;
    for (size_t at = 0; at < length; at++) {
        crc ^= message[at];
        for (int bit = 0; bit < 8; bit++) {
            crc = (uint16_t)(crc & 1 ? crc >> 1 ^ 0xA001 : crc >> 1);
        }
    }
    return crc;
}

/* A message with its CRC behind it. */
static size_t closed(uint8_t *message, size_t length) {
    uint16_t crc = crc_of(message, length);
    message[length] = (uint8_t)crc;
    message[length + 1] = (uint8_t)(crc >> 8);
    return length + 2;
}

static void try_crc(const uint8_t *message, size_t length) {
    const uint8_t *own = lent(message, length);
    expect(dirgemist_mercury_crc(own, length) == crc_of(message, length), "the CRC");
    give_back(own, length);
    calls++;
}

static bool in_range(int array, int month, int tariff) {
    bool ranged = array <= 5 || (array >= 9 && array <= 13);
    bool dated = array == 3 || array == 11 ? month >= 1 && month <= 12 : month == 0;
    return ranged && dated && tariff <= 4;
}

static void try_ask(int address, int array, int month, int tariff, size_t room) {
    uint8_t request[DIRGEMIST_MERCURY_REQUEST] = {(uint8_t)address, 5, (uint8_t)(array << 4 | month),
                                                  (uint8_t)tariff};
    closed(request, 4);
    uint8_t number = !in_range(array, month, tariff) ? DIRGEMIST_MERCURY_FIELD
                     : room < sizeof request         ? DIRGEMIST_MERCURY_NO_ROOM
                                                     : DIRGEMIST_MERCURY_DONE;
    size_t written = number == DIRGEMIST_MERCURY_DONE ? sizeof request : 0;
    uint8_t *out = exactly(room);
    size_t *length = exactly(sizeof *length);
    memset(out, UNWRITTEN, room);
    memset(length, UNWRITTEN, sizeof *length);
    expect(dirgemist_mercury_ask((uint8_t)address, (uint8_t)array, (uint8_t)month, (uint8_t)tariff,
                                 out, room, length) == number,
           "a request's number");
    expect(*length == written, "a request's length");
    expect(memcmp(out, request, written) == 0, "a request's bytes");
    for (size_t at = written; at < room; at++) {
        expect(out[at] == UNWRITTEN, "a byte past the request");
    }
    give_back(length, sizeof *length);
    give_back(out, room);
    calls++;
}

struct told {
    uint8_t number, status, measured;
    uint32_t quantities[4];
};

static void try_read(const char *what, uint8_t address, const uint8_t *answer, size_t length,
                     struct told told) {
    const uint8_t *own = lent(answer, length);
    uint8_t *status = exactly(1), *measured = exactly(1);
    uint32_t *quantities[4];
    memset(status, UNWRITTEN, 1);
    memset(measured, UNWRITTEN, 1);
    for (size_t at = 0; at < 4; at++) {
        quantities[at] = exactly(sizeof *quantities[at]);
        memset(quantities[at], UNWRITTEN, sizeof *quantities[at]);
    }
    uint8_t number = dirgemist_mercury_read(address, own, length, status, measured, quantities[0],
                                            quantities[1], quantities[2], quantities[3]);
    expect(number == told.number && *status == told.status && *measured == told.measured, what);
    for (size_t at = 0; at < 4; at++) {
        expect(*quantities[at] == told.quantities[at], what);
        give_back(quantities[at], sizeof *quantities[at]);
    }
    give_back(measured, 1);
    give_back(status, 1);
    give_back(own, length);
    calls++;
}

int main(void) {
    static const struct {
        uint8_t bytes[5];
        size_t length;
    } examples[] = {
        {{0x22, 0x08, 0x18, 0xD6, 0x00}, 5},
        {{0x22, 0x00, 0x08, 0xD0, 0x0C}, 5},
        {{0x00, 0x00, 0x01, 0xB0}, 4},
        {{0x01, 0x00, 0x00, 0x20}, 4},
    };
    for (size_t at = 0; at < sizeof examples / sizeof *examples; at++) {
        size_t length = examples[at].length;
        uint16_t crc = dirgemist_mercury_crc(examples[at].bytes, length - 2);
        expect((uint8_t)crc == examples[at].bytes[length - 2] && crc >> 8 == examples[at].bytes[length - 1],
               "an example of the description");
        calls++;
    }
    uint8_t long_message[300];
    for (size_t at = 0; at < sizeof long_message; at++) {
        long_message[at] = (uint8_t)(at * 37 + 11);
        try_crc(long_message, at);
    }

    for (int array = 0; array < 16; array++) {
        for (int month = 0; month < 16; month++) {
            for (int tariff = 0; tariff < 7; tariff++) {
                try_ask(array * 17, array, month, tariff, 5 + (size_t)(month % 4));
            }
        }
    }
    for (int over = 16; over < 256; over++) {
        try_ask(1, over, 0, 0, 8);
        try_ask(1, 3, over, 0, 8);
        try_ask(1, 0, 0, over, 8);
    }
    for (size_t room = 0; room < 9; room++) {
        try_ask(0xFE, 0, 0, 0, room);
        try_ask(0xFE, 6, 0, 0, room);
    }

    uint8_t january[DIRGEMIST_MERCURY_DATA] = {0x80, 0x00, 0x00, 0x70, 0x0A, 0xFF, 0xFF, 0xFF, 0xFF,
                                               0x00, 0x00, 0xE8, 0x03, 0x00, 0x00, 0x00, 0x00};
    closed(january, 17);
    struct told energy = {DIRGEMIST_MERCURY_DONE, 0, 13, {2672, 0, 1000, 0}};
    try_read("the energy of January", 0x80, january, sizeof january, energy);
    struct told refused = {0};
    refused.number = DIRGEMIST_MERCURY_OTHER_ADDRESS;
    try_read("another meter's", 0x81, january, sizeof january, refused);
    refused.number = DIRGEMIST_MERCURY_WRONG_CRC;
    for (size_t at = 0; at < sizeof january; at++) {
        for (int bit = 0; bit < 8; bit++) {
            january[at] ^= (uint8_t)(1 << bit);
            try_read("a bit hurt", 0x80, january, sizeof january, refused);
            january[at] ^= (uint8_t)(1 << bit);
        }
    }
    for (int code = 0; code < 256; code++) {
        uint8_t answer[DIRGEMIST_MERCURY_CODE] = {0x80, (uint8_t)code};
        closed(answer, 2);
        struct told status = {DIRGEMIST_MERCURY_STATUS, (uint8_t)code, 0, {0}};
        try_read("a status", 0x80, answer, sizeof answer, status);
    }
    refused.number = DIRGEMIST_MERCURY_WRONG_LENGTH;
    for (size_t length = 0; length < sizeof long_message; length++) {
        if (length != DIRGEMIST_MERCURY_DATA && length != DIRGEMIST_MERCURY_CODE) {
            try_read("a length that no answer has", 0x80, long_message, length, refused);
        }
    }

    if (wrong) {
        return 1;
    }
    printf("mercury in C: %d calls, as the request and the description have them\n", calls);
    return 0;
}
