/* cardlink.c: reads and writes settings cards as a host does, in memory of its exact size, and tries
 * fixed cases of request [11], for both editions. Prints one line, and exits with 1 on any difference. */
#include "exactly.h"

#include "dirgemist_card.h"

#include <stdio.h>

static uint8_t edition;
static int most; /* the tables of that edition */

static int wrong = 0;
static int texts = 0;

static void expect(int right, const char *what) {
    if (!right) {
        printf("cardlink: differs: %s\n", what);
        wrong = 1;
    }
}

/* The card of tables 1 to `tables`, all '1', into text; its length. */
static size_t card_of(uint8_t *text, int tables) {
    memcpy(text, "\001\000\012STUDIO_7  ", 13);
    for (int number = 1; number <= tables; number++) {
        uint8_t *field = text + 13 + 28 * (number - 1);
        memcpy(field, "\002\000\031", 3);
        field[3] = (uint8_t)number;
        memset(field + 4, '1', 24);
    }
    return 13 + 28 * (size_t)tables;
}

/* A frame with even parity, its BCC put in. */
static uint8_t *framed(uint8_t *at, const char *frame, size_t size) {
    uint8_t bcc = 0;
    for (size_t i = 0; i < size; i++) {
        uint8_t c = (uint8_t)frame[i];
        bcc ^= i > 0 ? c : 0;
        *at++ = (uint8_t)(c | __builtin_parity(c) << 7);
    }
    *at++ = (uint8_t)(bcc | __builtin_parity(bcc) << 7);
    return at;
}

static void frames_of(uint8_t *frames, int tables) {
    frames = framed(frames, "\001W1\002K(STUDIO_7  )\003", 18);
    for (int number = 1; number <= tables; number++) {
        char frame[64];
        sprintf(frame, "\001W1\002Z(%02d;111111111111111111111111)\003", number);
        frames = framed(frames, frame, 35);
    }
}

/* One text through check and reader, in a buffer of `room` bytes of 0x5A. */
static void try_text(const char *what, const void *text, size_t text_length, size_t room,
                     uint8_t number, size_t length, size_t place, const uint8_t *frames) {
    const uint8_t *own = lent(text, text_length);
    uint8_t *out = exactly(room);
    memset(out, 0x5A, room);
    texts++;
    size_t got_place = 99, got_length = 99;
    uint8_t got = dirgemist_card_check(edition, own, text_length, &got_place);
    uint8_t no = DIRGEMIST_CARD_NOT_A_CARD;
    expect(got == (number == no ? no : DIRGEMIST_CARD_DONE) && got_place == place, what);
    got = dirgemist_card_read(edition, own, text_length, out, room, &got_length, &got_place);
    expect(got == number && got_length == length && got_place == place, what);
    expect(length == 0 || memcmp(out, frames, length) == 0, what);
    for (size_t at = length; at < room; at++) {
        expect(out[at] == 0x5A, what);
    }
    give_back(own, text_length);
    give_back(out, room);
}

/* The card of a meter of a family in each room around its length: of every family the same. */
static void try_meter(uint8_t decimals) {
    struct dirgemist_meter meter;
    dirgemist_meter_make(&meter, (const uint8_t *)"0123456789", 10, (const uint8_t *)"STUDIO_7  ", 10,
                         (const uint8_t *)"00000000", 8, 2024, 2, 29, 12, 0, 0, edition, 1, decimals);
    uint8_t card[DIRGEMIST_CARD_LONGEST_2];
    size_t whole = card_of(card, most);
    expect(whole == (edition == 2 ? DIRGEMIST_CARD_LONGEST_2 : DIRGEMIST_CARD_LONGEST), "the longest card");
    for (size_t room = 0; room <= whole + 2; room++) {
        uint8_t *out = exactly(room);
        memset(out, 0x5A, room);
        texts++;
        size_t length = 99;
        uint8_t got = dirgemist_card_write(&meter, out, room, &length);
        int fits = room >= whole;
        expect(got == (fits ? DIRGEMIST_CARD_DONE : DIRGEMIST_CARD_NO_ROOM), "a meter's card");
        expect(length == (fits ? whole : 0), "a meter's card: the length");
        expect(!fits || memcmp(out, card, whole) == 0, "a meter's card: its bytes");
        for (size_t at = length; at < room; at++) {
            expect(out[at] == 0x5A, "a meter's card: the rest of the buffer");
        }
        give_back(out, room);
    }
    size_t length = 99;
    uint8_t out[1] = {0x5A};
    meter.registers.exported.zones[2] = meter.registers.exported.total = 1;
    uint8_t counted = decimals == 0 ? DIRGEMIST_CARD_MALFORMED : DIRGEMIST_CARD_NO_ROOM;
    expect(dirgemist_card_write(&meter, out, 1, &length) == counted, "what only an EQM meter counts");
    meter.mode = 5;
    expect(dirgemist_card_write(&meter, out, 1, &length) == DIRGEMIST_CARD_MALFORMED, "malformed, before no room");
    expect(length == 0 && out[0] == 0x5A, "malformed: nothing written");
    meter.registers.facts.edition = 3;
    expect(dirgemist_card_write(&meter, out, 1, &length) == DIRGEMIST_CARD_NO_EDITION, "no edition, before malformed");
    expect(length == 0 && out[0] == 0x5A, "no edition: nothing written");
}

/* 16 before all else, whatever the text and the room. */
static void try_none(uint8_t number) {
    size_t place = 99, length = 99;
    uint8_t out[1] = {0x5A};
    texts++;
    expect(dirgemist_card_check(number, (const uint8_t *)"x", 1, &place) == DIRGEMIST_CARD_NO_EDITION && place == 0, "no edition");
    place = 99;
    uint8_t got = dirgemist_card_read(number, (const uint8_t *)"x", 1, out, 1, &length, &place);
    expect(got == DIRGEMIST_CARD_NO_EDITION && length == 0 && place == 0 && out[0] == 0x5A, "no edition to read for");
}

/* The texts for one edition. */
static void try_edition(uint8_t number) {
    edition = number;
    most = number == 2 ? 25 : 24;
    uint8_t text[1024], frames[1024];
    frames_of(frames, most);
    for (int tables = 0; tables <= most; tables++) {
        size_t length = card_of(text, tables), size = 19 + 36 * (size_t)tables;
        try_text("a card", text, length, size, DIRGEMIST_CARD_DONE, size, 0, frames);
        try_text("a card, more room", text, length, size + 5, DIRGEMIST_CARD_DONE, size, 0, frames);
        try_text("a card, a byte less", text, length, size - 1, DIRGEMIST_CARD_NO_ROOM, 0, 0, frames);
        text[length] = 1;
        try_text("a second account", text, length + 1, size, DIRGEMIST_CARD_NOT_A_CARD, 0, length, frames);
    }
    size_t all = card_of(text, most);
    text[all] = 2;
    try_text("a table behind the last", text, all + 1, 2000, DIRGEMIST_CARD_NOT_A_CARD, 0, all, frames);
    for (size_t cut = 0; cut < all; cut++) {
        int whole = cut >= 13 && (cut - 13) % 28 == 0;
        size_t size = whole ? 19 + 36 * ((cut - 13) / 28) : 0;
        try_text("a beginning", text, cut, 919, whole ? DIRGEMIST_CARD_DONE : DIRGEMIST_CARD_NOT_A_CARD, size, whole ? 0 : cut, frames);
    }
    card_of(text, 2);
    text[1] = 10, text[2] = 0;
    try_text("length bytes swapped", text, 69, 0, DIRGEMIST_CARD_NOT_A_CARD, 0, 1, frames);
    card_of(text, 2);
    text[13 + 28 + 3] = 1;
    try_text("equal numbers", text, 69, 0, DIRGEMIST_CARD_NOT_A_CARD, 0, 44, frames);
    card_of(text, 1);
    try_text("a length for more than there is", text, 30, 0, DIRGEMIST_CARD_NOT_A_CARD, 0, 30, frames);
    try_meter(0);
    try_meter(3);
}

int main(void) {
    for (unsigned number = 0; number <= 255; number++) {
        if (number == 1 || number == 2) {
            try_edition((uint8_t)number);
        } else {
            try_none((uint8_t)number);
        }
    }
    printf("cardlink: %d texts and records\n", texts);
    return wrong;
}
