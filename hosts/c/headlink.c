/* headlink.c: a reading head in C. It builds every command, strips and parts replies, walks data sets and reads values, the good and the
 * refused, and holds each answer to what document 01 says. What is lent is memory of its exact size. Prints one line, and exits with 1 at
 * the first difference. */
#include "exactly.h"

#include "dirgemist_head.h"

#include <stdio.h>

/* The header's names for document 01's numbers. */
_Static_assert(DIRGEMIST_HEAD_END == 0 && DIRGEMIST_HEAD_DONE == 1, "end and done");
_Static_assert(DIRGEMIST_HEAD_FIELD == 9 && DIRGEMIST_HEAD_NO_ROOM == 19 && DIRGEMIST_HEAD_COMMAND_ROOM == 64, "commands");
_Static_assert(DIRGEMIST_HEAD_SHORT_COPY == 26 && DIRGEMIST_HEAD_DAMAGED == 24, "strip");
_Static_assert(DIRGEMIST_HEAD_NO_BLOCK == 22 && DIRGEMIST_HEAD_WRONG_BCC == 23 && DIRGEMIST_HEAD_MALFORMED == 25, "parts, sets and values");
_Static_assert(DIRGEMIST_HEAD_MISSING == 27, "lookups");
_Static_assert(DIRGEMIST_HEAD_NO_DECIMALS == 18, "EQM values");
_Static_assert(DIRGEMIST_HEAD_SERIAL == 10 && DIRGEMIST_HEAD_PASSWORD == 8 && DIRGEMIST_HEAD_ACCOUNT == 10 && DIRGEMIST_HEAD_ROW == 24, "fields");

#define KEPT 0x5A
#define COUNT(array) (sizeof(array) / sizeof *(array))
#define TEXT(text) (text), sizeof(text) - 1

static unsigned long calls = 0;

static void expect(int right, const char *what) {
    if (!right) {
        printf("headlink in C: call %lu differs: %s\n", calls, what);
        exit(1);
    }
}

/* ---- Characters, checksum and dates, as document 01 has them. */

static uint8_t with_parity(uint8_t character) {
    return (uint8_t)(character | (__builtin_parity(character) << 7));
}

static int is_digit(int c) {
    return c >= '0' && c <= '9';
}

static int is_letter(int c) {
    return (c >= 'A' && c <= 'Z') || (c >= 'a' && c <= 'z');
}

static int is_zone(int c) {
    return c >= '1' && c <= '4';
}

static int in_account(int c) {
    return is_letter(c) || is_digit(c) || c == ' ' || c == '_';
}

static int in_address(int c) {
    return is_letter(c) || is_digit(c) || c == '.' || c == '*';
}

static int in_value(int c) {
    return c >= 0x20 && c <= 0x7E && c != '(' && c != ')' && c != '/' && c != '!';
}

/* From the second character on. */
static uint8_t bcc_of(const char *text, size_t length) {
    uint8_t bcc = 0;
    for (size_t at = 1; at < length; at++) {
        bcc ^= (uint8_t)text[at];
    }
    return bcc;
}

static int is_date(int year, int month, int day) {
    static const int days[] = {31, 28, 31, 30, 31, 30, 31, 31, 30, 31, 30, 31};
    if (year < 2000 || year > 2099 || month < 1 || month > 12 || day < 1) {
        return 0;
    }
    return day <= days[month - 1] + (month == 2 && year % 4 == 0);
}

static int is_time(int hour, int minute, int second) {
    return hour < 24 && minute < 60 && second < 60;
}

/* ---- What is lent: a buffer of KEPT, the numbers handed out, and a field that may only be read. */

static uint8_t *out;
static size_t room;
static size_t *length, *start, *address_length, *value_length, *next, *place, *count, *value_start;
static const uint8_t *field;
static size_t field_length;

static void lend(size_t size) {
    out = exactly(size);
    room = size;
    memset(out, KEPT, size);
    *length = *start = *address_length = *value_length = *next = *place = *count = *value_start = 99;
    calls++;
}

/* The buffer holds these bytes, and is as it was behind them. */
static void holds(const uint8_t *bytes, size_t size, const char *what) {
    for (size_t at = 0; at < room; at++) {
        expect(out[at] == (at < size ? bytes[at] : KEPT), what);
    }
    give_back(out, room);
}

static void set_field(const char *bytes, size_t size) {
    give_back(field, field_length);
    field = lent(bytes, size);
    field_length = size;
}

/* ---- Commands. */

static const size_t rooms[] = {0, 1, 63, 64, 65, 100};

/* The answer to a command in this room: 19 first, then 9 where there is no text, else the text with its BCC and parity. */
static void answered(uint8_t got, const char *text, size_t text_length) {
    uint8_t wire[64];
    size_t size = 0;
    if (room >= 64 && text != NULL) {
        for (size_t at = 0; at < text_length; at++) {
            wire[size++] = with_parity((uint8_t)text[at]);
        }
        if (text[0] == 1) {
            wire[size++] = with_parity(bcc_of(text, text_length));
        }
    }
    expect(got == (room < 64 ? 19 : text == NULL ? 9 : 1), "a command's number");
    expect(*length == size, "a command's length");
    holds(wire, size, "a command's buffer");
}

#define BUILDS(text, text_length, call)                \
    for (size_t r = 0; r < COUNT(rooms); r++) {        \
        lend(rooms[r]);                                \
        uint8_t got = call;                            \
        answered(got, text, text_length);              \
    }
#define SAYS(text, call) BUILDS(text, sizeof(text) - 1, call)
#define REFUSES(call) BUILDS(NULL, 0, call)

#define FIXED(call, ...)                                       \
    do {                                                       \
        static const uint8_t wire[] = {__VA_ARGS__};           \
        lend(64);                                              \
        uint8_t got = call;                                    \
        expect(got == 1 && *length == sizeof wire, #call);     \
        holds(wire, sizeof wire, #call);                       \
    } while (0)

#define SIGN_ON_TO dirgemist_head_sign_on_to(field, field_length, out, room, length)
#define SIGN_ON_WIRED dirgemist_head_sign_on_wired(field, field_length, out, room, length)
#define PASSWORD dirgemist_head_password(field, field_length, out, room, length)
#define WRITE_ACCOUNT dirgemist_head_write_account(field, field_length, out, room, length)
#define WRITE_TABLE(edition, table) dirgemist_head_write_table(edition, table, field, field_length, out, room, length)

static void try_fixed_commands(void) {
    SAYS("/?!\r\n", dirgemist_head_sign_on(out, room, length));
    SAYS("/C!\r\n", dirgemist_head_close(out, room, length));
    FIXED(dirgemist_head_close(out, room, length), 0xAF, 0xC3, 0x21, 0x8D, 0x0A);
    SAYS("\001P1\002()\003", dirgemist_head_enter(out, room, length));
    SAYS("\001R1\002T()\003", dirgemist_head_read_clock(out, room, length));
    SAYS("\001R1\002L()\003", dirgemist_head_read_serial(out, room, length));
    SAYS("\001R1\002K()\003", dirgemist_head_read_account(out, room, length));
    SAYS("\001R1\002E0()\003", dirgemist_head_read_total(out, room, length));
    SAYS("\001R1\002G0()\003", dirgemist_head_read_total_out(out, room, length));
    FIXED(dirgemist_head_read_total_out(out, room, length), 0x81, 0xD2, 0xB1, 0x82, 0x47, 0x30, 0x28, 0xA9, 0x03, 0x14);
    SAYS("\001B0\003", dirgemist_head_sign_off(out, room, length));
    FIXED(dirgemist_head_sign_off(out, room, length), 0x81, 0x42, 0x30, 0x03, 0x71);
    FIXED(dirgemist_head_enter(out, room, length), 0x81, 0x50, 0xB1, 0x82, 0x28, 0xA9, 0x03, 0xE1);
}

/* Every byte as the number or the character. */
static void try_numbered_commands(void) {
    for (int c = 0; c < 256; c++) {
        char text[64];
        int size = sprintf(text, "\006" "05%c\r\n", c);
        int good = c == '0' || c == '1' || c == '6' || c == '7';
        BUILDS(good ? text : NULL, (size_t)size, dirgemist_head_confirm('5', (uint8_t)c, out, room, length));
        size = sprintf(text, "\006" "0%c1\r\n", c);
        good = c == '0' || c == '5';
        BUILDS(good ? text : NULL, (size_t)size, dirgemist_head_confirm((uint8_t)c, '1', out, room, length));
        size = sprintf(text, "\001R1\002E%d()\003", c);
        BUILDS(c >= 1 && c <= 4 ? text : NULL, (size_t)size, dirgemist_head_read_zone((uint8_t)c, out, room, length));
        size = sprintf(text, "\001R1\002G%d()\003", c);
        BUILDS(c >= 1 && c <= 4 ? text : NULL, (size_t)size, dirgemist_head_read_zone_out((uint8_t)c, out, room, length));
        size = sprintf(text, "\001R1\002Z(%02d)\003", c);
        for (uint8_t edition = 1; edition <= 2; edition++) {
            BUILDS(c >= 1 && c <= 23 + edition ? text : NULL, (size_t)size, dirgemist_head_read_table(edition, (uint8_t)c, out, room, length));
        }
        size = sprintf(text, "\001W1\002Z(%02d;123412341234123412341234)\003", c);
        set_field(TEXT("123412341234123412341234"));
        for (uint8_t edition = 1; edition <= 2; edition++) {
            BUILDS(c >= 1 && c <= 23 + edition ? text : NULL, (size_t)size, WRITE_TABLE(edition, (uint8_t)c));
        }
        if (c != 1 && c != 2) {
            /* 16 before no room and before a bad field */
            uint8_t byte = KEPT;
            size_t none = 99;
            expect(dirgemist_head_read_table((uint8_t)c, 0, &byte, 1, &none) == DIRGEMIST_HEAD_NO_EDITION && none == 0 && byte == KEPT, "no edition");
            none = 99;
            expect(dirgemist_head_write_table((uint8_t)c, 0, &byte, 0, &byte, 1, &none) == DIRGEMIST_HEAD_NO_EDITION && none == 0 && byte == KEPT, "no edition");
        }
    }
}

/* Fields of characters: every byte at every place, and every length up to two too many. */
static void try_fields(void) {
    char text[64], characters[27];
    for (size_t size = 0; size <= 12; size++) {
        set_field("123456789012", size);
        BUILDS(size == 10 ? "/?123 4567890!\r\n" : NULL, 16, SIGN_ON_TO);
        BUILDS(size == 10 ? "/A123.4567890\r\n" : NULL, 15, SIGN_ON_WIRED);
        BUILDS(size == 8 ? "\001P1\002(12345678)\003" : NULL, 15, PASSWORD);
        BUILDS(size == 10 ? "\001W1\002K(1234567890)\003" : NULL, 18, WRITE_ACCOUNT);
    }
    for (size_t size = 0; size <= 26; size++) {
        set_field("11111111111111111111111111", size);
        BUILDS(size == 24 ? "\001W1\002Z(01;111111111111111111111111)\003" : NULL, 35, WRITE_TABLE(1, 1));
    }
    for (size_t at = 0; at < 24; at++) {
        for (int c = 0; c < 256; c++) {
            memcpy(characters, "123412341234123412341234", 24);
            characters[at] = (char)c;
            set_field(characters, 24);
            memcpy(text, "\001W1\002Z(24;", 9);
            memcpy(text + 9, characters, 24);
            memcpy(text + 33, ")\003", 2);
            BUILDS(is_zone(c) ? text : NULL, 35, WRITE_TABLE(1, 24));
            if (at < 10) {
                memcpy(characters, "2030405060", 10);
                characters[at] = (char)c;
                set_field(characters, 10);
                memcpy(text, "/?", 2);
                memcpy(text + 2, characters, 3);
                text[5] = ' ';
                memcpy(text + 6, characters + 3, 7);
                memcpy(text + 13, "!\r\n", 3);
                BUILDS(is_digit(c) ? text : NULL, 16, SIGN_ON_TO);
                memcpy(text, "\001W1\002K(", 6);
                memcpy(text + 6, characters, 10);
                memcpy(text + 16, ")\003", 2);
                BUILDS(in_account(c) ? text : NULL, 18, WRITE_ACCOUNT);
            }
            if (at < 8) {
                set_field(characters, 8);
                memcpy(text, "\001P1\002(", 5);
                memcpy(text + 5, characters, 8);
                memcpy(text + 13, ")\003", 2);
                BUILDS(is_digit(c) ? text : NULL, 15, PASSWORD);
            }
        }
    }
    set_field(TEXT("111111111111111111111111"));
    REFUSES(WRITE_TABLE(1, 0));
    REFUSES(WRITE_TABLE(1, 25));
    static const struct { uint8_t table, bcc; } known[] = {{1, 0x06}, {4, 0x03}, {6, 0x81}};
    for (size_t i = 0; i < COUNT(known); i++) {
        lend(64);
        expect(WRITE_TABLE(1, known[i].table) == 1 && *length == 36 && out[35] == known[i].bcc, "the BCC of a row of '1'");
        give_back(out, room);
    }
    FIXED(WRITE_TABLE(1, 1), 0x81, 0xD7, 0xB1, 0x82, 0x5A, 0x28, 0x30, 0xB1, 0xBB, 0xB1, 0xB1, 0xB1, 0xB1, 0xB1, 0xB1, 0xB1, 0xB1, 0xB1, 0xB1,
          0xB1, 0xB1, 0xB1, 0xB1, 0xB1, 0xB1, 0xB1, 0xB1, 0xB1, 0xB1, 0xB1, 0xB1, 0xB1, 0xB1, 0xA9, 0x03, 0x06);
}

static void try_clock(int year, int month, int day, int hour, int minute, int second) {
    char text[64];
    int size = sprintf(text, "\001W1\002T(%02d-%02d-%04d;%02d:%02d:%02d)\003", day, month, year, hour, minute, second);
    int good = is_date(year, month, day) && is_time(hour, minute, second);
    BUILDS(good ? text : NULL, (size_t)size,
           dirgemist_head_write_clock((uint16_t)year, (uint8_t)month, (uint8_t)day, (uint8_t)hour, (uint8_t)minute, (uint8_t)second, out, room, length));
}

static void try_clocks(void) {
    static const int years[] = {0, 1999, 2000, 2001, 2023, 2024, 2099, 2100, 2104, 65535};
    for (size_t y = 0; y < COUNT(years); y++) {
        for (int month = 0; month <= 13; month++) {
            static const int days[] = {0, 1, 28, 29, 30, 31, 32, 255};
            for (size_t d = 0; d < COUNT(days); d++) {
                try_clock(years[y], month, days[d], 23, 59, 59);
            }
        }
    }
    static const int hours[] = {0, 9, 23, 24, 255}, sixties[] = {0, 9, 59, 60, 255};
    for (size_t h = 0; h < 5; h++) {
        for (size_t m = 0; m < 5; m++) {
            for (size_t s = 0; s < 5; s++) {
                try_clock(2024, 2, 29, hours[h], sixties[m], sixties[s]);
            }
        }
    }
}

/* ---- Replies. */

/* Whole where no byte is damaged, else damaged first at `hurt`. */
static void try_strip(const uint8_t *reply, size_t size, size_t in, int damaged, size_t hurt) {
    uint8_t seven[1100];
    uint8_t number = in < size ? 26 : damaged ? 24 : 1;
    for (size_t at = 0; at < size; at++) {
        seven[at] = reply[at] & 0x7F;
    }
    const uint8_t *own = lent(reply, size);
    lend(in);
    expect(dirgemist_head_strip(own, size, out, room, length, place) == number, "strip's number");
    expect(*length == (number == 1 ? size : 0), "strip's length");
    expect(*place == (number == 24 ? hurt : 0), "strip's place");
    holds(seven, number == 1 ? size : 0, "strip's buffer");
    give_back(own, size);
}

static void try_strips(void) {
    static const size_t sizes[] = {0, 1, 2, 7, 8, 9, 15, 16, 17, 31, 32, 33, 63, 64, 65, 128, 1063};
    uint8_t reply[1063];
    for (size_t at = 0; at < sizeof reply; at++) {
        reply[at] = with_parity((uint8_t)(at % 128));
    }
    for (size_t i = 0; i < COUNT(sizes); i++) {
        size_t size = sizes[i];
        try_strip(reply, size, size, 0, 0);
        try_strip(reply, size, size + 1, 0, 0);
        try_strip(reply, size, size + 40, 0, 0);
        if (size > 0) {
            try_strip(reply, size, size - 1, 0, 0);
            try_strip(reply, size, 0, 0, 0);
        }
        for (size_t at = 0; at < size; at++) {
            reply[at] ^= (uint8_t)(1 << at % 8);
            try_strip(reply, size, size, 1, at);
            try_strip(reply, size, size - 1, 1, at);
            reply[size - 1] ^= (uint8_t)(at + 1 < size);
            try_strip(reply, size, size, 1, at);
            reply[size - 1] ^= (uint8_t)(at + 1 < size);
            reply[at] ^= (uint8_t)(1 << at % 8);
        }
    }
    for (int c = 0; c < 256; c++) {
        uint8_t one = (uint8_t)c;
        try_strip(&one, 1, 1, __builtin_popcount((unsigned)c) % 2 == 1, 0);
    }
}

/* A good block's part begins behind its STX and leaves out STX, ETX and BCC. */
static void try_part(const char *block, size_t size, uint8_t number) {
    const uint8_t *own = lent(block, size);
    lend(0);
    expect(dirgemist_head_part(own, size, start, length) == number, "part's number");
    expect(*start == (number == 1 ? 1 : 0) && *length == (number == 1 ? size - 3 : 0), "the part");
    give_back(out, room);
    give_back(own, size);
}

static void try_parts(void) {
    static const char counter[] = "\00215.8.1(000001.500*kWh)\r\n\003\x6c";
    char block[sizeof counter - 1];
    size_t size = sizeof block;
    for (size_t cut = 0; cut < size; cut++) {
        try_part(counter, cut, 22);
    }
    for (size_t at = 0; at < size; at++) {
        for (int c = 0; c < 256; c++) {
            memcpy(block, counter, size);
            block[at] = (char)c;
            int edge = at == 0 || at == size - 2;
            int no_block = c > 0x7F || (edge && block[at] != counter[at]) || (c == 3 && at < size - 2);
            try_part(block, size, no_block ? 22 : block[at] == counter[at] ? 1 : 23);
        }
    }
    try_part(TEXT("\002\003\003"), 1);
    try_part(TEXT("\002\003\002"), 23);
    try_part(TEXT("\002\003"), 22);
    try_part(TEXT("\002AA\003\003"), 1);
    try_part(TEXT("\002\002\003\001"), 1);
    try_part(TEXT("\002\003\003\003"), 22);
}

static void try_next(const char *sets, size_t size, size_t at, uint8_t number, size_t address, size_t value) {
    const uint8_t *own = lent(sets, size);
    lend(0);
    expect(dirgemist_head_next(own, size, at, address_length, value_length, next, place) == number, "next's number");
    expect(*address_length == address && *value_length == value, "a set's lengths");
    expect(*next == (number == 1 ? at + address + value + 4 : at), "the place behind a set");
    expect(*place == (number == 25 ? at : 0), "a malformed set's place");
    give_back(out, room);
    give_back(own, size);
}

static void try_set_after(const char *sets, size_t size, size_t count, uint8_t number, size_t at, size_t address, size_t value) {
    const uint8_t *own = lent(sets, size);
    lend(0);
    expect(dirgemist_head_set_after(own, size, count, start, address_length, value_length, next, place) == number, "set_after's number");
    expect(*start == at && *address_length == address && *value_length == value, "the set behind so many");
    expect(*next == (number == 1 ? at + address + value + 4 : at), "the place behind it");
    expect(*place == (number == 25 ? at : 0), "its place where malformed");
    give_back(out, room);
    give_back(own, size);
}

static void try_sets(void) {
    static const char sets[] = "C.1.0(123 4567890)\r\n0.0.0()\r\n15.8.1(000001.500*kWh)\r\n!\r\nC.1.0(1)\r\n";
    static const struct { size_t at, address, value; } known[] = {{0, 5, 11}, {20, 5, 0}, {29, 6, 14}};
    size_t size = sizeof sets - 1;
    for (size_t i = 0; i < 3; i++) {
        try_next(sets, size, known[i].at, 1, known[i].address, known[i].value);
        try_set_after(sets, size, i, 1, known[i].at, known[i].address, known[i].value);
        try_set_after(sets, 53, i, 1, known[i].at, known[i].address, known[i].value);
    }
    static const size_t many[] = {3, 4, 100, SIZE_MAX};
    for (size_t i = 0; i < COUNT(many); i++) {
        try_set_after(sets, size, many[i], 0, 53, 0, 0);
        try_set_after(sets, 53, many[i], 0, 53, 0, 0);
        try_set_after(sets, 52, many[i], 25, 29, 0, 0);
        try_set_after("", 0, many[i], 0, 0, 0, 0);
    }
    try_set_after(sets, 52, 2, 25, 29, 0, 0);
    try_set_after(sets, 52, 1, 1, 20, 5, 0);
    try_next(sets, size, 53, 0, 0, 0);
    static const size_t past[] = {0, 1, 2, 100, SIZE_MAX - 68};
    for (size_t i = 0; i < COUNT(past); i++) {
        try_next(sets, size, size + past[i], 0, 0, 0);
    }
    try_next(sets, size, SIZE_MAX, 0, 0, 0);
    for (size_t cut = 1; cut < 20; cut++) {
        try_next(sets, cut, 0, 25, 0, 0);
    }
    try_next("", 0, 0, 0, 0, 0);
    try_next("!\r\n", 3, 0, 0, 0, 0);
    try_next("!\r\n", 2, 0, 25, 0, 0);
    try_next("!\r\n", 1, 0, 25, 0, 0);
    try_next(TEXT("!\n\r"), 0, 25, 0, 0);
    try_next(TEXT("(1)\r\n"), 0, 25, 0, 0);

    /* Addresses up to 16, values up to 32. */
    char line[64];
    for (int address = 0; address <= 18; address++) {
        int wide = sprintf(line, "%.*s(1)\r\n", address, "15.8.1aZ90.15.8.10");
        int good = address >= 1 && address <= 16;
        try_next(line, (size_t)wide, 0, good ? 1 : 25, good ? (size_t)address : 0, good ? 1 : 0);
    }
    for (int value = 0; value <= 34; value++) {
        int wide = sprintf(line, "0.0.0(%.*s)\r\n", value, "0123456789 abcdefghij*:;-_~0123456");
        int good = value <= 32;
        try_next(line, (size_t)wide, 0, good ? 1 : 25, good ? 5 : 0, good ? (size_t)value : 0);
    }

    /* Every byte at every place of a set: in the address, in the value, or a fixed one. */
    static const char set[] = "A.1(x y)\r\n";
    for (size_t at = 0; at < 10; at++) {
        for (int c = 0; c < 256; c++) {
            memcpy(line, set, 10);
            line[at] = (char)c;
            int good = at < 3 ? in_address(c) : at >= 4 && at < 7 ? in_value(c) : c == set[at];
            try_next(line, 10, 0, good ? 1 : 25, good ? 3 : 0, good ? 3 : 0);
        }
    }
}

/* What is asked for, as many bytes as it has, in memory of its own. */
static void try_find(const char *sets, size_t size, const char *asked, size_t asked_size, uint8_t number, size_t read, size_t at, size_t address, size_t value) {
    const uint8_t *own = lent(sets, size), *asks = lent(asked, asked_size);
    int found = number == 1;
    lend(0);
    expect(dirgemist_head_find(own, size, asks, asked_size, count, place, start, address_length, value_start, value_length) == number, "find's number");
    expect(*count == read, "how many sets were read");
    expect(*place == (number == 25 ? at : 0), "the place of a malformed set before any match");
    expect(*start == (found ? at : 0) && *address_length == (found ? address : 0), "the address that was found");
    expect(*value_start == (found ? at + address + 1 : 0) && *value_length == (found ? value : 0), "the value that was found");
    give_back(out, room);
    give_back(asks, asked_size);
    give_back(own, size);
}

static void try_finds(void) {
    static const char sets[] = "C.1.0(123 4567890)\r\n0.0.0()\r\n15.8.1(000001.500*kWh)\r\n0.0.0(again)\r\n!\r\n15.8.0(x)\r\n";
    static const size_t starts[] = {0, 20, 29, 53, 67};
    size_t size = sizeof sets - 1;
    static const struct { const char *address; size_t read, at, value; } known[] = {{"C.1.0", 1, 0, 11}, {"0.0.0", 2, 20, 0}, {"15.8.1", 3, 29, 14}};
    for (size_t i = 0; i < COUNT(known); i++) {
        const char *address = known[i].address;
        size_t wide = strlen(address), end = known[i].at + wide + known[i].value + 4;
        try_find(sets, size, address, wide, 1, known[i].read, known[i].at, wide, known[i].value);

        /* Cut anywhere: the same from the end of the match on, and before it the set that is cut. */
        for (size_t cut = 0; cut <= size; cut++) {
            size_t good = 0;
            while (good < 4 && starts[good + 1] <= cut) {
                good++;
            }
            if (cut >= end) {
                try_find(sets, cut, address, wide, 1, known[i].read, known[i].at, wide, known[i].value);
            } else {
                try_find(sets, cut, address, wide, starts[good] == cut ? 27 : 25, good, starts[good], 0, 0);
            }
        }

        /* Any byte behind the match: the same. Any byte in place of one before it that a set can't have: the place of that set. */
        char hurt[sizeof sets];
        for (size_t at = 0; at < size; at++) {
            memcpy(hurt, sets, size);
            hurt[at] = '\0';
            size_t line = 0;
            while (line < 3 && starts[line + 1] <= at) {
                line++;
            }
            if (at >= end) {
                try_find(hurt, size, address, wide, 1, known[i].read, known[i].at, wide, known[i].value);
            } else {
                try_find(hurt, size, address, wide, 25, line, starts[line], 0, 0);
            }
        }

        /* A beginning of the address, and more than it. */
        char asked[20];
        for (size_t part = 0; part < wide; part++) {
            try_find(sets, size, address, part, 27, 4, 0, 0, 0);
        }
        memcpy(asked, address, wide);
        for (int c = 0; c < 256; c++) {
            asked[wide] = (char)c;
            try_find(sets, size, asked, wide + 1, 27, 4, 0, 0, 0);
        }
    }

    /* What stands behind `!` is no set; nothing is found in nothing; no set has an address of none, or of 17. */
    try_find(sets, size, TEXT("15.8.0"), 27, 4, 0, 0, 0);
    try_find(sets + starts[4], size - starts[4], TEXT("15.8.0"), 27, 0, 0, 0, 0);
    try_find("", 0, TEXT("15.8.0"), 27, 0, 0, 0, 0);
    try_find("", 0, "", 0, 27, 0, 0, 0, 0);
    try_find(TEXT("(1)\r\n"), "", 0, 25, 0, 0, 0, 0);
    try_find(TEXT("!\r"), TEXT("!"), 25, 0, 0, 0, 0);
    try_find(TEXT("ABCDEFGHIJKLMNOP(1)\r\n"), TEXT("ABCDEFGHIJKLMNOP"), 1, 1, 0, 16, 1);
    try_find(TEXT("ABCDEFGHIJKLMNOP(1)\r\n"), TEXT("ABCDEFGHIJKLMNOPQ"), 27, 1, 0, 0, 0);
    try_find(TEXT("ABCDEFGHIJKLMNOPQ(1)\r\n"), TEXT("ABCDEFGHIJKLMNOPQ"), 25, 0, 0, 0, 0);
}

/* ---- Values. */

static const uint8_t zeros[24];

/* A value of `size` characters, or with NULL a malformed one, in rooms around that size: 26 where it is shorter. */
#define READS(call, size, characters)                                                                            \
    for (size_t in = 0; in <= (size) + 3; in += in + 1 < (size) ? (size) - 1 : 1) {                              \
        const char *right = characters;                                                                          \
        lend(in);                                                                                                \
        uint8_t number = in < (size) ? 26 : right == NULL ? 25 : 1;                                              \
        expect(call(field, field_length, out, room) == number, #call);                                           \
        holds(right == NULL ? zeros : (const uint8_t *)right, in < (size) ? 0 : (size), #call " and its buffer"); \
    }

static void try_characters(void) {
    for (size_t size = 0; size <= 13; size++) {
        set_field("123 456789012", size);
        READS(dirgemist_head_value_serial, 10, size == 11 ? "1234567890" : NULL);
        set_field("Kiln_7 old__ ", size);
        READS(dirgemist_head_value_account, 10, size == 10 ? "Kiln_7 old" : NULL);
    }
    for (size_t size = 0; size <= 26; size++) {
        set_field("12341234123412341234123412", size);
        READS(dirgemist_head_value_row, 24, size == 24 ? "123412341234123412341234" : NULL);
    }
    for (size_t at = 0; at < 24; at++) {
        for (int c = 0; c < 256; c++) {
            char characters[24];
            memcpy(characters, "432143214321432143214321", 24);
            characters[at] = (char)c;
            set_field(characters, 24);
            READS(dirgemist_head_value_row, 24, is_zone(c) ? characters : NULL);
            if (at < 10) {
                memcpy(characters, "9876543210", 10);
                characters[at] = (char)c;
                set_field(characters, 10);
                READS(dirgemist_head_value_account, 10, in_account(c) ? characters : NULL);
                char shown[11];
                memcpy(shown, characters, 3);
                shown[3] = ' ';
                memcpy(shown + 4, characters + 3, 7);
                set_field(shown, 11);
                READS(dirgemist_head_value_serial, 10, is_digit(c) ? characters : NULL);
                memcpy(shown, "987 6543210", 11);
                shown[3] = (char)c;
                set_field(shown, 11);
                READS(dirgemist_head_value_serial, 10, c == ' ' ? "9876543210" : NULL);
            }
        }
    }
}

static uint16_t *year;
static uint8_t *first, *second, *third, *fourth;
static uint32_t *wh;

static void try_date(const char *text, size_t size, int y, int m, int d) {
    set_field(text, size);
    int good = is_date(y, m, d);
    *year = 99;
    *second = *third = 99;
    calls++;
    expect(dirgemist_head_value_date(field, field_length, year, second, third) == (good ? 1 : 25), "a date's number");
    expect(*year == (good ? y : 0) && *second == (good ? m : 0) && *third == (good ? d : 0), "a date");
}

/* An hour of 99 says that the text is no time. */
static void try_time(const char *text, size_t size, int h, int m, int s) {
    set_field(text, size);
    int good = is_time(h, m, s);
    *first = *second = *third = 99;
    calls++;
    expect(dirgemist_head_value_time(field, field_length, first, second, third) == (good ? 1 : 25), "a time's number");
    expect(*first == (good ? h : 0) && *second == (good ? m : 0) && *third == (good ? s : 0), "a time");
}

/* An hour of 99 says that the text is no such time. */
static void try_period(const char *text, size_t size, int y, int m, int d, int h, int n) {
    set_field(text, size);
    int good = is_date(y, m, d) && is_time(h, n, 0);
    *year = 99;
    *first = *second = *third = *fourth = 99;
    calls++;
    expect(dirgemist_head_value_period(field, field_length, year, first, second, third, fourth) == (good ? 1 : 25), "a period's number");
    expect(*year == (good ? y : 0) && *first == (good ? m : 0) && *second == (good ? d : 0), "a period's date");
    expect(*third == (good ? h : 0) && *fourth == (good ? n : 0), "a period's hour and minute");
}

static void try_counter(const char *text, size_t size, int good, uint32_t value) {
    set_field(text, size);
    *wh = 99;
    calls++;
    expect(dirgemist_head_value_counter(field, field_length, wh) == (good ? 1 : 25), "a counter's number");
    expect(*wh == (good ? value : 0), "a counter");
}

/* With these decimals as with any others: 18 first, and then the form of just these. */
static void try_eqm(const char *text, size_t size, int decimals, int good, uint32_t value) {
    set_field(text, size);
    for (int other = 0; other < 256; other++) {
        int none = other < 2 || other > 4;
        if (none && other > 6 && other < 250 && other % 16 != 0) {
            continue;
        }
        uint8_t number = none ? 18 : good && other == decimals ? 1 : 25;
        *wh = 99;
        calls++;
        expect(dirgemist_head_value_eqm((uint8_t)other, field, field_length, wh) == number, "an EQM counter's number");
        expect(*wh == (number == 1 ? value : 0), "an EQM counter");
    }
}

/* Counters of each decimals, every byte at every place of them, and every other length. */
static void try_eqm_values(void) {
    static const uint32_t counters[] = {0, 1, 99, 100, 999, 1000, 1500, 9999, 10000, 12345678, 99999000, 99999999};
    char text[32], digits[16];
    for (int decimals = 2; decimals <= 4; decimals++) {
        size_t point = (size_t)(8 - decimals);
        for (size_t i = 0; i < COUNT(counters); i++) {
            sprintf(digits, "%08u", (unsigned)counters[i]);
            int size = sprintf(text, "%.*s.%s*kWh", (int)point, digits, digits + point);
            try_eqm(text, (size_t)size, decimals, 1, counters[i]);
        }
        for (size_t at = 0; at < 13; at++) {
            for (int c = 0; c < 256; c++) {
                sprintf(text, "%.*s.%s*kWh", (int)point, "11111111", "11111111" + point);
                int good = at < 9 && at != point ? is_digit(c) : c == text[at];
                text[at] = (char)c;
                uint32_t value = 0;
                for (size_t i = 0; i < 9; i++) {
                    value = i == point ? value : value * 10 + (uint32_t)(text[i] - '0');
                }
                try_eqm(text, 13, decimals, good, value);
            }
        }
        sprintf(text, "%.*s.%s*kWh0000", (int)point, "00001500", "00001500" + point);
        for (size_t size = 0; size <= 16; size++) {
            try_eqm(text, size, decimals, size == 13, 1500);
        }
    }
    /* the form of document 01's family is none of these */
    try_eqm(TEXT("000001.500*kWh"), 0, 0, 0);
}

static void try_numbers(void) {
    char text[64];
    static const int years[] = {0, 1, 4, 23, 24, 96, 99};
    for (size_t y = 0; y < COUNT(years); y++) {
        for (int m = 0; m <= 13; m++) {
            for (int d = 0; d <= 32; d++) {
                int size = sprintf(text, "%02d-%02d-%02d", years[y], m, d);
                try_date(text, (size_t)size, 2000 + years[y], m, d);
                size = sprintf(text, "%02d-%02d-%02d %02d:%02d", years[y], m, d, d % 24, 4 * m + 3);
                try_period(text, (size_t)size, 2000 + years[y], m, d, d % 24, 4 * m + 3);
            }
        }
    }
    for (int h = 0; h <= 25; h++) {
        for (int m = 0; m <= 61; m++) {
            int size = sprintf(text, "%02d:%02d:%02d", h, m, 61 - m);
            try_time(text, (size_t)size, h, m, 61 - m);
            size = sprintf(text, "24-02-29 %02d:%02d", h, m);
            try_period(text, (size_t)size, 2024, 2, 29, h, m);
        }
    }
    static const uint32_t counters[] = {0, 1, 999, 1000, 1500, 123456789, 999999000, 999999999};
    for (size_t i = 0; i < COUNT(counters); i++) {
        int size = sprintf(text, "%06u.%03u*kWh", counters[i] / 1000, counters[i] % 1000);
        try_counter(text, (size_t)size, 1, counters[i]);
    }

    /* Every byte at every place: a digit where one stands, or the fixed character; and every other length. */
    for (size_t at = 0; at < 14; at++) {
        for (int c = 0; c < 256; c++) {
            int digit = is_digit(c);
            uint32_t value = 0;
            memcpy(text, "111111.111*kWh", 14);
            int good = at < 6 || (at > 6 && at < 10) ? digit : c == text[at];
            text[at] = (char)c;
            for (size_t i = 0; i < 10; i++) {
                value = i == 6 ? value : value * 10 + (uint32_t)(text[i] - '0');
            }
            try_counter(text, 14, good, value);
            memcpy(text, "11-11-11 11:11", 14);
            good = at % 3 == 2 ? c == text[at] : digit;
            text[at] = (char)c;
            int pairs[5];
            for (size_t i = 0; i < 5; i++) {
                pairs[i] = (text[3 * i] - '0') * 10 + text[3 * i + 1] - '0';
            }
            try_period(text, 14, 2000 + pairs[0], pairs[1], pairs[2], good ? pairs[3] : 99, pairs[4]);
            if (at < 8) {
                memcpy(text, "11-11-11", 8);
                good = at % 3 == 2 ? c == '-' : digit;
                text[at] = (char)c;
                try_date(text, 8, good ? 2000 + (text[0] - '0') * 10 + text[1] - '0' : 0, (text[3] - '0') * 10 + text[4] - '0',
                         (text[6] - '0') * 10 + text[7] - '0');
                memcpy(text, "11:11:11", 8);
                good = at % 3 == 2 ? c == ':' : digit;
                text[at] = (char)c;
                try_time(text, 8, good ? (text[0] - '0') * 10 + text[1] - '0' : 99, (text[3] - '0') * 10 + text[4] - '0',
                         (text[6] - '0') * 10 + text[7] - '0');
            }
        }
    }
    for (size_t size = 0; size <= 16; size++) {
        try_counter("000001.500*kWh00", size, size == 14, 1500);
        try_date("24-02-2900000000", size, size == 8 ? 2024 : 0, 2, 29);
        try_time("23:05:0900000000", size, size == 8 ? 23 : 99, 5, 9);
        try_period("24-02-29 23:0500", size, 2024, 2, 29, size == 14 ? 23 : 99, 5);
    }
}

int main(void) {
    length = exactly(sizeof *length);
    start = exactly(sizeof *start);
    address_length = exactly(sizeof *address_length);
    value_length = exactly(sizeof *value_length);
    next = exactly(sizeof *next);
    place = exactly(sizeof *place);
    count = exactly(sizeof *count);
    value_start = exactly(sizeof *value_start);
    year = exactly(sizeof *year);
    first = exactly(1);
    second = exactly(1);
    third = exactly(1);
    fourth = exactly(1);
    wh = exactly(sizeof *wh);
    field = lent("", 0);

    try_fixed_commands();
    try_numbered_commands();
    try_fields();
    try_clocks();
    try_strips();
    try_parts();
    try_sets();
    try_finds();
    try_characters();
    try_numbers();
    try_eqm_values();

    printf("headlink in C: %lu calls, as document 01 has them\n", calls);
    return 0;
}
