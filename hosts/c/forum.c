/* forum.c: uses the post check and the export as the forum server does, and tries the fixed cases
 * of document 01, for both editions. Buffers are memory of their exact size, and all frames are compared. Prints
 * one line, and exits with 1 on any difference. */
#include "exactly.h"

#include "dirgemist.h"

#include <stdio.h>

#define MOST 25

static uint8_t edition;
static int tables; /* of that edition */

static int wrong = 0;
static int texts = 0;

static void expect(int right, const char *what) {
    if (!right) {
        printf("forum: differs: %s\n", what);
        wrong = 1;
    }
}

/* The posts of tables 1 to `lines`, every row all '1', into text; its length. */
static size_t post_of(uint8_t *text, int lines) {
    size_t at = 0;
    for (int number = 1; number <= lines; number++) {
        at += (size_t)sprintf((char *)text + at, "131.0.%02d(111111111111111111111111)\r\n", number);
    }
    memcpy(text + at, "!\r\n", 3);
    return at + 3;
}

/* The frames of that post: SOH W1 STX Z(xx;row) ETX BCC with even parity. */
static void frames_of(uint8_t *frames, int lines) {
    for (int number = 1; number <= lines; number++) {
        char frame[2 * DIRGEMIST_FRAME];
        sprintf(frame, "\001W1\002Z(%02d;111111111111111111111111)\003", number);
        uint8_t bcc = 0;
        for (size_t at = 1; at < DIRGEMIST_FRAME - 1; at++) {
            bcc ^= (uint8_t)frame[at];
        }
        frame[DIRGEMIST_FRAME - 1] = (char)bcc;
        for (size_t at = 0; at < DIRGEMIST_FRAME; at++) {
            *frames++ = (uint8_t)(frame[at] | __builtin_parity((uint8_t)frame[at]) << 7);
        }
    }
}

/* One text through both functions, in a buffer of `room` bytes of 0x5A; what the export wrote is
 * compared with `frames`. */
static void try_text(const char *what, const void *text, size_t text_length, size_t room,
                     uint8_t number, size_t length, size_t place, const uint8_t *frames) {
    const uint8_t *own = lent(text, text_length);
    uint8_t *out = exactly(room);
    memset(out, 0x5A, room);
    texts++;

    size_t got_place = 99, got_length = 99;
    uint8_t got = dirgemist_post_check(edition, own, text_length, &got_place);
    expect(got == (number == DIRGEMIST_NOT_A_POST ? DIRGEMIST_NOT_A_POST : DIRGEMIST_DONE), what);
    expect(got_place == place, what);

    got_place = 99;
    got = dirgemist_post_export(edition, own, text_length, out, room, &got_length, &got_place);
    expect(got == number && got_length == length && got_place == place, what);
    if (frames != NULL) {
        expect(memcmp(out, frames, length) == 0, what);
    }
    for (size_t at = length; at < room; at++) {
        expect(out[at] == 0x5A, what);
    }
    give_back(out, room);
    give_back(own, text_length);
}

/* The texts for one edition. */
static void try_edition(uint8_t number) {
    edition = number;
    tables = number == 2 ? 25 : 24;
    static const uint8_t one_frame[DIRGEMIST_FRAME] = {
        0x81, 0xD7, 0xB1, 0x82, 0x5A, 0x28, 0x30, 0xB1, 0xBB, 0xB1, 0xB1, 0xB1, 0xB1, 0xB1, 0xB1, 0xB1, 0xB1, 0xB1,
        0xB1, 0xB1, 0xB1, 0xB1, 0xB1, 0xB1, 0xB1, 0xB1, 0xB1, 0xB1, 0xB1, 0xB1, 0xB1, 0xB1, 0xB1, 0xA9, 0x03, 0x06,
    };
    static uint8_t text[DIRGEMIST_LONGEST_POST_2 + 64], all_frames[MOST * DIRGEMIST_FRAME];

    frames_of(all_frames, tables);
    expect(memcmp(all_frames, one_frame, DIRGEMIST_FRAME) == 0, "the first frame, written down here");
    size_t one = post_of(text, 1);
    expect(one == DIRGEMIST_LINE + 3, "length of a line");
    try_text("one line, exact room", text, one, DIRGEMIST_FRAME, DIRGEMIST_DONE, DIRGEMIST_FRAME, 0, one_frame);
    try_text("one line, more room", text, one, 100, DIRGEMIST_DONE, DIRGEMIST_FRAME, 0, one_frame);
    try_text("one line, room one too small", text, one, DIRGEMIST_FRAME - 1, DIRGEMIST_NO_ROOM, 0, 0, NULL);
    try_text("one line, no room", text, one, 0, DIRGEMIST_NO_ROOM, 0, 0, NULL);
    try_text("one line and more", text, one + 1, 100, DIRGEMIST_NOT_A_POST, 0, one, NULL);
    for (size_t length = 0; length < one; length++) {
        try_text("beginning of a line", text, length, 100, DIRGEMIST_NOT_A_POST, 0, length, NULL);
    }

    size_t longest = post_of(text, tables);
    size_t all = (size_t)tables * DIRGEMIST_FRAME;
    expect(longest == (edition == 2 ? DIRGEMIST_LONGEST_POST_2 : DIRGEMIST_LONGEST_POST), "length of the longest post");
    try_text("longest post, exact room", text, longest, all, DIRGEMIST_DONE, all, 0, all_frames);
    try_text("longest post, more room", text, longest, all + 100, DIRGEMIST_DONE, all, 0, all_frames);
    try_text("longest post, room one too small", text, longest, all - 1, DIRGEMIST_NO_ROOM, 0, 0, NULL);
    for (int lines = 1; lines <= tables; lines++) {
        size_t length = post_of(text, lines), frames = (size_t)lines * DIRGEMIST_FRAME;
        try_text("a post of some lines", text, length, frames, DIRGEMIST_DONE, frames, 0, all_frames);
        try_text("a post of some lines, room one too small", text, length, frames - 1, DIRGEMIST_NO_ROOM, 0, 0, NULL);
    }
    for (size_t at = 0; at < longest; at++) {
        uint8_t kept = text[at];
        text[at] = 0x7F;
        try_text("longest post, one byte damaged", text, longest, all, DIRGEMIST_NOT_A_POST, 0, at, NULL);
        text[at] = kept;
    }

    /* 20 before 21, and nothing to read or to write. */
    try_text("empty text, no room", "", 0, 0, DIRGEMIST_NOT_A_POST, 0, 0, NULL);
    try_text("the last line alone", "!\r\n", 3, 100, DIRGEMIST_NOT_A_POST, 0, 0, NULL);
    try_text("'!' alone", "!", 1, 100, DIRGEMIST_NOT_A_POST, 0, 0, NULL);

    /* Below the last table no line may stand, and edition 1 has no table 25. */
    char last[64];
    int size = sprintf(last, "131.0.%02d(111111111111111111111111)\r\n1", tables);
    try_text("below the last table", last, (size_t)size, 100, DIRGEMIST_NOT_A_POST, 0, DIRGEMIST_LINE, NULL);
    static const char kilns[] = "131.0.25(111111111111111111111111)\r\n!\r\n";
    if (edition == 2) {
        try_text("table 25 alone", kilns, sizeof kilns - 1, 36, DIRGEMIST_DONE, 36, 0, NULL);
    } else {
        try_text("table 25", kilns, sizeof kilns - 1, 36, DIRGEMIST_NOT_A_POST, 0, 7, NULL);
    }
    static const char behind[] = "131.0.24(111111111111111111111111)\r\n131.0.26";
    try_text("26 behind 24", behind, sizeof behind - 1, 100, DIRGEMIST_NOT_A_POST, 0, edition == 2 ? 43 : 36, NULL);

    /* What did the harm: a second command hidden in a row. */
    static const char crafted[] = "131.0.01(1111)\x03\x06\x01W1\x02K(somebody__)\x03\x15)\r\n!\r\n";
    try_text("crafted row", crafted, sizeof crafted - 1, 100, DIRGEMIST_NOT_A_POST, 0, 13, NULL);

}

/* 16 before all else, whatever the text and the room. */
static void try_none(uint8_t number) {
    size_t place = 99, length = 99;
    uint8_t out[1] = {0x5A};
    texts++;
    expect(dirgemist_post_check(number, (const uint8_t *)"x", 1, &place) == DIRGEMIST_NO_EDITION && place == 0, "no edition");
    place = 99;
    uint8_t got = dirgemist_post_export(number, (const uint8_t *)"x", 1, out, 1, &length, &place);
    expect(got == DIRGEMIST_NO_EDITION && length == 0 && place == 0 && out[0] == 0x5A, "no edition to export for");
}

int main(void) {
    for (unsigned number = 0; number <= 255; number++) {
        if (number == 1 || number == 2) {
            try_edition((uint8_t)number);
        } else {
            try_none((uint8_t)number);
        }
    }
    if (wrong) {
        return 1;
    }
    printf("forum in C: %d texts, as the page has them\n", texts);
    return 0;
}
