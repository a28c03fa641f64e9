/* gateway.c: uses the meter as a gateway does, which has whole frames. It enters a session by its
 * password, writes a table and reads it back, each by one call, and sees what is no frame refused with
 * every byte as it was. Then many slices are given both ways, whole and byte by byte, to two meters
 * that have to stay alike. Record, slice, buffer and numbers are memory of their exact size.
 * Prints one line, and exits with 1 on any difference. */
#include "exactly.h"

#include "dirgemist_gateway.h"

#include <stdio.h>

#define ROOM DIRGEMIST_REPLY_ROOM

static int wrong = 0;
static long calls = 0;

static void expect(int right, const char *what) {
    if (!right && !wrong) {
        printf("gateway: differs: %s (call %ld)\n", what, calls);
    }
    wrong |= !right;
}

static uint8_t with_parity(uint8_t character) {
    return (uint8_t)(character | (__builtin_parity(character) << 7));
}

static struct dirgemist_meter *meter;
static uint8_t *reply;
static size_t *length;
static uint8_t *speed;
static uint8_t *place;
static uint8_t filled[ROOM];

/* A frame's characters become wire bytes behind one another: SOH, text, ETX, BCC. */
static size_t frame_of(const char *text, uint8_t *to) {
    size_t n = 0;
    uint8_t sum = 0x03;
    to[n++] = with_parity(0x01);
    for (; *text != '\0'; text++) {
        sum ^= (uint8_t)*text;
        to[n++] = with_parity((uint8_t)*text);
    }
    to[n++] = with_parity(0x03);
    to[n++] = with_parity(sum);
    return n;
}

static uint8_t whole(const uint8_t *frame, size_t size, size_t room) {
    static struct pages pages;
    if (pages.start == NULL) {
        pages = guarded(4096);
    }
    uint8_t *lent = placed(pages, size, EXACTLY_AT_THE_START);
    memcpy(lent, frame, size);
    uint8_t *at = reply + ROOM - room;
    memcpy(at, filled, room);
    *length = 99;
    *speed = 99;
    *place = 99;
    uint8_t number = dirgemist_meter_frame(meter, lent, size, at, room, length, speed, place);
    expect(*length <= room, "a reply that does not fit");
    expect(memcmp(at + *length, filled, room - *length) == 0, "a byte past the reply");
    calls++;
    return number;
}

/* A slice that is refused: the number and the speed, every byte of record and buffer as it was. */
static void refused(const uint8_t *frame, size_t size, size_t room, uint8_t number, uint8_t at,
                    const char *what) {
    struct dirgemist_meter before;
    memcpy(&before, meter, sizeof before);
    expect(whole(frame, size, room) == number, what);
    expect(*length == 0 && *speed == at && *place == 0, what);
    expect(memcmp(&before, meter, sizeof before) == 0, what);
}

static void session(void) {
    uint8_t frame[128];
    size_t size = frame_of("P1\x02(20304050)", frame);
    refused(frame, size, ROOM, 17, 0, "a listening meter takes no frame");
    meter->mode = 2;
    meter->speed = 5;
    expect(whole(frame, size, ROOM) == 1 && *length == 1 && reply[0] == 0x06 && *speed == 5, "password");
    expect(meter->mode == 4, "programming");
    size = frame_of("W1\x02Z(04;123412341234123412341234)", frame);
    expect(size == 36 && whole(frame, size, ROOM) == 1 && reply[0] == 0x06, "a table is written");
    expect(memcmp(meter->registers.tables + 3 * 24, "123412341234123412341234", 24) == 0, "its row");
    refused(frame, size - 1, ROOM, 17, 5, "no BCC");
    refused(frame, size, ROOM - 1, 12, 0, "a short buffer");
    refused(frame, 0, ROOM, 17, 5, "nothing");
    frame[0] = 0x01;
    refused(frame, size, ROOM, 17, 5, "a damaged SOH");
    frame[0] = 0x81;
    frame[20] ^= 0x40;
    expect(whole(frame, size, ROOM) == 3 && *place == 20 && reply[0] == 0x95, "a damaged character");
    frame[20] ^= 0x40;
    memmove(frame + 5, frame, size);
    memcpy(frame, "\x81\xd7\xb1\x82\x82", 5);
    expect(whole(frame, size + 5, ROOM) == 1, "a restart inside");
    size = frame_of("R1\x02Z(04)", frame);
    expect(whole(frame, size, ROOM) == 1 && *length == 39, "the row is read");
    frame[size] = 0x81;
    refused(frame, size + 1, ROOM, 17, 5, "a byte behind the frame");
    meter->receiver.count = 1;
    meter->receiver.held[0] = 0x01;
    refused(frame, size, ROOM, 17, 5, "something is held");
    meter->receiver.held[1] = 7;
    refused(frame, size, ROOM, 14, 0, "a malformed record");
    meter->receiver.count = meter->receiver.held[0] = meter->receiver.held[1] = 0;
}

/* Slices of control characters and a few others: what one call does, feeding does too. */
static void both_ways(void) {
    static const uint8_t from[] = {0x81, 0x81, 0x82, 0x03, 0x03, 'B', 0xb0, 0x71, 0x01};
    struct dirgemist_meter fed = *meter;
    uint8_t bytes[80], *nowhere = exactly(ROOM);
    uint32_t seed = 8;
    for (long turn = 0; turn < 200000; turn++) {
        size_t size = 0;
        do {
            seed = seed * 1664525 + 1013904223;
            bytes[size] = size == 0 ? 0x81 : from[(seed >> 16) % sizeof from];
            if (turn % 8 == 0 && size > 0) {
                bytes[size] = 'A';
            }
            size++;
        } while (size < 3 || (size < sizeof bytes && (seed >> 8) % (turn % 8 == 0 ? 70 : 6) != 0));
        uint8_t mode = (uint8_t)(2 + turn % 3);
        meter->mode = mode;
        meter->speed = 5;
        fed = *meter;
        int finished = 0, early = 0;
        uint8_t number = 0, at = 0;
        for (size_t i = 0; i < size; i++) {
            early |= finished;
            size_t held = fed.receiver.count;
            int etx = held > 0 && fed.receiver.held[held - 1] == 0x03;
            size_t sent;
            number = dirgemist_meter_receive(&fed, bytes[i], nowhere, ROOM, &sent, &at, place);
            finished = finished || etx || number == 5;
        }
        if (finished && !early) {
            uint8_t where = *place;
            expect(whole(bytes, size, ROOM) == number && *place == where && *speed == at, "one call");
            expect(memcmp(&fed.receiver, &meter->receiver, sizeof fed.receiver) == 0 && fed.mode == meter->mode, "one state");
        } else {
            refused(bytes, size, ROOM, 17, 5, "no frame");
        }
        memset(&meter->receiver, 0, sizeof meter->receiver);
    }
}

int main(void) {
    meter = exactly(sizeof *meter);
    reply = exactly(ROOM);
    length = exactly(sizeof *length);
    speed = exactly(1);
    place = exactly(1);
    memset(filled, 0x5A, sizeof filled);
    memset(meter, 0, sizeof *meter);
    expect(dirgemist_meter_make(meter, (const uint8_t *)"1234567890", 10, (const uint8_t *)"Kiln_7 old",
                                10, (const uint8_t *)"20304050", 8, 2026, 11, 15, 12, 0, 0, 1, 1, 0) == 1,
           "a meter is made");
    session();
    both_ways();
    if (wrong) {
        return 1;
    }
    printf("gateway: a session in whole frames, and %ld calls\n", calls);
    return 0;
}
