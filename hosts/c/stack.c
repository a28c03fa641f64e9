/* stack.c: how much stack the calls of dirgemist_meter.h and dirgemist_gateway.h take. Each event runs on a stack of its own,
 * painted before; what was written over is what it took, less what the switch to that stack takes.
 * Prints the most for each call, and exits with 1 where one takes more than its header says. */
#define _GNU_SOURCE
#include "dirgemist_gateway.h"

#include <stdio.h>
#include <stdlib.h>
#include <string.h>
#include <ucontext.h>

#define PAINT 0xA5
#define SIZE 65536

static uint8_t stack[SIZE] __attribute__((aligned(64)));
static ucontext_t here, there;
static struct dirgemist_meter meter;
static uint8_t reply[DIRGEMIST_REPLY_ROOM];
static size_t length;
static uint8_t speed, place, kind;
static uint32_t value;
static uint8_t decimals;

static void nothing(void) {}
static void meet(void) { dirgemist_meter_meet(&meter, kind, value, reply, sizeof reply, &length, &speed, &place); }
static void check(void) { dirgemist_meter_check(&meter); }

static uint8_t slice[64];
static size_t size;

static void take_whole(void) {
    dirgemist_meter_frame(&meter, slice, size, reply, sizeof reply, &length, &speed, &place);
}

static void total(void) {
    uint32_t shown;
    dirgemist_meter_total(&meter, &shown);
}
static void make(void) {
    dirgemist_meter_make(&meter, (const uint8_t *)"1234567890", 10, (const uint8_t *)"Kiln_7 old", 10,
                         (const uint8_t *)"20304050", 8, 2024, 2, 29, 23, 59, 59, 1, 1, decimals);
}

/* The bytes of the painted stack that a function wrote over. */
static size_t deep(void (*function)(void)) {
    memset(stack, PAINT, SIZE);
    getcontext(&there);
    there.uc_stack.ss_sp = stack;
    there.uc_stack.ss_size = SIZE;
    there.uc_link = &here;
    makecontext(&there, function, 0);
    swapcontext(&here, &there);
    size_t kept = 0;
    while (kept < SIZE && stack[kept] == PAINT) {
        kept++;
    }
    return SIZE - kept;
}

static size_t most(size_t a, size_t b) {
    return a < b ? b : a;
}

/* The most that the characters of a message take. */
static size_t said(const char *message, size_t count) {
    size_t took = 0;
    for (size_t at = 0; at < count; at++) {
        uint8_t c = (uint8_t)message[at];
        kind = DIRGEMIST_CHARACTER;
        value = c | (uint32_t)__builtin_parity(c) << 7;
        took = most(took, deep(meet));
    }
    return took;
}

/* What a frame that comes whole takes. */
static size_t came(const char *message, size_t count) {
    for (size = 0; size < count; size++) {
        uint8_t c = (uint8_t)message[size];
        slice[size] = (uint8_t)(c | __builtin_parity(c) << 7);
    }
    return deep(take_whole);
}

#define CAME(message) came(message, sizeof(message) - 1)
#define SAID(message) said(message, sizeof(message) - 1)

static size_t happened(uint8_t what, uint32_t with) {
    kind = what;
    value = with;
    return deep(meet);
}

static size_t making, checking, showing, meeting, coming;

/* Everything, of a meter of one family. */
static void measure(uint8_t family) {
    decimals = family;
    making = most(making, deep(make));
    checking = most(checking, deep(check));
    showing = most(showing, deep(total));
    meeting = most(meeting, SAID("/?!\r\n\006050\r\n/?123 4567890!\r\n\006051\r\n"));
    meeting = most(meeting, SAID("\001P1\002(20304050)\003\x61"));
    meeting = most(meeting, SAID("\001W1\002Z(04;111111111111111111111111)\003\003"));
    meeting = most(meeting, SAID("\001W1\002K(Kiln_8 new)\003\x36\001W1\002T(29-02-2024;23:59:59)\003\x05"));
    meeting = most(meeting, SAID("\001R1\002E0()\003\x16\001R1\002T()\003\x37\001R1\002Z(07)\003\x3e"));
    meeting = most(meeting, SAID("\001R1\002G0()\003\x14"));
    meeting = most(meeting, SAID("\001R1\002L()\003\x2f\001R1\002K()\003\x28\001B0\003\x71"));
    meeting = most(meeting, SAID("/C!\r\n\006056\r\n"));
    /* The last second of February: a month is closed. */
    meeting = most(meeting, happened(DIRGEMIST_TICK, 0));
    meeting = most(meeting, happened(DIRGEMIST_PULSE, 1000000));
    meeting = most(meeting, happened(DIRGEMIST_PULSE, 1000001));
    meeting = most(meeting, happened(DIRGEMIST_PULSE_OUT, 1000000));
    meeting = most(meeting, happened(DIRGEMIST_SILENCE, 0));
    meeting = most(meeting, happened(DIRGEMIST_POWER_UP, 0));
    meeting = most(meeting, happened(99, 0));
    meter.mode = 2;
    coming = most(coming, CAME("\001P1\002(20304050)\003\x61"));
    coming = most(coming, CAME("\001W1\002Z(04;111111111111111111111111)\003\003"));
    coming = most(coming, CAME("\001W1\002K(Kiln_8 new)\003\x10"));
    coming = most(coming, CAME("\001W1\002T(01-03-2024;00:00:00)\003\x12"));
    coming = most(coming, CAME("\001R1\002E0()\003\x16"));
    coming = most(coming, CAME("\001\001R1\002Z(07)\003\x3e"));
    coming = most(coming, CAME("\001R1"));
    coming = most(coming, CAME("\001R1\002G0()\003\x14"));
    coming = most(coming, CAME("\001B0\003\x71"));
}

int main(void) {
    size_t bare = deep(nothing);
    measure(0);
    measure(4);
    making -= bare;
    checking -= bare;
    showing -= bare;
    meeting -= bare;
    coming -= bare;
    printf("stack: meet %zu, frame %zu, make %zu, check %zu, total %zu bytes; the record has %zu\n", meeting, coming, making,
           checking, showing, sizeof meter);
    return meeting > DIRGEMIST_STACK || coming > DIRGEMIST_FRAME_STACK || making > DIRGEMIST_STACK || checking > DIRGEMIST_STACK
           || showing > DIRGEMIST_STACK;
}
