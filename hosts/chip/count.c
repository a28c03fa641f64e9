/* count.c: what the calls cost on the chip. The emulator takes 64 nanoseconds for every instruction (-icount shift=6), so the timer,
 * with 40 a tick, counts instructions, the same on every machine; the stack is painted before a call and looked at after it. The
 * meter's calls are counted beside a step written by hand, which has to give the same answers.
 *
 * Prints a line for each row: what it is; instructions of the proved call; of the one by hand, or -; bytes of stack of both. Exits
 * with 1 where the two differ, or where a call takes more stack than its header says. */
#include "board.h"
#include "dirgemist_gateway.h"
#include "dirgemist_head.h"
#include "exactly.h"
#include "hand.h"

#define ROOM DIRGEMIST_REPLY_ROOM

static int wrong;

/* ---- Words. */

static void say(const char *text) {
    write(1, text, strlen(text));
}

static void say_number(uint32_t number) {
    char digits[11];
    uint32_t at = sizeof digits;
    digits[--at] = '\0';
    do {
        digits[--at] = (char)('0' + number % 10);
        number /= 10;
    } while (number > 0);
    say(digits + at);
}

static void expect(bool right, const char *what) {
    if (!right && !wrong) {
        say("count: differs: ");
        say(what);
        say("\n");
    }
    wrong |= !right;
}

/* ---- Counting. */

#define SYSTICK ((volatile uint32_t *)0xE000E010) /* control, reload, value */
#define PAINT 0xA5
#define PAINTED 32768


static void nothing(void) {}

/* The bytes below this frame that a call writes over. */
static __attribute__((noinline)) uint32_t depth_of(void (*call)(void)) {
    uint8_t *top;
    __asm__ volatile("mov %0, sp" : "=r"(top));
    for (volatile uint8_t *at = top - PAINTED; at < top; at++) {
        *at = PAINT;
    }
    call();
    volatile uint8_t *at = top - PAINTED;
    while (at < top && *at == PAINT) {
        at++;
    }
    return (uint32_t)(top - at);
}

static __attribute__((noinline)) uint32_t ticks_of(void (*call)(void)) {
    uint32_t before = SYSTICK[2];
    call();
    return (before - SYSTICK[2]) & 0xFFFFFF;
}

/* The instructions of so many ticks, shared among so many calls. */
static uint32_t instructions(uint32_t ticks, uint32_t calls) {
    return (ticks * 40 / 64 + calls / 2) / calls;
}

/* ---- The meter's event, by either side. */

typedef uint8_t meeting(struct dirgemist_meter *, uint8_t, uint32_t, uint8_t *, dirgemist_size,
                        dirgemist_size *, uint8_t *, uint8_t *);

struct side {
    meeting *meet;
    struct dirgemist_meter meter;
    uint8_t reply[ROOM];
    dirgemist_size length;
    uint8_t number, speed, place;
};

static struct side sides[2] = {{.meet = dirgemist_meter_meet}, {.meet = hand_meet}};
static struct side *side;
static uint8_t kind;
static uint32_t value;

static void meet(void) {
    side->number = side->meet(&side->meter, kind, value, side->reply, sizeof side->reply, &side->length,
                              &side->speed, &side->place);
}

/* What lies between the fields is no part of the state. (gcc 12 has a builtin for it, which clears other bytes in this record.) */
static void wipe(void *from, void *to) {
    memset(from, 0, (size_t)((uint8_t *)to - (uint8_t *)from));
}

static void wipe_gaps(struct dirgemist_meter *meter) {
    struct dirgemist_clock *clock = &meter->registers.clock;
    struct dirgemist_archive *archive = &meter->registers.archive;
    wipe(&meter->receiver + 1, &meter->registers);
    wipe(meter->registers.account + sizeof meter->registers.account, clock);
    wipe(&clock->time + 1, clock + 1);
    wipe(&archive->count + 1, archive + 1);
    for (int at = 0; at < 12; at++) {
        wipe(&archive->periods[at].closed + 1, archive->periods[at].zones);
    }
}

static bool same(void) {
    struct side *a = &sides[0], *b = &sides[1];
    wipe_gaps(&a->meter);
    wipe_gaps(&b->meter);
    return a->number == b->number && a->speed == b->speed && a->place == b->place &&
           a->length == b->length && memcmp(a->reply, b->reply, ROOM) == 0 &&
           memcmp(&a->meter, &b->meter, sizeof a->meter) == 0;
}

/* An event met by both sides, each twice from one state: once for its instructions, once for its stack. */
static uint32_t counted[2], deep[2];

static void met_by(int which) {
    side = &sides[which];
    struct dirgemist_meter before = side->meter;
    uint32_t depth = depth_of(meet) - depth_of(nothing);
    deep[which] = depth > deep[which] ? depth : deep[which];
    side->meter = before;
    counted[which] += ticks_of(meet) - ticks_of(nothing);
}

static void event(uint8_t what, uint32_t with) {
    kind = what;
    value = with;
    met_by(0);
    met_by(1);
    expect(sides[0].number <= 1 && same(), "the two sides");
}

/* A character that the step by hand does not know. */
static void alone(uint8_t character) {
    kind = DIRGEMIST_CHARACTER;
    value = character;
    met_by(0);
    expect(sides[0].number <= 1, "an answer");
    memcpy(sides[1].reply, sides[0].reply, ROOM);
}

/* A number, or - of a side that was not asked. */
static void say_cost(uint32_t number) {
    say(" ");
    if (number == 0) {
        say("-");
    } else {
        say_number(number);
    }
}

static void row(const char *what, uint32_t times) {
    say(what);
    for (int which = 0; which < 2; which++) {
        say_cost(instructions(counted[which], times));
    }
    for (int which = 0; which < 2; which++) {
        say_cost(deep[which]);
        expect(deep[which] <= DIRGEMIST_STACK, "the stack");
        counted[which] = deep[which] = 0;
    }
    say("\n");
}

/* ---- A meter with something in every register. */

static struct dirgemist_meter full(uint8_t mode, uint8_t decimals) {
    struct dirgemist_meter meter;
    struct dirgemist_registers *registers = &meter.registers;
    memset(&meter, 0, sizeof meter);
    dirgemist_meter_make(&meter, (const uint8_t *)"1234567890", 10, (const uint8_t *)"Kiln_7 old", 10,
                         (const uint8_t *)"20304050", 8, 2024, 2, 29, 23, 5, 9, 1, 1, decimals);
    meter.mode = mode;
    meter.speed = mode < 2 ? 0 : 5;
    for (uint32_t at = 0; at < 24 * 24; at++) {
        registers->tables[at] = (uint8_t)('1' + (at * 5 + at / 24) / 3 % 4);
    }
    registers->counters = (struct dirgemist_counters){{decimals == 0 ? 999999999 : 99999999, 1500, 23456789, 400}, 23458688};
    if (decimals != 0) {
        registers->exported = (struct dirgemist_counters){{7, 99999999, 0, 65536}, 65542};
    }
    registers->archive.count = 12;
    for (uint8_t at = 0; at < 12; at++) {
        struct dirgemist_period *period = &registers->archive.periods[at];
        period->closed = (struct dirgemist_stamp){{2024, (uint8_t)(12 - at), 1}, 0, 0};
        for (int zone = 0; zone < 4; zone++) {
            period->zones[zone] = registers->counters.zones[zone] / (at + 1u);
            period->exported[zone] = registers->exported.zones[zone] / (at + 1u);
        }
    }
    return meter;
}

static void both(struct dirgemist_meter meter) {
    sides[0].meter = sides[1].meter = meter;
}

static uint8_t wire(uint8_t character) {
    return (uint8_t)(character | __builtin_parity(character) << 7);
}

static void said(const char *characters, uint32_t count) {
    for (uint32_t at = 0; at < count; at++) {
        event(DIRGEMIST_CHARACTER, wire((uint8_t)characters[at]));
    }
}

/* ---- The two tests of a record agree on every byte of it, whatever stands there. */

static uint32_t records;

static void spoil(struct dirgemist_meter meter) {
    uint8_t *bytes = (uint8_t *)&meter;
    for (uint32_t at = 0; at < sizeof meter; at++) {
        static const uint8_t turned[] = {0x01, 0x02, 0x08, 0x40, 0x80, 0xFF};
        for (uint32_t which = 0; which < sizeof turned; which++) {
            bytes[at] ^= turned[which];
            expect(dirgemist_meter_check(&meter) == hand_check(&meter), "the tests of a record");
            bytes[at] ^= turned[which];
            records++;
        }
    }
    expect(dirgemist_meter_check(&meter) == 1 && hand_check(&meter) == 1, "a good record");
}

static void spoil_some(void) {
    struct dirgemist_meter meter = full(4, 3);
    spoil(meter);
    memset(meter.registers.archive.periods + 11, 0, sizeof *meter.registers.archive.periods);
    meter.registers.archive.count = 11;
    spoil(meter);
    meter = full(4, 0);
    spoil(meter);
    memset(meter.registers.archive.periods + 5, 0, 7 * sizeof *meter.registers.archive.periods);
    meter.registers.archive.count = 5;
    meter.receiver.count = 30;
    meter.receiver.held[0] = 1;
    memset(meter.receiver.held + 1, 'x', 29);
    meter.receiver.mark = 1;
    meter.receiver.place = 29;
    spoil(meter);
    meter = full(1, 0);
    meter.receiver.count = 3;
    meter.receiver.held[1] = '0';
    spoil(meter);
    meter = full(0, 0);
    meter.receiver.count = 31;
    memset(meter.receiver.held, '/', 31);
    spoil(meter);
}

/* ---- A frame that comes whole. */

static uint8_t frame[36], answer[ROOM];

static void take_frame(void) {
    dirgemist_size length;
    uint8_t speed, place;
    expect(dirgemist_meter_frame(&sides[0].meter, frame, sizeof frame, answer, sizeof answer, &length, &speed, &place) == 1,
           "a whole frame");
}

/* The write of a table, with the parity that the line has. */
static void build_frame(void) {
    static const char write[] = "\001W1\002Z(07;111111222111111133333441)\003\001";
    for (uint32_t at = 0; at < sizeof frame; at++) {
        frame[at] = wire((uint8_t)write[at]);
    }
}

/* ---- The head's calls. */

static uint8_t out[ROOM], stripped[ROOM];
static dirgemist_size numbers[6];
static const uint8_t *reply;
static dirgemist_size reply_length;

static void build_sign_on(void) {
    expect(dirgemist_head_sign_on(out, sizeof out, numbers) == 1, "a sign-on");
}
static void build_write(void) {
    expect(dirgemist_head_write_table(1, 7, (const uint8_t *)"111111222111111133333441", 24, out, sizeof out, numbers) == 1,
           "a table's write");
}
static void strip(void) {
    expect(dirgemist_head_strip(reply, reply_length, stripped, sizeof stripped, numbers, numbers + 1) == 1, "a strip");
}
static void part(void) {
    expect(dirgemist_head_part(stripped, reply_length, numbers, numbers + 1) == 1, "a part");
}
static void find_total(void) {
    expect(dirgemist_head_find(stripped + 1, reply_length - 3, (const uint8_t *)"15.8.0", 6, numbers, numbers + 1,
                               numbers + 2, numbers + 3, numbers + 4, numbers + 5) == 1,
           "the total");
}
static void read_counter(void) {
    uint32_t wh;
    expect(dirgemist_head_value_counter((const uint8_t *)"023458.688*kWh", 14, &wh) == 1 && wh == 23458688,
           "a counter");
}

static void read_eqm(void) {
    uint32_t units;
    expect(dirgemist_head_value_eqm(3, (const uint8_t *)"23458.688*kWh", 13, &units) == 1 && units == 23458688,
           "an EQM counter");
}

/* A call that has no other side, the cost of one call divided by so many. */
static void head(const char *what, void (*call)(void), uint32_t times) {
    uint32_t ticks = ticks_of(call) - ticks_of(nothing), depth = depth_of(call) - depth_of(nothing);
    say(what);
    say(" ");
    say_number(instructions(ticks, times));
    say(" - ");
    say_number(depth);
    say(" -\n");
}

int main(void) {
    SYSTICK[1] = 0xFFFFFF;
    SYSTICK[2] = 0;
    SYSTICK[0] = 5; /* the processor's clock, on */
    side = &sides[0];

    both(full(4, 0));
    said("\001W1\002Z(07;111111222111111133333441)\003\001", 36);
    row("character", 36);
    said("\001W1\002Z(", 6);
    row("held", 6);
    both(full(1, 3));
    said("\006050\r", 5);
    counted[0] = counted[1] = 0;
    said("\n", 1);
    row("eqm-block", 1);
    both(full(1, 3));
    said("\006056\r", 5);
    counted[0] = counted[1] = deep[0] = deep[1] = 0;
    alone('\n');
    expect(sides[0].length > 2000, "the closed periods");
    row("eqm-block-with-periods", 1);
    both(full(4, 3));
    for (int at = 0; at < 40; at++) {
        event(DIRGEMIST_PULSE_OUT, 1000);
    }
    row("pulse-out", 40);
    both(full(1, 0));
    said("\006050\r", 5);
    counted[0] = counted[1] = 0;
    said("\n", 1);
    row("block", 1);
    reply = sides[0].reply;
    reply_length = sides[0].length;
    both(full(0, 0));
    for (int at = 0; at < 40; at++) {
        event(DIRGEMIST_TICK, 0);
    }
    row("tick", 40);
    for (int at = 0; at < 40; at++) {
        event(DIRGEMIST_PULSE, 1000);
    }
    row("pulse", 40);
    struct dirgemist_meter meter = full(0, 0);
    meter.registers.clock.time = (struct dirgemist_time){23, 59, 59};
    both(meter);
    event(DIRGEMIST_TICK, 0);
    row("closing", 1);
    spoil_some();

    both(full(4, 0));
    build_frame();
    head("frame", take_frame, 1);
    expect(depth_of(take_frame) <= DIRGEMIST_FRAME_STACK, "the stack");
    head("sign-on", build_sign_on, 1);
    head("write", build_write, 1);
    head("strip", strip, 1);
    head("parity", strip, (uint32_t)reply_length);
    head("part", part, 1);
    head("find", find_total, 1);
    head("counter", read_counter, 1);
    head("eqm", read_eqm, 1);
    say("records ");
    say_number(records);
    say("\n");
    return wrong;
}
