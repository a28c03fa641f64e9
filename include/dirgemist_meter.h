/* dirgemist_meter.h: the meter, for firmware that keeps the meter's state in a record of its own.
 *
 * Firmware makes a meter, tells it what happens (a character on its link, eight seconds of
 * silence, a second gone by, a pulse of the measuring part, power coming back), and sends what the
 * meter replies. Every call takes the record where it lies and leaves the next state there.
 *
 * The record may lie wherever its type may, and may be kept, copied or stored as it is. Every field
 * is a number, and any bytes at all may stand there: each call tells a record that is not well-formed
 * by 14, or 16, and leaves it as it was, so a record that comes back from flash needs no test of its
 * own.
 * The functions keep nothing between calls: two meters may be served from two threads at once.
 * Each is proved, for all records, numbers and buffers, to do what its paragraph says. Pointers
 * must not be null, and what they point to must not overlap.
 *
 * Stack: an event takes some 1,600 bytes (64-bit Arm; 1,700 on a Cortex-M0), making up to 4,700
 * (x86-64), a test or the total up to 390; DIRGEMIST_STACK is above each, and hosts/stack and
 * hosts/chip/count.c measure them. The tables are never copied, and the archive only where a period is
 * closed.
 *
 * Link with libfirmware.a for events, and with libkeeping.a for making, testing and showing.
 */
#ifndef DIRGEMIST_METER_H
#define DIRGEMIST_METER_H

#include "dirgemist_size.h"

#ifdef __cplusplus
extern "C" {
#endif

#define DIRGEMIST_REPLY_ROOM 4096 /* the least room of a reply buffer */
#define DIRGEMIST_STACK 5120      /* the most stack that a call of this header takes, in bytes */

struct dirgemist_date {
    uint16_t year; /* 2000 to 2099 */
    uint8_t month;
    uint8_t day;
};

struct dirgemist_time {
    uint8_t hour;
    uint8_t minute;
    uint8_t second;
};

struct dirgemist_clock {
    struct dirgemist_date date;
    struct dirgemist_time time;
};

/* What was received of a line or frame so far: 0 from count on. There are 64 places, of which 63 hold
 * at most; the last is always 0, so that the places are whole words. mark is 1 where one of them came
 * damaged, else 0; no other number is well-formed. place is that of the first damaged one, the first
 * held one being at 0: below count with the mark, and 0 without it. */
struct dirgemist_receiver {
    uint8_t count;
    uint8_t held[64];
    uint8_t mark;
    uint8_t place;
};

/* The zones' counters of one direction, in units of the last place that is shown, and their total.
 * Where decimals are 0 that is Wh: each counter is under 1,000,000,000, and the total is the sum of
 * the four modulo that. An EQM meter shows eight digits: there the number is 100,000,000. Any other
 * total is not well-formed. */
struct dirgemist_counters {
    uint32_t zones[4];
    uint32_t total;
};

/* What is shown of the time at which a period was closed: no second. */
struct dirgemist_stamp {
    struct dirgemist_date date;
    uint8_t hour;
    uint8_t minute;
};

/* A closed period: when it was closed, and the zones' counters as they stood, of energy that came
 * in and of energy that went out. */
struct dirgemist_period {
    struct dirgemist_stamp closed;
    uint32_t zones[4];
    uint32_t exported[4];
};

/* The closed periods, count of them, the newest first. The places from count on are all 0; a
 * thirteenth period pushes out the oldest. Periods need not be in order, since the clock may be
 * set. */
struct dirgemist_archive {
    struct dirgemist_period periods[12];
    uint8_t count;
};

/* What a meter has for life: texts without an end mark; the edition, 1 or 2; the link, 1 (optical)
 * or 2 (wired); the decimals of an EQM meter, 2, 3 or 4, or 0 for a meter that counts Wh and only
 * what comes in. */
struct dirgemist_facts {
    uint8_t serial[10];
    uint8_t password[8];
    uint8_t edition;
    uint8_t link;
    uint8_t decimals;
};

/* counters is the energy that came in, exported that which went out: all 0 where decimals are 0.
 * Texts without an end mark; the tables are 24 rows of 24 characters '1' to '4', and of edition 2
 * 25 rows. The 25th row of an edition 1 meter is 24 bytes of 0, or the record is not well-formed. */
struct dirgemist_registers {
    struct dirgemist_facts facts;
    uint8_t account[10];
    struct dirgemist_clock clock;
    struct dirgemist_counters counters;
    struct dirgemist_counters exported;
    uint8_t tables[600];
    struct dirgemist_archive archive;
};

/* Mode: 0 listening, 1 confirmation, 2 password, 3 read-only, 4 programming. Speed: the identifier that
 * the session was confirmed at, 0 (300 baud) or 5 (9600); 0 in modes 0 and 1. */
struct dirgemist_meter {
    uint8_t mode;
    uint8_t attempts;
    uint8_t speed;
    struct dirgemist_receiver receiver;
    struct dirgemist_registers registers;
};

/* The layout of the record, in bytes: the same on every processor. A compiler that lays it out in
 * another way does not build. */
#ifdef __cplusplus
#define DIRGEMIST_ASSERT(right, what) static_assert(right, what)
#else
#define DIRGEMIST_ASSERT(right, what) _Static_assert(right, what)
#endif
#define DIRGEMIST_AT(record, field, place) \
    DIRGEMIST_ASSERT(offsetof(struct record, field) == (place), #record ": " #field)
#define DIRGEMIST_SIZED(record, size) DIRGEMIST_ASSERT(sizeof(struct record) == (size), #record)

DIRGEMIST_AT(dirgemist_date, year, 0);
DIRGEMIST_AT(dirgemist_date, month, 2);
DIRGEMIST_AT(dirgemist_date, day, 3);
DIRGEMIST_SIZED(dirgemist_date, 4);
DIRGEMIST_AT(dirgemist_time, hour, 0);
DIRGEMIST_AT(dirgemist_time, minute, 1);
DIRGEMIST_AT(dirgemist_time, second, 2);
DIRGEMIST_SIZED(dirgemist_time, 3);
DIRGEMIST_AT(dirgemist_clock, date, 0);
DIRGEMIST_AT(dirgemist_clock, time, 4);
DIRGEMIST_SIZED(dirgemist_clock, 8);
DIRGEMIST_AT(dirgemist_receiver, count, 0);
DIRGEMIST_AT(dirgemist_receiver, held, 1);
DIRGEMIST_AT(dirgemist_receiver, mark, 65);
DIRGEMIST_AT(dirgemist_receiver, place, 66);
DIRGEMIST_SIZED(dirgemist_receiver, 67);
DIRGEMIST_AT(dirgemist_counters, zones, 0);
DIRGEMIST_AT(dirgemist_counters, total, 16);
DIRGEMIST_SIZED(dirgemist_counters, 20);
DIRGEMIST_AT(dirgemist_stamp, date, 0);
DIRGEMIST_AT(dirgemist_stamp, hour, 4);
DIRGEMIST_AT(dirgemist_stamp, minute, 5);
DIRGEMIST_SIZED(dirgemist_stamp, 6);
DIRGEMIST_AT(dirgemist_period, closed, 0);
DIRGEMIST_AT(dirgemist_period, zones, 8);
DIRGEMIST_AT(dirgemist_period, exported, 24);
DIRGEMIST_SIZED(dirgemist_period, 40);
DIRGEMIST_AT(dirgemist_archive, periods, 0);
DIRGEMIST_AT(dirgemist_archive, count, 480);
DIRGEMIST_SIZED(dirgemist_archive, 484);
DIRGEMIST_AT(dirgemist_facts, serial, 0);
DIRGEMIST_AT(dirgemist_facts, password, 10);
DIRGEMIST_AT(dirgemist_facts, edition, 18);
DIRGEMIST_AT(dirgemist_facts, link, 19);
DIRGEMIST_AT(dirgemist_facts, decimals, 20);
DIRGEMIST_SIZED(dirgemist_facts, 21);
DIRGEMIST_AT(dirgemist_registers, facts, 0);
DIRGEMIST_AT(dirgemist_registers, account, 21);
DIRGEMIST_AT(dirgemist_registers, clock, 32);
DIRGEMIST_AT(dirgemist_registers, counters, 40);
DIRGEMIST_AT(dirgemist_registers, exported, 60);
DIRGEMIST_AT(dirgemist_registers, tables, 80);
DIRGEMIST_AT(dirgemist_registers, archive, 680);
DIRGEMIST_SIZED(dirgemist_registers, 1164);
DIRGEMIST_AT(dirgemist_meter, mode, 0);
DIRGEMIST_AT(dirgemist_meter, attempts, 1);
DIRGEMIST_AT(dirgemist_meter, speed, 2);
DIRGEMIST_AT(dirgemist_meter, receiver, 3);
DIRGEMIST_AT(dirgemist_meter, registers, 72);
DIRGEMIST_SIZED(dirgemist_meter, 1236);

/* The numbers returned.
 *    0  taken, and nothing to say
 *    1  done
 *    2  a confirmation that is none; the meter listens again
 *    3  a character of the frame came damaged, the first of them at *place; this and 4 to 11 reply
 *       NAK on the optical link; on the wired one nothing is replied, and the meter listens again
 *    4  the frame's BCC is wrong
 *    5  a frame of more than 64 characters
 *    6  a frame of no known shape
 *    7  an unknown command
 *    8  a command that the mode does not allow
 *    9  data that the command does not take
 *   10  the wrong password
 *   11  locked: three wrong passwords were given
 *   12  under DIRGEMIST_REPLY_ROOM bytes for the reply of a character or of silence
 *   13  a pulse of more than 1,000,000, or a pulse out where decimals are 0
 *   14  the record is not well-formed
 *   15  the facts that a meter is to be made from are bad
 *   16  the record's edition is neither 1 nor 2
 *   18  the decimals that a meter is to be made with are none of 0, 2, 3 and 4
 *   99  no such event
 * 12, 13, 14, 16 and 99 leave every byte of the record and of the buffer as it was. The order of
 * the tests is 16, 99, 13, 12, 14. */
#define DIRGEMIST_NO_EVENT 99

/* What can happen, and what the value beside it is. */
#define DIRGEMIST_CHARACTER 0 /* the byte from the line, 0 to 255 */
#define DIRGEMIST_SILENCE 1   /* eight seconds without a character; any value */
#define DIRGEMIST_TICK 2      /* one second; any value */
#define DIRGEMIST_PULSE 3     /* energy came in: the units of the last place, 0 to 1,000,000 */
#define DIRGEMIST_POWER_UP 4  /* power has come back; any value */
#define DIRGEMIST_PULSE_OUT 5 /* energy went out of an EQM meter: the same units */

/* Makes a new meter in *meter: the serial's ten digits, the account's ten letters, digits, spaces
 * or underscores, the password's eight digits, the clock, a real date of 2000 to 2099 with a time,
 * and the edition, the link and the decimals; counters and attempts 0, all tables '1', no closed
 * period, listening, nothing received. Returns 1. An edition that there is none of gives 16, then
 * such decimals 18, then any other bad fact, other lengths among them, 15; *meter is then the blank
 * meter: zeros for the serial and the password, ten spaces, 2000-01-01 00:00:00, edition 1, link 1,
 * decimals 0. What stood in *meter before does not matter. */
uint8_t dirgemist_meter_make(struct dirgemist_meter *meter, const uint8_t *serial,
                             dirgemist_size serial_length, const uint8_t *account,
                             dirgemist_size account_length, const uint8_t *password,
                             dirgemist_size password_length, uint16_t year, uint8_t month,
                             uint8_t day, uint8_t hour, uint8_t minute, uint8_t second,
                             uint8_t edition, uint8_t link, uint8_t decimals);

/* Whether the record is well-formed: 1, 16 for an edition that is none, or 14. It is only read. */
uint8_t dirgemist_meter_check(const struct dirgemist_meter *meter);

/* The total for a display, of the energy that came in: 1, and *total is what the record keeps; or 16
 * or 14, and *total is 0. The record is only read, and nothing is added up but for the test that it
 * is well-formed. */
uint8_t dirgemist_meter_total(const struct dirgemist_meter *meter, uint32_t *total);

/* What has happened, with its value. Returns the answer's number; *meter becomes the next state,
 * the reply's bytes, with parity, stand at the front of the room bytes at reply, *length is their
 * number and *speed the speed identifier, 0 (300 baud) or 5 (9600): the reply's where there is one,
 * else that of the next state. Every byte of reply past them is as it was. With 3 *place is that of
 * the first damaged character of the frame, its SOH being at 0 and its BCC behind the last held one;
 * with any other number it is 0. *length, *speed and *place are always written; with 12, 13, 14,
 * 16 and 99 they are 0.
 * A tick, a pulse and power-up have no reply and take any room, none too; where room is 0, reply is
 * never read or written through. A kind that is none of the six, or a character over 255, gives
 * 99. */
uint8_t dirgemist_meter_meet(struct dirgemist_meter *meter, uint8_t kind, uint32_t value,
                             uint8_t *reply, dirgemist_size room, dirgemist_size *length,
                             uint8_t *speed, uint8_t *place);

/* A byte has come from the line. 12, 14, or as the byte and the mode rule: 0 where it is only held
 * or dropped. */
static inline uint8_t dirgemist_meter_receive(struct dirgemist_meter *meter, uint8_t byte,
                                              uint8_t *reply, dirgemist_size room,
                                              dirgemist_size *length, uint8_t *speed,
                                              uint8_t *place) {
    return dirgemist_meter_meet(meter, DIRGEMIST_CHARACTER, byte, reply, room, length, speed,
                                place);
}

/* Eight seconds without a character: the meter listens again, with nothing received. A meter that
 * waits for the confirmation replies NAK, on the optical link. 12, 14, 0 where it was listening, else 1. */
static inline uint8_t dirgemist_meter_silence(struct dirgemist_meter *meter, uint8_t *reply,
                                              dirgemist_size room, dirgemist_size *length,
                                              uint8_t *speed, uint8_t *place) {
    return dirgemist_meter_meet(meter, DIRGEMIST_SILENCE, 0, reply, room, length, speed, place);
}

/* An event that has no reply. */
static inline uint8_t dirgemist_meter_note(struct dirgemist_meter *meter, uint8_t kind,
                                           uint32_t value, uint8_t *speed) {
    uint8_t nowhere, place;
    dirgemist_size length;
    return dirgemist_meter_meet(meter, kind, value, &nowhere, 0, &length, speed, &place);
}

/* A second has gone by: the clock moves on, and where it reaches 00:00:00 on the first of a month a
 * period is closed. 14, or 1. */
static inline uint8_t dirgemist_meter_tick(struct dirgemist_meter *meter, uint8_t *speed) {
    return dirgemist_meter_note(meter, DIRGEMIST_TICK, 0, speed);
}

/* So many units came in: the counter of the zone that day and hour name grows by them, and the total
 * too; each rolls over at 1,000,000,000, that of an EQM meter at 100,000,000. 13, 14, or 1. */
static inline uint8_t dirgemist_meter_pulse(struct dirgemist_meter *meter, uint32_t units,
                                            uint8_t *speed) {
    return dirgemist_meter_note(meter, DIRGEMIST_PULSE, units, speed);
}

/* So many units went out of an EQM meter: its exported counter of that zone, and their total, grow
 * in the same way. 13 where decimals are 0 too. 13, 14, or 1. */
static inline uint8_t dirgemist_meter_pulse_out(struct dirgemist_meter *meter, uint32_t units,
                                                uint8_t *speed) {
    return dirgemist_meter_note(meter, DIRGEMIST_PULSE_OUT, units, speed);
}

/* Power has come back: the meter listens, with nothing received and no attempts. 14, or 1. */
static inline uint8_t dirgemist_meter_power_up(struct dirgemist_meter *meter, uint8_t *speed) {
    return dirgemist_meter_note(meter, DIRGEMIST_POWER_UP, 0, speed);
}

#ifdef __cplusplus
}
#endif

#endif
