/* hand.c: the step of a meter of edition 1 on the optical link by hand, of either family, with the tests of every meter. The record is
 * changed where it lies, and tested whole before every event, a word at a time. */
#include "hand.h"

#include <stdbool.h>
#include <string.h>

#define TABLES 24
#define MOST_HELD 63
#define PERIODS 12
#define COUNTER_END 1000000000
#define EQM_END 100000000
#define SOH 1
#define STX 2
#define ETX 3
#define ACK 6

/* ---- The test. */

typedef uint32_t __attribute__((may_alias)) word;

static const uint8_t days[16] = {0, 31, 28, 31, 30, 31, 30, 31, 31, 30, 31, 30, 31, 0, 0, 0};

/* Letters, digits, space and underscore: a bit for each of the 128 characters. */
static const uint32_t account_bits[4] = {0, 0x03FF0001, 0x87FFFFFE, 0x07FFFFFE};

static bool date_good(const struct dirgemist_date *date) {
    uint8_t most = days[date->month & 15] + (date->month == 2 && date->year % 4 == 0);
    return (uint16_t)(date->year - 2000) < 100 && date->month < 16 && (uint8_t)(date->day - 1) < most;
}

/* What counters stay below: of energy that came in, and of energy that went out, which only an EQM meter counts. */
static uint32_t end_in(uint8_t decimals) {
    return decimals == 0 ? COUNTER_END : EQM_END;
}

static uint32_t end_out(uint8_t decimals) {
    return decimals == 0 ? 1 : EQM_END;
}

static bool zones_good(const uint32_t *zones, uint32_t end) {
    return zones[0] < end && zones[1] < end && zones[2] < end && zones[3] < end;
}

static bool counters_good(const struct dirgemist_counters *counters, uint32_t end) {
    const uint32_t *zones = counters->zones;
    if (!zones_good(zones, end)) {
        return false;
    }
    uint32_t sum = zones[0] + zones[1] + zones[2] + zones[3]; /* below four times the end */
    while (sum >= end) {
        sum -= end;
    }
    return sum == counters->total;
}

static bool archive_good(const struct dirgemist_archive *archive, uint8_t decimals) {
    if (archive->count > PERIODS) {
        return false;
    }
    uint32_t place = 0;
    for (; place < archive->count; place++) {
        const struct dirgemist_period *period = &archive->periods[place];
        if (!date_good(&period->closed.date) || period->closed.hour > 23 ||
            period->closed.minute > 59 || !zones_good(period->zones, end_in(decimals)) ||
            !zones_good(period->exported, end_out(decimals))) {
            return false;
        }
    }
    uint32_t bits = 0;
    for (; place < PERIODS; place++) {
        const struct dirgemist_period *period = &archive->periods[place];
        bits |= *(const word *)&period->closed.date;
        bits |= period->closed.hour | period->closed.minute;
        bits |= period->zones[0] | period->zones[1] | period->zones[2] | period->zones[3];
        bits |= period->exported[0] | period->exported[1] | period->exported[2] | period->exported[3];
    }
    return bits == 0;
}

/* Serial and password lie one behind the other: 18 digits. */
static bool facts_good(const struct dirgemist_facts *facts) {
    const word *four = (const word *)facts->serial;
    uint32_t bits = 0;
    for (int at = 0; at < 4; at++) {
        uint32_t digits = four[at] - 0x30303030;
        bits |= digits | (digits + 0x76767676);
    }
    return (bits & 0x80808080) == 0 && (uint8_t)(facts->password[6] - '0') < 10 &&
           (uint8_t)(facts->password[7] - '0') < 10 && (facts->link == 1 || facts->link == 2) &&
           (facts->decimals == 0 || (uint8_t)(facts->decimals - 2) < 3);
}

static bool account_good(const uint8_t *account) {
    for (int at = 0; at < 10; at++) {
        if (account[at] > 127 || !(account_bits[account[at] >> 5] >> (account[at] & 31) & 1)) {
            return false;
        }
    }
    return true;
}

static bool tables_good(const uint8_t *tables, uint8_t edition) {
    const word *four = (const word *)tables;
    uint32_t bits = 0;
    for (uint32_t at = 0; at < TABLES * 6; at += 6) {
        bits |= (four[at] - 0x31313131) | (four[at + 1] - 0x31313131) | (four[at + 2] - 0x31313131);
        bits |= (four[at + 3] - 0x31313131) | (four[at + 4] - 0x31313131) | (four[at + 5] - 0x31313131);
    }
    uint32_t spare = 0; /* the row that edition 2 has, and edition 1 has not */
    for (uint32_t at = TABLES * 6; at < TABLES * 6 + 6; at++) {
        spare |= edition == 2 ? (four[at] - 0x31313131) & 0xFCFCFCFC : four[at];
    }
    return (bits & 0xFCFCFCFC) == 0 && spare == 0;
}

/* The places are sixteen whole words of the record. */
static bool held_good(const struct dirgemist_receiver *receiver) {
    const word *four = (const word *)receiver->held;
    uint32_t low = 0, none = 0, used = receiver->count, whole = used / 4;
    for (uint32_t at = 0; at < 16; at++) {
        uint32_t places = four[at];
        low |= places;
        if (at > whole) {
            none |= places;
        } else if (at == whole) {
            none |= places >> (8 * (used % 4));
        }
    }
    return (low & 0x80808080) == 0 && none == 0;
}

static bool receiver_good(const struct dirgemist_meter *meter) {
    const struct dirgemist_receiver *receiver = &meter->receiver;
    uint8_t most = meter->mode == 0 ? 31 : meter->mode == 1 ? 5 : MOST_HELD;
    if (receiver->count > most) {
        return false;
    }
    if (receiver->count == 0) {
        if (receiver->mark != 0 || receiver->place != 0) {
            return false;
        }
    } else {
        if (meter->mode != 1 && receiver->held[0] != (meter->mode == 0 ? '/' : SOH)) {
            return false;
        }
        if (receiver->mark > 1 || (receiver->mark ? receiver->place >= receiver->count : receiver->place != 0)) {
            return false;
        }
    }
    return held_good(receiver);
}

static bool good(const struct dirgemist_meter *meter) {
    const struct dirgemist_registers *registers = &meter->registers;
    const struct dirgemist_time *time = &registers->clock.time;
    uint8_t decimals = registers->facts.decimals;
    return meter->mode <= 4 && meter->attempts <= 3 &&
           (meter->speed == (registers->facts.link == 2 ? 5 : 0) || (meter->speed == 5 && meter->mode >= 2)) &&
           receiver_good(meter) &&
           facts_good(&registers->facts) && account_good(registers->account) &&
           date_good(&registers->clock.date) && time->hour < 24 && time->minute < 60 &&
           time->second < 60 && counters_good(&registers->counters, end_in(decimals)) &&
           counters_good(&registers->exported, end_out(decimals)) &&
           tables_good(registers->tables, registers->facts.edition) && archive_good(&registers->archive, decimals);
}

static bool edition_good(const struct dirgemist_meter *meter) {
    return meter->registers.facts.edition == 1 || meter->registers.facts.edition == 2;
}

uint8_t hand_check(const struct dirgemist_meter *meter) {
    return !edition_good(meter) ? 16 : good(meter) ? 1 : 14;
}

/* ---- The data block. */

static uint8_t *put(uint8_t *at, const char *text) {
    while (*text != '\0') {
        *at++ = (uint8_t)*text++;
    }
    return at;
}

static uint8_t *put_bytes(uint8_t *at, const uint8_t *bytes, uint32_t count) {
    memcpy(at, bytes, count);
    return at + count;
}

/* Small processors don't divide: a digit is how often its power fits. */
static uint8_t *put_digits(uint8_t *at, uint32_t number, int count) {
    static const uint32_t powers[9] = {1, 10, 100, 1000, 10000, 100000, 1000000, 10000000, 100000000};
    while (count-- > 0) {
        uint8_t digit = '0';
        for (; number >= powers[count]; number -= powers[count]) {
            digit++;
        }
        *at++ = digit;
    }
    return at;
}

/* Three numbers of two digits with a mark between them. */
static uint8_t *put_three(uint8_t *at, const char *address, uint32_t a, uint32_t b, uint32_t c, const char *mark) {
    at = put(at, address);
    at = put(put_digits(at, a, 2), mark);
    at = put(put_digits(at, b, 2), mark);
    return put(put_digits(at, c, 2), ")\r\n");
}

static uint8_t *put_energy(uint8_t *at, const char *name, uint8_t decimals, uint32_t number, uint32_t count) {
    at = put(put_digits(put(at, name), number, 1), "(");
    uint32_t behind = decimals == 0 ? 3 : decimals;
    uint8_t *end = put_digits(at, count, decimals == 0 ? 9 : 8);
    memmove(end - behind + 1, end - behind, behind);
    end[-(int32_t)behind] = '.';
    return put(end + 1, "*kWh)\r\n");
}

/* The five lines of a direction. */
static uint8_t *put_counters(uint8_t *at, const char *name, uint8_t decimals, const struct dirgemist_counters *counters) {
    for (uint32_t zone = 0; zone < 4; zone++) {
        at = put_energy(at, name, decimals, zone + 1, counters->zones[zone]);
    }
    return put_energy(at, name, decimals, 0, counters->total);
}

/* Each character with its parity. */
#define ODD(c) (((c) ^ (c) >> 1 ^ (c) >> 2 ^ (c) >> 3 ^ (c) >> 4 ^ (c) >> 5 ^ (c) >> 6) & 1)
#define WIRE(c) ((c) | ODD(c) << 7)
#define FOUR(c) WIRE(c), WIRE((c) + 1), WIRE((c) + 2), WIRE((c) + 3)
#define SIXTEEN(c) FOUR(c), FOUR((c) + 4), FOUR((c) + 8), FOUR((c) + 12)
static const uint8_t wire[128] = {SIXTEEN(0),  SIXTEEN(16), SIXTEEN(32), SIXTEEN(48),
                                  SIXTEEN(64), SIXTEEN(80), SIXTEEN(96), SIXTEEN(112)};

static uint32_t block(const struct dirgemist_registers *registers, uint8_t *reply) {
    const struct dirgemist_clock *clock = &registers->clock;
    uint8_t *at = put(reply, "\x02" "C.1.0(");
    at = put(put_bytes(at, registers->facts.serial, 3), " ");
    at = put(put_bytes(at, registers->facts.serial + 3, 7), ")\r\n");
    at = put_three(at, "0.9.2(", clock->date.year - 2000u, clock->date.month, clock->date.day, "-");
    at = put_three(at, "0.9.1(", clock->time.hour, clock->time.minute, clock->time.second, ":");
    at = put(put_bytes(put(at, "0.0.0("), registers->account, 10), ")\r\n");
    uint8_t decimals = registers->facts.decimals;
    at = put_counters(at, decimals == 0 ? "15.8." : "1.8.", decimals, &registers->counters);
    if (decimals != 0) {
        at = put_counters(at, "2.8.", decimals, &registers->exported);
    }
    for (uint32_t table = 0; table < TABLES; table++) {
        at = put(put_digits(put(at, "131.0."), table + 1, 2), "(");
        at = put(put_bytes(at, registers->tables + 24 * table, 24), ")\r\n");
    }
    at = put(at, "!\r\n\x03");
    uint8_t sum = STX; /* which does not count */
    for (uint8_t *sent = reply; sent < at; sent++) {
        sum ^= *sent;
        *sent = wire[*sent];
    }
    *at++ = wire[sum];
    return (uint32_t)(at - reply);
}

/* ---- Characters. */

static void empty(struct dirgemist_receiver *receiver) {
    memset(receiver, 0, sizeof *receiver);
}

static void hold(struct dirgemist_receiver *receiver, uint8_t character, bool damaged) {
    if (damaged && !receiver->mark) {
        receiver->mark = 1;
        receiver->place = receiver->count;
    }
    receiver->held[receiver->count++] = character;
}

static void restart(struct dirgemist_receiver *receiver, uint8_t character) {
    empty(receiver);
    hold(receiver, character, false);
}

/* SOH `W1` STX `Z(xx;row)` ETX and a BCC that fits: the table from 0 on, or -1. */
static int table_of(const struct dirgemist_receiver *receiver, uint8_t bcc) {
    const uint8_t *held = receiver->held;
    if (receiver->count != 35 || memcmp(held, "\x01W1\x02Z(", 6) != 0 || held[8] != ';' || held[33] != ')') {
        return -1;
    }
    for (int at = 1; at < 35; at++) {
        bcc ^= held[at];
    }
    for (int at = 9; at < 33; at++) {
        if ((uint8_t)(held[at] - '1') > 3) {
            return -1;
        }
    }
    uint8_t tens = held[6] - '0', units = held[7] - '0';
    int table = 10 * tens + units;
    return bcc == 0 && tens < 10 && units < 10 && table >= 1 && table <= (int)TABLES ? table - 1 : -1;
}

static uint8_t hear(struct dirgemist_meter *meter, uint8_t byte, uint8_t *reply, dirgemist_size *length,
                    uint8_t *speed) {
    struct dirgemist_receiver *receiver = &meter->receiver;
    uint8_t half = byte ^ byte >> 4;
    bool damaged = 0x6996 >> (half & 15) & 1;
    uint8_t character = damaged ? 0 : byte & 0x7F;
    *speed = meter->speed;
    if (meter->mode == 0) {
        if (character == '/') {
            restart(receiver, '/');
        } else if (receiver->count > 0) {
            if (character == '\n') {
                return HAND_UNKNOWN;
            }
            if (receiver->count == 31) {
                empty(receiver);
            } else {
                hold(receiver, character, damaged);
            }
        }
        return 0;
    }
    if (meter->mode == 1) {
        if (receiver->count < 5) {
            hold(receiver, character, damaged);
            return 0;
        }
        const uint8_t *held = receiver->held;
        if (receiver->mark || damaged || character != '\n' || held[0] != ACK || held[1] != '0' ||
            (held[2] != '0' && held[2] != '5') || (held[3] != '0' && held[3] != '7') || held[4] != '\r') {
            return HAND_UNKNOWN;
        }
        *speed = held[2] & 5;
        empty(receiver);
        meter->mode = 0;
        *length = block(&meter->registers, reply);
        return 1;
    }
    if (receiver->count > 0 && receiver->held[receiver->count - 1] == ETX) {
        int table = receiver->mark || damaged || meter->mode != 4 ? -1 : table_of(receiver, character);
        if (table < 0) {
            return HAND_UNKNOWN;
        }
        memcpy(meter->registers.tables + 24 * table, receiver->held + 9, 24);
        empty(receiver);
        reply[0] = ACK;
        *length = 1;
        return 1;
    }
    if (character == SOH) {
        restart(receiver, SOH);
    } else if (receiver->count == MOST_HELD) {
        return HAND_UNKNOWN;
    } else if (receiver->count > 0) {
        hold(receiver, character, damaged);
    }
    return 0;
}

/* ---- A second and a pulse. */

static void close(struct dirgemist_registers *registers) {
    struct dirgemist_archive *archive = &registers->archive;
    memmove(archive->periods + 1, archive->periods, (PERIODS - 1) * sizeof *archive->periods);
    archive->periods[0].closed = (struct dirgemist_stamp){
        registers->clock.date, registers->clock.time.hour, registers->clock.time.minute};
    memcpy(archive->periods[0].zones, registers->counters.zones, sizeof archive->periods[0].zones);
    memcpy(archive->periods[0].exported, registers->exported.zones, sizeof archive->periods[0].exported);
    archive->count += archive->count < PERIODS;
}

static void next_day(struct dirgemist_date *date) {
    date->day++;
    if (date_good(date)) {
        return;
    }
    date->day = 1;
    if (++date->month == 13) {
        date->month = 1;
        date->year = date->year == 2099 ? 2000 : date->year + 1;
    }
}

static void tick(struct dirgemist_registers *registers) {
    struct dirgemist_time *time = &registers->clock.time;
    if (++time->second < 60) {
        return;
    }
    time->second = 0;
    if (++time->minute < 60) {
        return;
    }
    time->minute = 0;
    if (++time->hour < 24) {
        return;
    }
    time->hour = 0;
    next_day(&registers->clock.date);
    if (registers->clock.date.day == 1) {
        close(registers);
    }
}

static void add(uint32_t *counter, uint32_t units, uint32_t end) {
    *counter += units;
    if (*counter >= end) {
        *counter -= end;
    }
}

static void pulse(struct dirgemist_registers *registers, struct dirgemist_counters *counters, uint32_t units) {
    static const uint16_t before[13] = {0, 0, 31, 59, 90, 120, 151, 181, 212, 243, 273, 304, 334};
    const struct dirgemist_date *date = &registers->clock.date;
    uint32_t year = date->year - 2000u;
    uint32_t day = 365 * year + (year + 3) / 4 + before[date->month] + (year % 4 == 0 && date->month > 2) +
                   date->day - 1;
    uint32_t table = day % 7 < 2 ? date->month + 11u : date->month - 1u; /* 2000-01-01 was a Saturday */
    uint32_t zone = registers->tables[24 * table + registers->clock.time.hour] - (uint32_t)'1';
    uint32_t end = end_in(registers->facts.decimals);
    add(&counters->zones[zone], units, end);
    add(&counters->total, units, end);
}

uint8_t hand_meet(struct dirgemist_meter *meter, uint8_t kind, uint32_t value, uint8_t *reply,
                  dirgemist_size room, dirgemist_size *length, uint8_t *speed, uint8_t *place) {
    *length = 0;
    *speed = 0;
    *place = 0;
    if (!edition_good(meter)) {
        return 16;
    }
    if (kind > DIRGEMIST_PULSE_OUT || (kind == DIRGEMIST_CHARACTER && value > 255)) {
        return DIRGEMIST_NO_EVENT;
    }
    bool out = kind == DIRGEMIST_PULSE_OUT;
    if (((kind == DIRGEMIST_PULSE || out) && value > 1000000) || (out && meter->registers.facts.decimals == 0)) {
        return 13;
    }
    if (kind <= DIRGEMIST_SILENCE && room < DIRGEMIST_REPLY_ROOM) {
        return 12;
    }
    if (!good(meter)) {
        return 14;
    }
    switch (kind) {
    case DIRGEMIST_CHARACTER: return hear(meter, (uint8_t)value, reply, length, speed);
    case DIRGEMIST_TICK: tick(&meter->registers); break;
    case DIRGEMIST_PULSE: pulse(&meter->registers, &meter->registers.counters, value); break;
    case DIRGEMIST_PULSE_OUT: pulse(&meter->registers, &meter->registers.exported, value); break;
    default: return HAND_UNKNOWN;
    }
    *speed = meter->speed;
    return 1;
}
