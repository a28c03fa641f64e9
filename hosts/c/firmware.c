/* firmware.c: holds a meter as firmware does, in a record of its own. It makes one, plays a dialogue of
 * document 01 (sign-on, confirmation, password, table writes, counters), lets time pass, counts pulses,
 * and sees each refusal of each call leave every byte as it was. At the end a million records of any
 * bytes are given to every call. The record, the buffer and the numbers are memory of their exact size.
 * Prints one line, and exits with 1 on any difference. */
#include "exactly.h"

#include "dirgemist_meter.h"

#include <stdio.h>

#define ROOM DIRGEMIST_REPLY_ROOM

static int wrong = 0;
static long calls = 0;

static void expect(int right, const char *what) {
    if (!right && !wrong) {
        printf("firmware: differs: %s (call %ld)\n", what, calls);
    }
    wrong |= !right;
}

static int all_within(const uint8_t *bytes, size_t count, uint8_t least, uint8_t most) {
    int within = 1;
    for (size_t at = 0; at < count; at++) {
        within &= least <= bytes[at] && bytes[at] <= most;
    }
    return within;
}

static uint8_t with_parity(uint8_t character) {
    return (uint8_t)(character | (__builtin_parity(character) << 7));
}

/* What the calls hand out, and a buffer for their replies. */
static uint8_t *reply;
static size_t *length;
static uint8_t *speed;
static uint8_t *place;
static uint32_t *total;
static uint8_t filled[ROOM];

/* Whether two archives hold the same periods. */
static int same_periods(const struct dirgemist_archive *a, const struct dirgemist_archive *b) {
    int equal = a->count == b->count;
    for (int at = 0; at < 12; at++) {
        const struct dirgemist_period *p = &a->periods[at], *q = &b->periods[at];
        equal &= memcmp(&p->closed, &q->closed, sizeof p->closed) == 0
                 && memcmp(p->zones, q->zones, sizeof p->zones) == 0
                 && memcmp(p->exported, q->exported, sizeof p->exported) == 0;
    }
    return equal;
}

/* Whether two records hold the same state; what lies between the fields is not looked at. */
static int same(const struct dirgemist_meter *a, const struct dirgemist_meter *b) {
#define SAME(field) (memcmp(&a->field, &b->field, sizeof a->field) == 0)
    return SAME(mode) && SAME(attempts) && SAME(speed) && SAME(receiver) && SAME(registers.facts)
           && SAME(registers.account) && SAME(registers.clock.date)
           && SAME(registers.clock.time) && SAME(registers.counters) && SAME(registers.exported)
           && SAME(registers.tables) && same_periods(&a->registers.archive, &b->registers.archive);
#undef SAME
}

/* The answer's number to an event in a buffer of `room` bytes of 0x5A; what it wrote stays in reply. */
static uint8_t meet(struct dirgemist_meter *meter, uint8_t kind, uint32_t value, size_t room) {
    uint8_t *at = reply + ROOM - room;
    memcpy(at, filled, room);
    *length = 99;
    *speed = 99;
    *place = 99;
    uint8_t number = dirgemist_meter_meet(meter, kind, value, at, room, length, speed, place);
    expect(*place == 0 || number == 3, "a place with another number than 3");
    expect(*length <= room, "a reply that does not fit");
    expect(*length > room || memcmp(at + *length, filled, room - *length) == 0, "a byte past the reply");
    calls++;
    return number;
}

/* An event that is refused: the number, zeros handed out, every byte of record and buffer as it was. */
static void refused(struct dirgemist_meter *meter, uint8_t kind, uint32_t value, size_t room,
                    uint8_t number, const char *what) {
    struct dirgemist_meter before;
    memcpy(&before, meter, sizeof before);
    expect(meet(meter, kind, value, room) == number, what);
    expect(*length == 0 && *speed == 0 && *place == 0, what);
    expect(memcmp(&before, meter, sizeof before) == 0, what);
}

/* Plays a message of plain characters: every one but the last answers 0 and is held, and the last
 * answers `number` with these characters. */
static void say(struct dirgemist_meter *meter, const char *what, const char *message,
                size_t message_length, uint8_t number, const char *answer, size_t answer_length,
                uint8_t at_speed) {
    for (size_t at = 0; at + 1 < message_length; at++) {
        uint8_t before = meter->receiver.count;
        uint8_t byte = with_parity((uint8_t)message[at]);
        expect(meet(meter, DIRGEMIST_CHARACTER, byte, ROOM) == 0 && *length == 0, what);
        expect(meter->receiver.count == before + 1, what);
        expect(meter->receiver.held[before] == (uint8_t)message[at], what);
    }
    uint8_t last = with_parity((uint8_t)message[message_length - 1]);
    expect(dirgemist_meter_receive(meter, last, reply, ROOM, length, speed, place) == number, what);
    expect(*length == answer_length && *speed == at_speed && *place == 0, what);
    for (size_t at = 0; at < answer_length && at < *length; at++) {
        expect(reply[at] == with_parity((uint8_t)answer[at]), what);
    }
    expect(meter->receiver.count == 0, what);
    calls++;
}

#define SAY(meter, what, message, number, answer, speed) \
    say(meter, what, message, sizeof(message) - 1, number, answer, sizeof(answer) - 1, speed)

/* A meter from these facts; the texts are memory that ends where its length says. */
static uint8_t make_for(struct dirgemist_meter *meter, const char *serial, const char *account,
                        const char *password, uint16_t year, uint8_t month, uint8_t day, uint8_t hour,
                        uint8_t minute, uint8_t second, uint8_t edition, uint8_t decimals) {
    size_t lengths[3] = {strlen(serial), strlen(account), strlen(password)};
    const uint8_t *texts[3] = {lent(serial, lengths[0]), lent(account, lengths[1]),
                               lent(password, lengths[2])};
    memset(meter, 0x5A, sizeof *meter);
    uint8_t number = dirgemist_meter_make(meter, texts[0], lengths[0], texts[1], lengths[1], texts[2],
                                          lengths[2], year, month, day, hour, minute, second, edition, 1, decimals);
    for (int i = 0; i < 3; i++) {
        give_back(texts[i], lengths[i]);
    }
    calls++;
    return number;
}

static uint8_t make(struct dirgemist_meter *meter, const char *serial, const char *account,
                    const char *password, uint16_t year, uint8_t month, uint8_t day, uint8_t hour,
                    uint8_t minute, uint8_t second) {
    return make_for(meter, serial, account, password, year, month, day, hour, minute, second, 1, 0);
}

static void makes(struct dirgemist_meter *meter) {
    struct dirgemist_meter blank = {0};
    memset(blank.registers.facts.serial, '0', sizeof blank.registers.facts.serial);
    memset(blank.registers.account, ' ', sizeof blank.registers.account);
    memset(blank.registers.facts.password, '0', sizeof blank.registers.facts.password);
    memset(blank.registers.tables, '1', 24 * 24); /* and 0 behind them: edition 1 has no table 25 */
    blank.registers.facts.edition = blank.registers.facts.link = 1;
    blank.registers.clock.date = (struct dirgemist_date){2000, 1, 1};

    static const struct {
        const char *serial, *account, *password;
        uint16_t year;
        uint8_t month, day, hour, minute, second;
    } bad[] = {
        {"123456789", "Kiln_7 old", "20304050", 2024, 2, 29, 23, 5, 9},
        {"12345678901", "Kiln_7 old", "20304050", 2024, 2, 29, 23, 5, 9},
        {"", "", "", 2024, 2, 29, 23, 5, 9},
        {"123456789x", "Kiln_7 old", "20304050", 2024, 2, 29, 23, 5, 9},
        {"1234567890", "Kiln_7 ol", "20304050", 2024, 2, 29, 23, 5, 9},
        {"1234567890", "Kiln-7 old", "20304050", 2024, 2, 29, 23, 5, 9},
        {"1234567890", "Kiln_7 old", "2030405", 2024, 2, 29, 23, 5, 9},
        {"1234567890", "Kiln_7 old", "203040501", 2024, 2, 29, 23, 5, 9},
        {"1234567890", "Kiln_7 old", "2030405a", 2024, 2, 29, 23, 5, 9},
        {"1234567890", "Kiln_7 old", "20304050", 1999, 2, 28, 23, 5, 9},
        {"1234567890", "Kiln_7 old", "20304050", 2023, 2, 29, 23, 5, 9},
        {"1234567890", "Kiln_7 old", "20304050", 2024, 13, 1, 23, 5, 9},
        {"1234567890", "Kiln_7 old", "20304050", 2024, 2, 29, 24, 5, 9},
        {"1234567890", "Kiln_7 old", "20304050", 2024, 2, 29, 23, 60, 9},
        {"1234567890", "Kiln_7 old", "20304050", 2024, 2, 29, 23, 5, 60},
    };
    for (size_t i = 0; i < sizeof bad / sizeof *bad; i++) {
        uint8_t number = make(meter, bad[i].serial, bad[i].account, bad[i].password, bad[i].year,
                              bad[i].month, bad[i].day, bad[i].hour, bad[i].minute, bad[i].second);
        expect(number == 15 && same(meter, &blank), "bad facts");
        expect(dirgemist_meter_check(meter) == 1, "the blank meter is well-formed");
    }
    struct dirgemist_meter wanted = blank;
    memcpy(wanted.registers.facts.serial, "1234567890", 10);
    memcpy(wanted.registers.account, "Kiln_7 old", 10);
    memcpy(wanted.registers.facts.password, "20304050", 8);
    wanted.registers.clock = (struct dirgemist_clock){{2024, 2, 29}, {23, 5, 9}};
    expect(make(meter, "1234567890", "Kiln_7 old", "20304050", 2024, 2, 29, 23, 5, 9) == 1, "made");
    expect(same(meter, &wanted), "a new meter");
    expect(dirgemist_meter_check(meter) == 1, "a new meter is well-formed");
}

/* Sign-on, confirmation, password, tables, a counter, good-bye. The meter counts 1,500 Wh first. */
static void talks(struct dirgemist_meter *meter) {
    expect(dirgemist_meter_pulse(meter, 1500, speed) == 1 && *speed == 0, "1,500 Wh");
    struct dirgemist_meter kept = *meter;
    SAY(meter, "sign-on", "/?123 4567890!\r\n", 1, "/ZZZ5SUB-VP01.00*\r\n", 0);
    expect(meter->mode == 1, "waits for the confirmation");
    SAY(meter, "confirmation", "\006" "051\r\n", 1, "\001P0\002(0000)\003\x60", 5);
    expect(meter->mode == 2, "waits for the password");
    SAY(meter, "password", "\001P1\002(20304050)\003\x61", 1, "\006", 5);
    expect(meter->mode == 4, "programs");
    /* All '1': the BCC of table 04 is an ETX, that of table 06 a SOH. */
    SAY(meter, "table 01", "\001W1\002Z(01;111111111111111111111111)\003\006", 1, "\006", 5);
    SAY(meter, "table 04", "\001W1\002Z(04;111111111111111111111111)\003\003", 1, "\006", 5);
    SAY(meter, "table 06", "\001W1\002Z(06;111111111111111111111111)\003\001", 1, "\006", 5);
    SAY(meter, "table 24", "\001W1\002Z(24;444433332222111144443333)\003\001", 1, "\006", 5);
    SAY(meter, "a wrong BCC", "\001W1\002Z(01;222222222222222222222222)\003\007", 4, "\x15", 5);
    SAY(meter, "counter", "\001R1\002E1()\003\x17", 1, "\00215.8.1(000001.500*kWh)\r\n\003\x6c", 5);
    SAY(meter, "good-bye", "\001B0\003\x71", 1, "\006", 5);
    expect(meter->mode == 0, "listens");
    memcpy(kept.registers.tables + 23 * 24, "444433332222111144443333", 24);
    expect(same(meter, &kept), "everything but row 24 is as it was");
}

/* A head that stays slow: its session, from the confirmation to the ACK of the good-bye, goes at 300 baud. */
static void talks_slowly(struct dirgemist_meter *meter) {
    struct dirgemist_meter kept = *meter;
    SAY(meter, "sign-on", "/?!\r\n", 1, "/ZZZ5SUB-VP01.00*\r\n", 0);
    SAY(meter, "a digit that is no speed", "\006" "011\r\n", 2, "", 0);
    SAY(meter, "sign-on again", "/?!\r\n", 1, "/ZZZ5SUB-VP01.00*\r\n", 0);
    SAY(meter, "slow confirmation", "\006" "001\r\n", 1, "\001P0\002(0000)\003\x60", 0);
    expect(meter->mode == 2 && meter->speed == 0, "waits for the password at 300 baud");
    SAY(meter, "password", "\001P1\002(20304050)\003\x61", 1, "\006", 0);
    expect(meter->mode == 4 && meter->speed == 0, "programs at 300 baud");
    SAY(meter, "a wrong BCC", "\001W1\002Z(01;222222222222222222222222)\003\007", 4, "\x15", 0);
    SAY(meter, "good-bye", "\001B0\003\x71", 1, "\006", 0);
    expect(same(meter, &kept), "a slow session that wrote nothing changes nothing");
    meter->speed = 5;
    expect(dirgemist_meter_check(meter) == 14, "no speed but 0 where it listens");
    meter->speed = 0;
}

/* A meter on the wire: its own sign-on, one speed, and a refusal that says nothing and ends the session. */
static void talks_by_wire(struct dirgemist_meter *meter) {
    struct dirgemist_meter kept = *meter;
    for (int link = 0; link <= 3; link++) {
        uint8_t number = dirgemist_meter_make(meter, (const uint8_t *)"1234567890", 10, (const uint8_t *)"Kiln_7 old", 10,
                                              (const uint8_t *)"20304050", 8, 2024, 2, 29, 23, 5, 9, 1, (uint8_t)link, 0);
        expect(number == (link == 1 || link == 2 ? 1 : 15), "a link is one of two");
        expect(meter->registers.facts.link == (number == 1 ? link : 1), "the link that was told");
        expect(meter->speed == (link == 2 ? 5 : 0), "the speed of a link");
        if (link != 2) {
            continue;
        }
        SAY(meter, "the optical sign-on", "/?!\r\n", 0, "", 5);
        SAY(meter, "the closing sign-on", "/C!\r\n", 0, "", 5);
        SAY(meter, "another meter", "/A123.4567891\r\n", 0, "", 5);
        SAY(meter, "whichever is there", "/A000.0000000\r\n", 1, "/g123.4567890\r\n", 5);
        SAY(meter, "the digit 0", "\006" "001\r\n", 2, "", 5);
        SAY(meter, "this meter", "/A123.4567890\r\n", 1, "/g123.4567890\r\n", 5);
        expect(meet(meter, DIRGEMIST_SILENCE, 0, ROOM) == 1 && *length == 0 && *speed == 5, "silence");
        for (uint8_t mode = 2; mode <= 4; mode++) {
            meter->mode = mode;
            SAY(meter, "a wrong BCC", "\001B0\003\x70", 4, "", 5);
            expect(meter->mode == 0 && meter->speed == 5, "the session is dropped");
        }
        SAY(meter, "this meter", "/A123.4567890\r\n", 1, "/g123.4567890\r\n", 5);
        SAY(meter, "confirmation", "\006" "051\r\n", 1, "\001P0\002(0000)\003\x60", 5);
        SAY(meter, "password", "\001P1\002(20304050)\003\x61", 1, "\006", 5);
        SAY(meter, "table 01", "\001W1\002Z(01;111111111111111111111111)\003\006", 1, "\006", 5);
        SAY(meter, "good-bye", "\001B0\003\x71", 1, "\006", 5);
        expect(meet(meter, DIRGEMIST_POWER_UP, 0, ROOM) == 1 && *speed == 5 && meter->speed == 5, "power-up");
        expect(dirgemist_meter_check(meter) == 1, "a wired meter is well-formed");
        meter->speed = 0;
        expect(dirgemist_meter_check(meter) == 14, "no speed but 5 on the wire");
    }
    *meter = kept;
}

/* A frame whose characters from `first` on come damaged, every `step`th of them: 3 and the first's place. */
static void is_hurt(struct dirgemist_meter *meter, const char *frame, size_t size, size_t first, size_t step) {
    for (size_t at = 0; at < size; at++) {
        uint8_t byte = with_parity((uint8_t)frame[at]);
        if (at >= first && (at - first) % step == 0) {
            byte ^= (uint8_t)(1 << at % 8);
        }
        uint8_t number = meet(meter, DIRGEMIST_CHARACTER, byte, ROOM);
        if (at + 1 == size) {
            expect(number == 3 && *place == first, "the first damaged character's place");
        } else {
            expect(number == 0 && meter->receiver.mark == (at >= first), "a damaged frame goes on");
            expect(meter->receiver.place == (at >= first ? first : 0), "the place that is kept");
        }
    }
    expect(meter->receiver.mark == 0 && meter->receiver.place == 0, "nothing is left of it");
}

/* Damage at each place of a frame but its SOH and its ETX, alone and with more behind it; a restart forgets it. */
static void tells_the_place(struct dirgemist_meter *meter) {
    static const char frame[] = "\001R1\002Z(17)\003\x51";
    size_t size = sizeof frame - 1, etx = size - 2;
    meter->mode = 4;
    meter->speed = 5;
    for (size_t first = 1; first < size; first++) {
        for (size_t step = 1; step < size && first != etx; step++) {
            if (first > etx || (etx - first) % step != 0) {
                is_hurt(meter, frame, size, first, step);
            }
        }
        for (size_t at = 0; at < first; at++) {
            uint8_t stray = at == 0 ? with_parity(1) : with_parity('x') ^ 1;
            expect(meet(meter, DIRGEMIST_CHARACTER, stray, ROOM) == 0, "a frame that is not finished");
        }
        expect(meter->receiver.place == (first > 1), "its place");
        is_hurt(meter, frame, size, size - 1, 1);
    }
    SAY(meter, "undamaged again", "\001R1\002E1()\003\x17", 1, "\00215.8.1(000001.500*kWh)\r\n\003\x6c", 5);
    for (unsigned mark = 0; mark < 3; mark++) {
        for (unsigned at = 0; at < 256; at++) {
            meter->receiver = (struct dirgemist_receiver){.held = {1, 0, 0}, .count = 3};
            meter->receiver.mark = (uint8_t)mark;
            meter->receiver.place = (uint8_t)at;
            int good = mark == 0 ? at == 0 : mark == 1 && at < 3;
            expect(dirgemist_meter_check(meter) == (good ? 1 : 14), "a place that no receiver has");
        }
    }
    meter->receiver = (struct dirgemist_receiver){.count = 0};
    meter->mode = 0;
    meter->speed = 0;
}

/* A period closed at the record's own clock. */
static void close_by_hand(struct dirgemist_meter *meter) {
    struct dirgemist_archive *kept = &meter->registers.archive;
    struct dirgemist_clock now = meter->registers.clock;
    memmove(&kept->periods[1], &kept->periods[0], 11 * sizeof kept->periods[0]);
    kept->periods[0].closed = (struct dirgemist_stamp){now.date, now.time.hour, now.time.minute};
    memcpy(kept->periods[0].zones, meter->registers.counters.zones, sizeof kept->periods[0].zones);
    memcpy(kept->periods[0].exported, meter->registers.exported.zones, sizeof kept->periods[0].exported);
    kept->count += kept->count < 12;
}

/* The bytes of the next reply from a place on are these characters. */
static void expect_at(size_t at, const char *text, const char *what) {
    for (size_t n = 0; n < strlen(text); n++) {
        expect(at + n < *length && reply[at + n] == with_parity((uint8_t)text[n]), what);
    }
}

/* Months closed by `/C!` and by the seconds that reach a first; what the block with them says. */
static void closes(struct dirgemist_meter *meter) {
    struct dirgemist_meter before = *meter;
    memset(&meter->registers.archive, 0, sizeof meter->registers.archive);
    memset(&before.registers.archive, 0, sizeof before.registers.archive);
    for (unsigned n = 1; n <= 14; n++) {
        meter->registers.clock = (struct dirgemist_clock){{2024, 2, 29}, {23, 59, 57}};
        if (n % 2 == 0) {
            for (uint8_t second = 58; second <= 61; second++) {
                expect(dirgemist_meter_tick(meter, speed) == 1, "tick");
            }
            before.registers.clock = (struct dirgemist_clock){{2024, 3, 1}, {0, 0, 0}};
            close_by_hand(&before);
            before.registers.clock.time.second = 1;
        } else {
            SAY(meter, "closing sign-on", "/C!\r\n", 1, "/ZZZ5SUB-VP01.00*\r\n", 0);
            before.registers.clock = meter->registers.clock;
            close_by_hand(&before);
            expect(dirgemist_meter_silence(meter, reply, ROOM, length, speed, place) == 1, "back to listening");
        }
        expect(meter->registers.archive.count == (n < 12 ? n : 12), "how many periods are kept");
        expect(same(meter, &before), "a period closed");
        expect(dirgemist_meter_check(meter) == 1, "an archive is well-formed");
        expect(dirgemist_meter_pulse(meter, 1, speed) == 1 && dirgemist_meter_pulse(&before, 1, speed) == 1, "a pulse");
        calls += 6;
        uint8_t confirmed[6] = "\006" "056\r";
        meter->mode = 1;
        for (int at = 0; at < 5; at++) {
            expect(meet(meter, DIRGEMIST_CHARACTER, with_parity(confirmed[at]), ROOM) == 0, "collected");
        }
        expect(meet(meter, DIRGEMIST_CHARACTER, with_parity('\n'), ROOM) == 1, "the block with periods");
        expect(*length == 1063 + 134u * meter->registers.archive.count && *speed == 5, "its length");
        expect_at(1058, n % 2 ? "0.1.2*01(24-02-29 23:59)\r\n15.8.1*01(" : "0.1.2*01(24-03-01 00:00)\r\n15.8.1*01(", "the newest first");
        if (n > 12) {
            expect_at(1058 + 11 * 134, n % 2 ? "0.1.2*12(24-03-01 00:00)\r\n" : "0.1.2*12(24-02-29 23:59)\r\n", "the oldest last");
        }
        expect(same(meter, &before), "the block changes nothing");
    }
}

/* Silence in each mode, seconds over the end of a month, a zone for each hour, power-up. */
static void passes(struct dirgemist_meter *meter) {
    struct dirgemist_meter before = *meter;
    for (uint8_t mode = 0; mode <= 4; mode++) {
        meter->mode = mode;
        meter->speed = mode < 3 ? 0 : 5;
        uint8_t number = dirgemist_meter_silence(meter, reply, ROOM, length, speed, place);
        expect(*place == 0, "silence has no place");
        expect(number == (mode == 0 ? 0 : 1) && meter->mode == 0 && *speed == 0, "silence");
        expect(*length == (mode == 1 ? 1 : 0) && (mode != 1 || reply[0] == with_parity(0x15)),
               "NAK at silence in mode 1 alone");
        expect(same(meter, &before), "silence changes the session alone");
        calls++;
    }
    for (int second = 0; second < 54 * 60 + 51; second++) {
        meter->mode = second % 5;
        meter->speed = second % 5 < 2 || second % 2 ? 0 : 5;
        expect(dirgemist_meter_tick(meter, speed) == 1 && *speed == meter->speed, "tick");
        calls++;
    }
    meter->mode = 0;
    meter->speed = 0;
    before.registers.clock = (struct dirgemist_clock){{2024, 3, 1}, {0, 0, 0}};
    close_by_hand(&before);
    expect(same(meter, &before), "the first of March, midnight, and February closed");
    /* A Friday: table 3, whose first two hours are now zones 1 and 2. */
    meter->registers.tables[2 * 24 + 1] = '2';
    expect(dirgemist_meter_pulse(meter, 999999, speed) == 1, "a pulse in zone 1");
    meter->registers.clock.time.hour = 1;
    expect(dirgemist_meter_pulse(meter, 1000000, speed) == 1, "the largest pulse, in zone 2");
    expect(dirgemist_meter_pulse(meter, 0, speed) == 1, "a pulse of nothing");
    meter->mode = 3;
    meter->speed = 5;
    SAY(meter, "zone 1", "\001R1\002E1()\003\x17", 1, "\00215.8.1(001001.499*kWh)\r\n\003\x6c", 5);
    SAY(meter, "zone 2", "\001R1\002E2()\003\x14", 1, "\00215.8.2(001000.000*kWh)\r\n\003\x6a", 5);
    meter->attempts = 3;
    expect(dirgemist_meter_power_up(meter, speed) == 1 && *speed == 0, "power-up");
    expect(meter->mode == 0 && meter->attempts == 0 && meter->receiver.count == 0, "starts anew");
    calls += 4;
}

/* Each refusal of each call, alone and with those behind it. */
static void refuses(struct dirgemist_meter *meter) {
    for (int malformed = 0; malformed < 2; malformed++) {
        meter->attempts = malformed ? 4 : 0;
        expect(dirgemist_meter_check(meter) == (malformed ? 14 : 1), "the check");
        for (size_t room = 0; room < ROOM; room += ROOM - 1) {
            refused(meter, DIRGEMIST_CHARACTER, '/', room, 12, "a character without room");
            refused(meter, DIRGEMIST_SILENCE, 0, room, 12, "silence without room");
            refused(meter, DIRGEMIST_PULSE, 1000001, room, 13, "a pulse of too much, without room");
            refused(meter, DIRGEMIST_PULSE_OUT, 0, room, 13, "a pulse out that this family does not count");
            refused(meter, 6, 0, room, DIRGEMIST_NO_EVENT, "kind 6, without room");
        }
        refused(meter, DIRGEMIST_PULSE, 1000001, ROOM, 13, "a pulse of too much");
        refused(meter, DIRGEMIST_PULSE, UINT32_MAX, ROOM, 13, "the largest number as a pulse");
        refused(meter, DIRGEMIST_CHARACTER, 256, ROOM, DIRGEMIST_NO_EVENT, "a character of nine bits");
        refused(meter, DIRGEMIST_CHARACTER, UINT32_MAX, 0, DIRGEMIST_NO_EVENT, "the largest character");
        for (int kind = 6; kind < 256; kind++) {
            refused(meter, (uint8_t)kind, 47, ROOM, DIRGEMIST_NO_EVENT, "an unknown kind");
        }
    }
    for (uint8_t kind = 0; kind <= 4; kind++) {
        refused(meter, kind, '/', ROOM, 14, "a malformed record");
    }
    for (uint8_t kind = 2; kind <= 4; kind++) {
        refused(meter, kind, 47, 0, 14, "a malformed record and no room");
    }
    struct dirgemist_meter before;
    memcpy(&before, meter, sizeof before);
    expect(dirgemist_meter_tick(meter, speed) == 14 && *speed == 0, "tick of a malformed record");
    expect(dirgemist_meter_pulse(meter, 1000001, speed) == 13 && *speed == 0, "13 before 14");
    expect(dirgemist_meter_pulse(meter, 1, speed) == 14 && *speed == 0, "pulse of a malformed record");
    expect(dirgemist_meter_power_up(meter, speed) == 14 && *speed == 0, "power-up heals nothing");
    expect(memcmp(&before, meter, sizeof before) == 0, "a malformed record as it was");
    meter->attempts = 0;
    calls += 4;
    expect(meet(meter, DIRGEMIST_CHARACTER, with_parity('/'), ROOM) == 0, "held again");
    expect(meter->receiver.count == 1, "one character");
}

/* 16 before all else: before a malformed record, no room, a pulse of too much and an unknown kind. */
static void refuses_editions(struct dirgemist_meter *meter) {
    for (int number = 0; number < 256; number++) {
        struct dirgemist_meter kept = *meter;
        meter->registers.facts.edition = (uint8_t)number;
        meter->attempts = 4;
        if (number != 1 && number != 2) {
            expect(dirgemist_meter_check(meter) == 16, "the check of an edition that is none");
            *total = 99;
            expect(dirgemist_meter_total(meter, total) == 16 && *total == 0, "its total");
            for (int kind = 0; kind < 256; kind++) {
                refused(meter, (uint8_t)kind, 47, ROOM, 16, "an edition that is none");
                refused(meter, (uint8_t)kind, 1000001, 0, 16, "an edition that is none, without room");
            }
        }
        memcpy(meter, &kept, sizeof kept);
    }
    /* the unused row of edition 1 is 0, and edition 2 uses it */
    meter->registers.tables[24 * 24 + 7] = '1';
    refused(meter, DIRGEMIST_TICK, 0, 0, 14, "edition 1 with a character of a 25th row");
    memset(meter->registers.tables + 24 * 24, '1', 24);
    meter->registers.facts.edition = 2;
    expect(dirgemist_meter_check(meter) == 1, "edition 2 with 25 rows");
    meter->registers.tables[24 * 24 + 7] = 0;
    refused(meter, DIRGEMIST_TICK, 0, 0, 14, "edition 2 with a row of less");
    memset(meter->registers.tables + 24 * 24, 0, 24);
    meter->registers.facts.edition = 1;
}

/* Edition 2: its name, table 25 on Saturdays, 12 + month on Sundays; edition 1 has no table 25. */
static void keeps_saturdays(struct dirgemist_meter *meter) {
    struct dirgemist_meter kept = *meter;
    for (uint8_t edition = 1; edition <= 2; edition++) {
        make_for(meter, "1234567890", "Kiln_7 old", "20304050", 2024, 2, 24, 23, 5, 9, edition, 0);
        expect(all_within(meter->registers.tables, 24 * 24, '1', '1'), "24 rows of '1'");
        uint8_t last = edition == 2 ? '1' : 0;
        expect(all_within(meter->registers.tables + 24 * 24, 24, last, last), "the 25th row");
        if (edition == 1) {
            SAY(meter, "sign-on", "/?!\r\n", 1, "/ZZZ5SUB-VP01.00*\r\n", 0);
        } else {
            SAY(meter, "sign-on", "/?!\r\n", 1, "/ZZZ5SUB-VP02.00*\r\n", 0);
        }
        meter->mode = 4;
        meter->speed = 5;
        struct dirgemist_meter before = *meter;
        if (edition == 1) {
            SAY(meter, "a table 25", "\001W1\002Z(25;222222222222222222222222)\003\000", 9, "\x15", 5);
            expect(same(meter, &before), "refused, and nothing else changes");
            SAY(meter, "table 25 asked for", "\001R1\002Z(25)\003>", 9, "\x15", 5);
        } else {
            SAY(meter, "table 25", "\001W1\002Z(25;222222222222222222222222)\003\000", 1, "\006", 5);
            memset(before.registers.tables + 24 * 24, '2', 24);
            expect(same(meter, &before), "row 25 and nothing else");
            SAY(meter, "table 25 asked for", "\001R1\002Z(25)\003>", 1, "\002131.0.25(222222222222222222222222)\r\n\003\001", 5);
        }
        meter->mode = meter->speed = 0;
        /* a Saturday, then the Sunday behind it */
        expect(dirgemist_meter_pulse(meter, 7, speed) == 1, "a pulse on a Saturday");
        expect(meter->registers.counters.zones[edition - 1] == 7, "its zone");
        meter->registers.clock.date.day = 25;
        expect(dirgemist_meter_pulse(meter, 11, speed) == 1, "a pulse on a Sunday");
        expect(meter->registers.counters.zones[0] == (edition == 1 ? 18 : 11), "its zone");
    }
    memcpy(meter, &kept, sizeof kept);
}

/* R1 with this data gets a block with just these lines. */
static void reads(struct dirgemist_meter *meter, const char *data, const char *lines) {
    char asked[64], told[128];
    int asked_length = snprintf(asked, sizeof asked, "\001R1\002%s\003", data);
    int told_length = snprintf(told, sizeof told, "\002%s\003", lines);
    for (char *text = asked; text != NULL; text = text == asked ? told : NULL) {
        int *size = text == asked ? &asked_length : &told_length;
        char bcc = 0;
        for (int at = 1; at < *size; at++) {
            bcc ^= text[at];
        }
        text[(*size)++] = bcc;
    }
    say(meter, data, asked, (size_t)asked_length, 1, told, (size_t)told_length, 5);
}

/* Eight digits with so many behind the point: a counter as it is shown. */
static const char *shown(uint8_t decimals, uint32_t number) {
    static char text[10];
    for (int at = 8; at >= 0; at--) {
        if (at == 8 - decimals) {
            text[at] = '.';
        } else {
            text[at] = (char)('0' + number % 10);
            number /= 10;
        }
    }
    return text;
}

/* EQM meters: what they are made from, both directions, their lines, and where they roll over. */
static void counts_both_ways(struct dirgemist_meter *meter) {
    struct dirgemist_meter kept;
    memcpy(&kept, meter, sizeof kept);
    for (int decimals = 0; decimals < 256; decimals++) {
        int good = decimals == 0 || (decimals >= 2 && decimals <= 4);
        const char *wrong_facts = "123456789x";
        expect(make_for(meter, "1234567890", "Kiln_7 old", "20304050", 2024, 2, 29, 23, 5, 9, 2, (uint8_t)decimals)
                   == (good ? 1 : 18), "decimals at the factory");
        expect(meter->registers.facts.decimals == (good ? decimals : 0), "the decimals that were told");
        expect(meter->registers.facts.edition == (good ? 2 : 1), "or the blank meter");
        expect(make_for(meter, wrong_facts, "", "", 1999, 2, 30, 24, 60, 60, 1, (uint8_t)decimals) == (good ? 15 : 18),
               "18 before 15");
        expect(make_for(meter, wrong_facts, "", "", 1999, 2, 30, 24, 60, 60, 3, (uint8_t)decimals) == 16, "16 before 18");
        expect(dirgemist_meter_check(meter) == 1, "the blank meter is well-formed");
        meter->registers.facts.decimals = (uint8_t)decimals;
        expect(dirgemist_meter_check(meter) == (good ? 1 : 14), "decimals of a record");
        calls += 2;
    }
    for (uint8_t decimals = 2; decimals <= 4; decimals++) {
        make_for(meter, "1234567890", "Kiln_7 old", "20304050", 2024, 2, 29, 23, 5, 9, 1, decimals);
        struct dirgemist_registers *have = &meter->registers;
        expect(dirgemist_meter_pulse(meter, 1500, speed) == 1 && *speed == 0, "1,500 in");
        expect(dirgemist_meter_pulse_out(meter, 1000000, speed) == 1 && *speed == 0, "1,000,000 out");
        struct dirgemist_counters in = {{1500, 0, 0, 0}, 1500}, out = {{1000000, 0, 0, 0}, 1000000};
        expect(memcmp(&have->counters, &in, sizeof in) == 0 && memcmp(&have->exported, &out, sizeof out) == 0,
               "each counted on its own side");
        refused(meter, DIRGEMIST_PULSE_OUT, 1000001, ROOM, 13, "a pulse out of too much");
        refused(meter, DIRGEMIST_PULSE_OUT, UINT32_MAX, 0, 13, "the largest number as a pulse out");
        expect(dirgemist_meter_total(meter, total) == 1 && *total == 1500, "the total is that of what came in");
        /* at the last place, and over it */
        have->counters = (struct dirgemist_counters){{99999999, 0, 0, 99999999}, 99999998};
        have->exported = (struct dirgemist_counters){{99000000, 5, 0, 0}, 99000005};
        expect(dirgemist_meter_pulse(meter, 1, speed) == 1, "in, over the last place");
        expect(dirgemist_meter_pulse_out(meter, 1000000, speed) == 1, "out, over the last place");
        in = (struct dirgemist_counters){{0, 0, 0, 99999999}, 99999999};
        out = (struct dirgemist_counters){{0, 5, 0, 0}, 5};
        expect(memcmp(&have->counters, &in, sizeof in) == 0 && memcmp(&have->exported, &out, sizeof out) == 0,
               "eight digits and no more");
        meter->mode = 3;
        meter->speed = 5;
        struct dirgemist_meter before = *meter;
        char data[8], lines[64];
        for (int zone = 0; zone <= 4; zone++) {
            snprintf(data, sizeof data, "E%d()", zone);
            snprintf(lines, sizeof lines, "1.8.%d(%s*kWh)\r\n", zone, shown(decimals, zone ? in.zones[zone - 1] : in.total));
            reads(meter, data, lines);
            snprintf(data, sizeof data, "G%d()", zone);
            snprintf(lines, sizeof lines, "2.8.%d(%s*kWh)\r\n", zone, shown(decimals, zone ? out.zones[zone - 1] : out.total));
            reads(meter, data, lines);
        }
        SAY(meter, "a sixth counter", "\001R1\002G5()\003\x11", 9, "\x15", 5);
        expect(same(meter, &before), "reads change nothing");
        /* a closed period keeps all eight, and the block has ten lines and then those */
        meter->mode = meter->speed = 0;
        SAY(meter, "closing sign-on", "/C!\r\n", 1, "/ZZZ5SUB-VP01.00*\r\n", 0);
        expect(memcmp(have->archive.periods[0].zones, in.zones, sizeof in.zones) == 0
                   && memcmp(have->archive.periods[0].exported, out.zones, sizeof out.zones) == 0, "a period of eight counters");
        uint8_t confirmed[6] = "\006" "056\r";
        for (int at = 0; at < 5; at++) {
            expect(meet(meter, DIRGEMIST_CHARACTER, with_parity(confirmed[at]), ROOM) == 0, "collected");
        }
        expect(meet(meter, DIRGEMIST_CHARACTER, with_parity('\n'), ROOM) == 1, "the block of an EQM meter");
        expect(*length == 1163 + 226 && *speed == 5, "its length");
        snprintf(lines, sizeof lines, "1.8.4(%s*kWh)\r\n1.8.0(", shown(decimals, 99999999));
        expect_at(74 + 3 * 22, lines, "what came in");
        snprintf(lines, sizeof lines, "2.8.2(%s*kWh)\r\n2.8.3(", shown(decimals, 5));
        expect_at(74 + 6 * 22, lines, "what went out");
        expect_at(74 + 10 * 22, "131.0.01(", "then the tables");
        snprintf(lines, sizeof lines, "1.8.4*01(%s*kWh)\r\n2.8.1*01(", shown(decimals, 99999999));
        expect_at(1158 + 26 + 3 * 25, lines, "the period's counters");
        /* each side's counters and total within their own ranges */
        have->exported.zones[2] = 100000000;
        expect(dirgemist_meter_check(meter) == 14, "an exported counter of nine digits");
        have->exported.zones[2] = 0;
        have->exported.total = 6;
        expect(dirgemist_meter_check(meter) == 14, "another total of what went out");
        have->exported.total = 5;
        have->archive.periods[0].exported[3] = 100000000;
        expect(dirgemist_meter_check(meter) == 14, "a period's exported counter of nine digits");
        have->archive.periods[0].exported[3] = 99999999;
        expect(dirgemist_meter_check(meter) == 1, "all of it within its ranges");
        /* the same record in the other family has counters that it cannot have */
        have->facts.decimals = 0;
        refused(meter, DIRGEMIST_TICK, 0, 0, 14, "exported counters where there are none");
        refused(meter, DIRGEMIST_PULSE_OUT, 1, 0, 13, "13 before 14");
        memset(&have->exported, 0, sizeof have->exported);
        refused(meter, DIRGEMIST_TICK, 0, 0, 14, "a period with exported counters where there are none");
        memset(have->archive.periods[0].exported, 0, sizeof have->archive.periods[0].exported);
        expect(dirgemist_meter_check(meter) == 1, "none of them");
        meter->mode = 3;
        meter->speed = 5;
        SAY(meter, "what this family does not count", "\001R1\002G0()\003\x14", 9, "\x15", 5);
        calls += 12;
    }
    memcpy(meter, &kept, sizeof kept);
}

static uint64_t seed = 20000101;

static uint32_t any(void) {
    seed = seed * 6364136223846793005u + 1442695040888963407u;
    return (uint32_t)(seed >> 33);
}

/* Whether counters and their total stay below an end. */
static int counted(const struct dirgemist_counters *side, uint32_t end) {
    uint64_t sum = 0;
    int below = 1;
    for (int zone = 0; zone < 4; zone++) {
        below &= side->zones[zone] < end;
        sum += side->zones[zone];
    }
    return below && side->total == sum % end;
}

/* Document 01's ranges once more, and those of an EQM meter. */
static int is_formed(const struct dirgemist_meter *meter) {
    static const uint8_t most[5] = {31, 5, 63, 63, 63}, first[5] = {'/', 0, 1, 1, 1};
    static const uint8_t days[12] = {31, 29, 31, 30, 31, 30, 31, 31, 30, 31, 30, 31};
    const struct dirgemist_receiver *held = &meter->receiver;
    const struct dirgemist_registers *have = &meter->registers;
    const struct dirgemist_date *date = &have->clock.date;
    const struct dirgemist_time *time = &have->clock.time;
    uint8_t mark, decimals = have->facts.decimals;
    memcpy(&mark, &held->mark, 1);
    if (decimals == 1 || decimals > 4) {
        return 0;
    }
    if (meter->mode > 4 || meter->attempts > 3 || held->count > most[meter->mode] || mark > 1) {
        return 0;
    }
    uint8_t rest = have->facts.link == 2 ? 5 : 0;
    if (meter->speed != rest && (meter->speed != 5 || meter->mode < 2)) {
        return 0;
    }
    if (mark ? held->place >= held->count : held->place != 0) {
        return 0;
    }
    if (held->count == 0 ? mark : meter->mode != 1 && held->held[0] != first[meter->mode]) {
        return 0;
    }
    int account = 1;
    for (int at = 0; at < 10; at++) {
        uint8_t c = have->account[at];
        uint8_t letter = c | 0x20;
        account &= ('a' <= letter && letter <= 'z') || ('0' <= c && c <= '9') || c == ' ' || c == '_';
    }
    uint32_t end_in = decimals == 0 ? 1000000000 : 100000000, end_out = decimals == 0 ? 1 : 100000000;
    int zones = counted(&have->counters, end_in) && counted(&have->exported, end_out);
    int leap = date->year % 4 == 0;
    const struct dirgemist_archive *archive = &have->archive;
    int periods = archive->count <= 12;
    for (int at = 0; periods && at < 12; at++) {
        struct dirgemist_period p = archive->periods[at];
        const struct dirgemist_date *d = &p.closed.date;
        int used = at < archive->count;
        if (!used) {
            periods = d->year == 0 && d->month == 0 && d->day == 0 && p.closed.hour == 0 && p.closed.minute == 0;
        } else {
            periods = d->year >= 2000 && d->year <= 2099 && d->month >= 1 && d->month <= 12 && d->day >= 1
                      && d->day <= days[d->month - 1] - (d->month == 2 && d->year % 4 != 0)
                      && p.closed.hour <= 23 && p.closed.minute <= 59;
        }
        for (int zone = 0; zone < 4; zone++) {
            periods &= p.zones[zone] < (used ? end_in : 1) && p.exported[zone] < (used ? end_out : 1);
        }
    }
    return account && zones && periods && all_within(held->held, 64, 0, 127)
           && all_within(held->held + held->count, 64 - held->count, 0, 0)
           && all_within(have->facts.serial, 10, '0', '9') && all_within(have->facts.password, 8, '0', '9')
           && (have->facts.link == 1 || have->facts.link == 2)
           && all_within(have->tables, 24 * 24, '1', '4')
           && all_within(have->tables + 24 * 24, 24, have->facts.edition == 2 ? '1' : 0, have->facts.edition == 2 ? '4' : 0)
           && date->year >= 2000
           && date->year <= 2099 && date->month >= 1 && date->month <= 12 && date->day >= 1
           && date->day <= days[date->month - 1] - (date->month == 2 && !leap) && time->hour <= 23
           && time->minute <= 59 && time->second <= 59;
}

/* A million records of each family: all bytes random, or a made one with some bytes random. A record is either refused
 * by every call and left as it was, or by none, and is well-formed after each. */
static void takes_anything(struct dirgemist_meter *meter, long *formed) {
    struct dirgemist_meter made, before;
    memcpy(&made, meter, sizeof made);
    for (unsigned i = 0; i < 1000000; i++) {
        uint8_t bytes[sizeof made];
        memcpy(bytes, &made, sizeof made);
        size_t count = i % 4 == 0 ? sizeof made : i % 4;
        for (size_t n = 0; n < count; n++) {
            bytes[i % 4 == 0 ? n : any() % sizeof made] = (uint8_t)(i % 8 == 5 ? '1' + any() % 4 : any());
        }
        memcpy(meter, bytes, sizeof made);
        memcpy(&before, bytes, sizeof made);
        uint8_t checked = dirgemist_meter_check(meter);
        uint8_t edition = meter->registers.facts.edition;
        expect(checked == (edition != 1 && edition != 2 ? 16 : is_formed(meter) ? 1 : 14), "the check's number");
        uint32_t kept;
        *total = 99;
        memcpy(&kept, &before.registers.counters.total, sizeof kept);
        expect(dirgemist_meter_total(meter, total) == checked, "the total's number");
        expect(*total == (checked == 1 ? kept : 0), "the total");
        expect(memcmp(&before, meter, sizeof before) == 0, "the check only reads");
        uint8_t kind = (uint8_t)(any() % 6);
        int pulse = kind == DIRGEMIST_PULSE || kind == DIRGEMIST_PULSE_OUT;
        int uncounted = kind == DIRGEMIST_PULSE_OUT && before.registers.facts.decimals == 0;
        uint32_t value = pulse ? any() % 1000001 : any() % 256;
        uint8_t number = meet(meter, kind, value, ROOM);
        if (uncounted && checked != 16) {
            expect(number == 13 && memcmp(&before, meter, sizeof before) == 0, "a pulse out is not counted");
        } else if (checked != 1) {
            expect(number == checked && *length == 0 && *speed == 0, "a malformed record is refused");
            expect(memcmp(&before, meter, sizeof before) == 0, "a malformed record comes back");
        } else {
            ++*formed;
            expect(number <= 11 && (*speed == 0 || *speed == 5), "a well-formed record is served");
            expect(dirgemist_meter_check(meter) == 1, "and is well-formed afterwards");
        }
    }
}

int main(void) {
    struct dirgemist_meter *meter = exactly(sizeof *meter);
    reply = exactly(ROOM);
    length = exactly(sizeof *length);
    speed = exactly(sizeof *speed);
    place = exactly(sizeof *place);
    total = exactly(sizeof *total);
    memset(filled, 0x5A, ROOM);
    long formed = 0;
    makes(meter);
    talks(meter);
    talks_slowly(meter);
    talks_by_wire(meter);
    tells_the_place(meter);
    passes(meter);
    closes(meter);
    refuses(meter);
    refuses_editions(meter);
    keeps_saturdays(meter);
    counts_both_ways(meter);
    takes_anything(meter, &formed);
    make_for(meter, "1234567890", "Kiln_7 old", "20304050", 2024, 2, 29, 23, 5, 9, 2, 3);
    takes_anything(meter, &formed);
    give_back(total, sizeof *total);
    give_back(place, sizeof *place);
    give_back(speed, sizeof *speed);
    give_back(length, sizeof *length);
    give_back(reply, ROOM);
    give_back(meter, sizeof *meter);
    printf("firmware in C: %ld calls, 2,000,000 records of any bytes (%ld well-formed), %s\n", calls,
           formed, wrong ? "WRONG" : "as the page has them");
    return wrong;
}
