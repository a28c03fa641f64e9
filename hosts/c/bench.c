/* bench.c: a meter on the tester's bench. It meets the events of a script from standard input, and
 * a transcript on standard output says what it answered. The record lies in memory that ends, and
 * after every other `new` and `set` that starts, where its size says, and so do the reply
 * buffers. */
#include "script.h"

#include "dirgemist_card.h"
#include "dirgemist_gateway.h"
#include "dirgemist_meter.h"

#define ROOM_MOST 8192

/* ---- Fields: a number or bytes at a place of a record, one row of a table for each. */

enum kind { NUMBER, BYTES };

struct field {
    const char *name;
    enum kind kind;
    size_t offset;
    size_t size;
};

#define FIELD(kind, type, name, member) \
    {name, kind, offsetof(type, member), sizeof(((type *)0)->member)}

/* Sets the fields of a record by as many words. */
static bool set_fields(const struct field *fields, size_t count, const struct word *words,
                       void *record) {
    for (size_t at = 0; at < count; at++) {
        const struct field *field = &fields[at];
        uint8_t *place = (uint8_t *)record + field->offset;
        if (field->kind == BYTES) {
            if (!bytes_of(words[at], place, field->size)) {
                return false;
            }
            continue;
        }
        uint64_t number;
        if (!number_of(words[at], UINT64_MAX >> (64 - 8 * field->size), &number)) {
            return false;
        }
        switch (field->size) {
        case 1: *place = (uint8_t)number; break;
        case 2: memcpy(place, &(uint16_t){(uint16_t)number}, 2); break;
        default: memcpy(place, &(uint32_t){(uint32_t)number}, 4); break;
        }
    }
    return true;
}

static void put_fields(const struct field *fields, size_t count, const void *record) {
    for (size_t at = 0; at < count; at++) {
        const struct field *field = &fields[at];
        const uint8_t *place = (const uint8_t *)record + field->offset;
        if (at > 0) {
            put(' ');
        }
        if (field->kind == BYTES) {
            put_bytes(place, field->size);
            continue;
        }
        uint16_t two;
        uint32_t four;
        switch (field->size) {
        case 1: put_number(*place); break;
        case 2: memcpy(&two, place, 2); put_number(two); break;
        default: memcpy(&four, place, 4); put_number(four); break;
        }
    }
}

/* ---- The state's text: a row for each field, in the order of `dump` and `set`. */

#define STATE(kind, name, member) FIELD(kind, struct dirgemist_meter, name, member)

/* The fields of a closed period; the newest has place 0. */
#define CLOSED(name, place, member) STATE(NUMBER, name, registers.archive.periods[place].member)
#define PERIOD(place)                                                                       \
    CLOSED("YEAR", place, closed.date.year), CLOSED("MONTH", place, closed.date.month),     \
        CLOSED("DAY", place, closed.date.day), CLOSED("HOUR", place, closed.hour),          \
        CLOSED("MINUTE", place, closed.minute), CLOSED("C1", place, zones[0]),              \
        CLOSED("C2", place, zones[1]), CLOSED("C3", place, zones[2]),                       \
        CLOSED("C4", place, zones[3]), CLOSED("X1", place, exported[0]),                    \
        CLOSED("X2", place, exported[1]), CLOSED("X3", place, exported[2]),                 \
        CLOSED("X4", place, exported[3])

static const struct field state[] = {
    STATE(NUMBER, "MODE", mode),
    STATE(NUMBER, "COUNT", receiver.count),
    STATE(NUMBER, "MARK", receiver.mark),
    /* a script knows the 63 places that may hold something; the record's last one stays 0 */
    {"HELD", BYTES, offsetof(struct dirgemist_meter, receiver.held), 63},
    STATE(BYTES, "SERIAL", registers.facts.serial),
    STATE(BYTES, "ACCOUNT", registers.account),
    STATE(BYTES, "PASSWORD", registers.facts.password),
    STATE(NUMBER, "ATTEMPTS", attempts),
    STATE(NUMBER, "YEAR", registers.clock.date.year),
    STATE(NUMBER, "MONTH", registers.clock.date.month),
    STATE(NUMBER, "DAY", registers.clock.date.day),
    STATE(NUMBER, "HOUR", registers.clock.time.hour),
    STATE(NUMBER, "MINUTE", registers.clock.time.minute),
    STATE(NUMBER, "SECOND", registers.clock.time.second),
    STATE(NUMBER, "C1", registers.counters.zones[0]),
    STATE(NUMBER, "C2", registers.counters.zones[1]),
    STATE(NUMBER, "C3", registers.counters.zones[2]),
    STATE(NUMBER, "C4", registers.counters.zones[3]),
    STATE(BYTES, "TABLES", registers.tables),
    STATE(NUMBER, "SPEED", speed),
    STATE(NUMBER, "PLACE", receiver.place),
    STATE(NUMBER, "EDITION", registers.facts.edition),
    STATE(NUMBER, "TOTAL", registers.counters.total),
    STATE(NUMBER, "DECIMALS", registers.facts.decimals),
    STATE(NUMBER, "X1", registers.exported.zones[0]),
    STATE(NUMBER, "X2", registers.exported.zones[1]),
    STATE(NUMBER, "X3", registers.exported.zones[2]),
    STATE(NUMBER, "X4", registers.exported.zones[3]),
    STATE(NUMBER, "XTOTAL", registers.exported.total),
    STATE(NUMBER, "PERIODS", registers.archive.count),
    PERIOD(0),
    PERIOD(1),
    PERIOD(2),
    PERIOD(3),
    PERIOD(4),
    PERIOD(5),
    PERIOD(6),
    PERIOD(7),
    PERIOD(8),
    PERIOD(9),
    PERIOD(10),
    PERIOD(11),
    STATE(NUMBER, "LINK", registers.facts.link),
};

/* ---- What a meter is made from: a row for each word of `new`. Those past NEEDED may be left out,
 * from the right, and are then as in `usual`, the facts of a blank meter. */

struct facts {
    uint8_t serial[10], account[10], password[8];
    uint16_t year;
    uint8_t month, day, hour, minute, second;
    uint8_t edition, link, decimals;
};

#define FACT(kind, name, member) FIELD(kind, struct facts, name, member)
#define NEEDED 9

static const struct field facts[] = {
    FACT(BYTES, "SERIAL", serial),
    FACT(BYTES, "ACCOUNT", account),
    FACT(BYTES, "PASSWORD", password),
    FACT(NUMBER, "YEAR", year),
    FACT(NUMBER, "MONTH", month),
    FACT(NUMBER, "DAY", day),
    FACT(NUMBER, "HOUR", hour),
    FACT(NUMBER, "MINUTE", minute),
    FACT(NUMBER, "SECOND", second),
    FACT(NUMBER, "EDITION", edition),
    FACT(NUMBER, "LINK", link),
    FACT(NUMBER, "DECIMALS", decimals),
};

static struct facts usual(void) {
    struct facts blank = {.year = 2000, .month = 1, .day = 1, .edition = 1, .link = 1};
    memset(blank.serial, '0', sizeof blank.serial);
    memset(blank.account, ' ', sizeof blank.account);
    memset(blank.password, '0', sizeof blank.password);
    return blank;
}

static struct dirgemist_meter *meter; /* one of the two places */
static struct dirgemist_meter *places[2];

/* The record's place for the next state that comes from outside: not the one it has. */
static struct dirgemist_meter *other_place(void) {
    return places[meter == places[0]];
}

static uint8_t make(struct dirgemist_meter *at, const struct facts *f) {
    return dirgemist_meter_make(at, f->serial, sizeof f->serial, f->account, sizeof f->account,
                                f->password, sizeof f->password, f->year, f->month, f->day,
                                f->hour, f->minute, f->second, f->edition, f->link, f->decimals);
}

static bool play_new(const struct word *words, size_t count) {
    struct facts given = usual();
    if (!set_fields(facts, count, words, &given)) {
        return false;
    }
    meter = other_place();
    put_number(make(meter, &given));
    put('\n');
    return true;
}

static bool play_set(const struct word *words, size_t count) {
    struct dirgemist_meter *given = other_place();
    /* Padding has no field; it comes along. */
    *given = *meter;
    if (!set_fields(state, count, words, given)) {
        return false;
    }
    meter = given;
    put_text("ok\n");
    return true;
}

static bool play_dump(const struct word *words, size_t count) {
    (void)words;
    (void)count;
    put_fields(state, COUNT(state), meter);
    put('\n');
    return true;
}

/* ---- Events. What a call hands out lies in memory of its own size and is not what it was. */

#define UNWRITTEN 0xA5

static struct buffer replies;
static struct buffer frames;
static dirgemist_size *length;
static uint8_t *speed;
static uint8_t *place;

static inline void unwrite(void) {
    memset(length, UNWRITTEN, sizeof *length);
    *speed = UNWRITTEN;
    *place = UNWRITTEN;
}

static inline void put_answer(uint8_t number) {
    put_number(number);
    put(' ');
    put_number(*speed);
}

/* The answer to an event with a buffer. */
static inline void put_reply(uint8_t number) {
    put_answer(number);
    put(' ');
    put_number(*length);
    put(' ');
    put_buffer(&replies, *length);
    put(' ');
    put_number(*place);
    put('\n');
}

static void receive(uint8_t byte, size_t room) {
    unwrite();
    uint8_t *reply = lend(&replies, room);
    put_reply(dirgemist_meter_receive(meter, byte, reply, room, length, speed, place));
}

/* The room of the reply buffer, where it is given. */
static bool room_of(const struct word *words, size_t count, size_t *room) {
    uint64_t given = DIRGEMIST_REPLY_ROOM;
    bool good = count == 0 || number_of(words[0], ROOM_MOST, &given);
    *room = (size_t)given;
    return good;
}

static bool play_byte(const struct word *words, size_t count) {
    uint8_t byte;
    size_t room;
    if (!bytes_of(words[0], &byte, 1) || !room_of(words + 1, count - 1, &room)) {
        return false;
    }
    receive(byte, room);
    return true;
}

static bool play_bytes(const struct word *words, size_t count) {
    static uint8_t bytes[BYTES_MOST];
    size_t size;
    (void)count;
    if (!size_of(words[0], &size) || !bytes_of(words[0], bytes, size)) {
        return false;
    }
    for (size_t at = 0; at < size; at++) {
        receive(bytes[at], DIRGEMIST_REPLY_ROOM);
    }
    return true;
}

/* The slice lies in memory of its own size, as the reply does. */
static bool play_frame(const struct word *words, size_t count) {
    size_t size, room;
    if (!size_of(words[0], &size)) {
        return false;
    }
    uint8_t *frame = lend(&frames, size);
    if (!bytes_of(words[0], frame, size) || !room_of(words + 1, count - 1, &room)) {
        return false;
    }
    unwrite();
    uint8_t *reply = lend(&replies, room);
    put_reply(dirgemist_meter_frame(meter, frame, size, reply, room, length, speed, place));
    return true;
}

static bool play_silence(const struct word *words, size_t count) {
    size_t room;
    if (!room_of(words, count, &room)) {
        return false;
    }
    unwrite();
    uint8_t *reply = lend(&replies, room);
    put_reply(dirgemist_meter_silence(meter, reply, room, length, speed, place));
    return true;
}

/* An event without a buffer. */
static bool answered(uint8_t number) {
    put_answer(number);
    put('\n');
    return true;
}

static bool play_tick(const struct word *words, size_t count) {
    (void)words;
    (void)count;
    unwrite();
    return answered(dirgemist_meter_tick(meter, speed));
}

static bool play_up(const struct word *words, size_t count) {
    (void)words;
    (void)count;
    unwrite();
    return answered(dirgemist_meter_power_up(meter, speed));
}

static bool play_pulse(const struct word *words, size_t count) {
    uint64_t units;
    bool out = count == 2;
    if (!number_of(words[0], UINT32_MAX, &units) || (out && !is(words[1], "out"))) {
        return false;
    }
    unwrite();
    return answered(out ? dirgemist_meter_pulse_out(meter, (uint32_t)units, speed)
                        : dirgemist_meter_pulse(meter, (uint32_t)units, speed));
}

/* A card written from the state. */
static bool play_card(const struct word *words, size_t count) {
    size_t room;
    if (!room_of(words, count, &room)) {
        return false;
    }
    unwrite();
    uint8_t *card = lend(&replies, room);
    put_number(dirgemist_card_write(meter, card, room, length));
    put(' ');
    put_number(*length);
    put(' ');
    put_buffer(&replies, *length);
    put('\n');
    return true;
}

/* ---- A command by its first word, with so many words behind it. */

static const struct {
    const char *name;
    size_t least;
    size_t most;
    bool (*play)(const struct word *words, size_t count);
} commands[] = {
    {"byte", 1, 2, play_byte},
    {"bytes", 1, 1, play_bytes},
    {"frame", 1, 2, play_frame},
    {"silence", 0, 1, play_silence},
    {"tick", 0, 0, play_tick},
    {"pulse", 1, 2, play_pulse},
    {"up", 0, 0, play_up},
    {"card", 1, 1, play_card},
    {"new", NEEDED, COUNT(facts), play_new},
    {"dump", 0, 0, play_dump},
    {"set", COUNT(state), COUNT(state), play_set},
};

static bool play(const struct word *words, size_t count) {
    for (size_t at = 0; at < COUNT(commands); at++) {
        if (is(words[0], commands[at].name)) {
            return commands[at].least < count && count <= commands[at].most + 1 &&
                   commands[at].play(words + 1, count - 1);
        }
    }
    return false;
}

int main(void) {
    size_t record = sizeof(struct dirgemist_meter);
    places[0] = (struct dirgemist_meter *)placed(guarded(record), record, false);
    places[1] = (struct dirgemist_meter *)placed(guarded(record), record, true);
    length = (dirgemist_size *)placed(guarded(sizeof *length), sizeof *length, false);
    speed = placed(guarded(sizeof *speed), sizeof *speed, false);
    place = placed(guarded(sizeof *place), sizeof *place, false);
    replies = buffer_for(ROOM_MOST);
    frames = buffer_for(BYTES_MOST);
    meter = places[0];
    struct facts blank = usual();
    make(meter, &blank);
    play_all(play);
    return 0;
}
