/* headbench.c: the reading head and the posts on the tester's bench. A line of a script from
 * standard input is one call, and a line of the transcript on standard output says what it
 * answered. What is lent lies in memory that ends, and in every other call that starts, where its
 * size says. */
#include "script.h"

#include "dirgemist.h"
#include "dirgemist_card.h"
#include "dirgemist_head.h"
#include "dirgemist_mercury.h"
#include "dirgemist_session.h"

/* No buffer greater than this is lent. A call compares its room with what goes into it and with
 * nothing else, and no line makes more than BYTES_MOST bytes: in a greater room every answer is the
 * same, and the bytes that would follow are FILLING, which is not shown. */
#define ROOM_LENT (BYTES_MOST + 1)

/* The most bytes of a text: those of a word, or two for each word that is a read. */
#define TEXT_MOST (2 * WORDS_MOST)

/* ---- The words of a call: what each must be, and what they are. */

enum word_kind {
    ROOM,  /* of 64 bits, as AT is */
    SHORT, /* a number of 8 bits */
    YEAR,  /* of 16 bits */
    BYTE,  /* one, in hex */
    TEXT   /* bytes, as many as there are */
};

#define WORDS 8

struct given {
    uint64_t number;
    const uint8_t *text;
    size_t length;
};

/* A call by its one or two names, what must stand behind them, and what it does with that. */
struct call {
    const char *name;
    const char *second; /* empty where there is one name */
    size_t count;
    enum word_kind kinds[WORDS];
    void (*play)(const struct given *given);
};

static struct buffer buffer;                /* what a call writes to */
static struct pages texts[3];               /* what it only reads: three texts a line at most */
static size_t texts_taken;
static bool text_at_the_start;

static bool take_text(struct word word, struct given *given) {
    size_t size;
    if (!size_of(word, &size)) {
        return false;
    }
    uint8_t *place = placed(texts[texts_taken++], size, text_at_the_start);
    given->text = place;
    given->length = size;
    return bytes_of(word, place, size);
}

static bool take_byte(struct word word, struct given *given) {
    uint8_t byte = 0;
    bool good = bytes_of(word, &byte, 1);
    given->number = byte;
    return good;
}

static bool take(enum word_kind kind, struct word word, struct given *given) {
    switch (kind) {
    case ROOM: return number_of(word, UINT64_MAX, &given->number);
    case SHORT: return number_of(word, UINT8_MAX, &given->number);
    case YEAR: return number_of(word, UINT16_MAX, &given->number);
    case BYTE: return take_byte(word, given);
    default: return take_text(word, given);
    }
}

/* Plays a call, if the words behind its names are such as it takes. */
static bool play_call(const struct call *call, const struct word *words, size_t count) {
    struct given given[WORDS] = {0};
    if (count != call->count) {
        return false;
    }
    texts_taken = 0;
    text_at_the_start = !text_at_the_start;
    for (size_t at = 0; at < count; at++) {
        if (!take(call->kinds[at], words[at], &given[at])) {
            return false;
        }
    }
    call->play(given);
    return true;
}

/* ---- What a call hands out: memory of its own size, and not what it was. */

#define UNWRITTEN 0xA5
#define NUMBERS 6

static dirgemist_size *numbers[NUMBERS];
static uint8_t *shorts[4];
static uint16_t *year;
static uint32_t *counted;
static uint32_t *quantities[4];

static void *own(size_t size) {
    return placed(guarded(size), size, false);
}

static void unwrite(void) {
    for (size_t at = 0; at < NUMBERS; at++) {
        memset(numbers[at], UNWRITTEN, sizeof *numbers[at]);
    }
    for (size_t at = 0; at < COUNT(shorts); at++) {
        *shorts[at] = UNWRITTEN;
    }
    memset(year, UNWRITTEN, sizeof *year);
    memset(counted, UNWRITTEN, sizeof *counted);
    for (size_t at = 0; at < COUNT(quantities); at++) {
        memset(quantities[at], UNWRITTEN, sizeof *quantities[at]);
    }
}

#define TELL(...) \
    put_numbers((const uint64_t[]){__VA_ARGS__}, COUNT(((const uint64_t[]){__VA_ARGS__})))

static uint8_t *room_lent(uint64_t room) {
    unwrite();
    return lend(&buffer, room < ROOM_LENT ? (size_t)room : ROOM_LENT);
}

/* The answer of a call with a buffer: a number beside it, and how long what was written is. */
static void put_written(uint8_t answer, size_t beside, size_t length) {
    TELL(answer, beside);
    put(' ');
    put_buffer(&buffer, length);
    put('\n');
}

/* ---- Commands built: after `build NAME` comes ROOM, and then the fields. */

#define BUILD(name, call)                                        \
    static void name(const struct given *g) {                    \
        uint8_t *out = room_lent(g[0].number);                   \
        dirgemist_size room = buffer.room, *length = numbers[0]; \
        uint8_t answer = call;                                   \
        put_written(answer, *length, *length);                   \
    }
#define N(place) ((uint8_t)g[place].number)
#define T(place) g[place].text, g[place].length

BUILD(any, dirgemist_head_sign_on(out, room, length))
BUILD(closing, dirgemist_head_close(out, room, length))
BUILD(serial, dirgemist_head_sign_on_to(T(1), out, room, length))
BUILD(wired, dirgemist_head_sign_on_wired(T(1), out, room, length))
BUILD(confirm, dirgemist_head_confirm(N(1), N(2), out, room, length))
BUILD(readonly, dirgemist_head_enter(out, room, length))
BUILD(password, dirgemist_head_password(T(1), out, room, length))
BUILD(clock_asked, dirgemist_head_read_clock(out, room, length))
BUILD(number_asked, dirgemist_head_read_serial(out, room, length))
BUILD(account_asked, dirgemist_head_read_account(out, room, length))
BUILD(energy_asked, N(1) == 0 ? dirgemist_head_read_total(out, room, length)
                              : dirgemist_head_read_zone(N(1), out, room, length))
BUILD(out_asked, N(1) == 0 ? dirgemist_head_read_total_out(out, room, length)
                           : dirgemist_head_read_zone_out(N(1), out, room, length))
BUILD(table_asked, dirgemist_head_read_table(N(1), N(2), out, room, length))
BUILD(set_clock, dirgemist_head_write_clock((uint16_t)g[1].number, N(2), N(3), N(4), N(5), N(6),
                                            out, room, length))
BUILD(set_account, dirgemist_head_write_account(T(1), out, room, length))
BUILD(set_table, dirgemist_head_write_table(N(1), N(2), T(3), out, room, length))
BUILD(sign_off, dirgemist_head_sign_off(out, room, length))
BUILD(mercury_ask, dirgemist_mercury_ask(N(1), N(2), N(3), N(4), out, room, length))

/* ---- Values read back: after `value NAME` comes the value, of an EQM meter behind its decimals. */

/* One that is characters, as many as the call writes. */
static void characters(uint8_t (*call)(const uint8_t *, dirgemist_size, uint8_t *, dirgemist_size),
                       const struct given *g, size_t count) {
    uint8_t *out = room_lent(count);
    put_number(call(T(0), out, count));
    put(' ');
    put_buffer(&buffer, count);
    put('\n');
}

static void value_serial(const struct given *g) {
    characters(dirgemist_head_value_serial, g, DIRGEMIST_HEAD_SERIAL);
}

static void value_account(const struct given *g) {
    characters(dirgemist_head_value_account, g, DIRGEMIST_HEAD_ACCOUNT);
}

static void value_row(const struct given *g) {
    characters(dirgemist_head_value_row, g, DIRGEMIST_HEAD_ROW);
}

static void value_counter(const struct given *g) {
    unwrite();
    uint8_t answer = dirgemist_head_value_counter(T(0), counted);
    TELL(answer, *counted);
    put('\n');
}

static void value_eqm(const struct given *g) {
    unwrite();
    uint8_t answer = dirgemist_head_value_eqm(N(0), T(1), counted);
    TELL(answer, *counted);
    put('\n');
}

static void value_date(const struct given *g) {
    unwrite();
    uint8_t answer = dirgemist_head_value_date(T(0), year, shorts[0], shorts[1]);
    TELL(answer, *year, *shorts[0], *shorts[1]);
    put('\n');
}

static void value_time(const struct given *g) {
    unwrite();
    uint8_t answer = dirgemist_head_value_time(T(0), shorts[0], shorts[1], shorts[2]);
    TELL(answer, *shorts[0], *shorts[1], *shorts[2]);
    put('\n');
}

static void value_period(const struct given *g) {
    unwrite();
    uint8_t answer = dirgemist_head_value_period(T(0), year, shorts[0], shorts[1], shorts[2], shorts[3]);
    TELL(answer, *year, *shorts[0], *shorts[1], *shorts[2], *shorts[3]);
    put('\n');
}

/* ---- The other calls. */

static void check(const struct given *g) {
    unwrite();
    uint8_t answer = dirgemist_post_check(N(0), T(1), numbers[0]);
    TELL(answer, *numbers[0]);
    put('\n');
}

/* The number beside the answer is the place for a text that is no post, else the length. */
static void export(const struct given *g) {
    uint8_t *out = room_lent(g[1].number);
    uint8_t answer = dirgemist_post_export(N(0), T(2), out, buffer.room, numbers[0], numbers[1]);
    put_written(answer, answer == DIRGEMIST_NOT_A_POST ? *numbers[1] : *numbers[0], *numbers[0]);
}

static void card(const struct given *g) {
    uint8_t *out = room_lent(g[1].number);
    uint8_t answer = dirgemist_card_read(N(0), T(2), out, buffer.room, numbers[0], numbers[1]);
    put_written(answer, answer == DIRGEMIST_CARD_NOT_A_CARD ? *numbers[1] : *numbers[0], *numbers[0]);
}

static void strip(const struct given *g) {
    uint8_t *out = room_lent(g[0].number);
    dirgemist_size *length = numbers[0], *place = numbers[1];
    uint8_t answer = dirgemist_head_strip(T(1), out, buffer.room, length, place);
    TELL(answer, *length);
    put(' ');
    put_buffer(&buffer, *length);
    put(' ');
    put_number(*place);
    put('\n');
}

static void part(const struct given *g) {
    unwrite();
    uint8_t answer = dirgemist_head_part(T(0), numbers[0], numbers[1]);
    TELL(answer, *numbers[0], *numbers[1]);
    put('\n');
}

/* Where there is no set its places are 0, and the reader stays. */
static void next(const struct given *g) {
    unwrite();
    dirgemist_size at = g[0].number;
    dirgemist_size *address = numbers[0], *value = numbers[1], *after = numbers[2], *place = numbers[3];
    uint8_t answer = dirgemist_head_next(T(1), at, address, value, after, place);
    bool set = answer == DIRGEMIST_HEAD_DONE;
    TELL(answer, *place, set ? at : 0, *address, set ? at + *address + 1 : 0, *value, *after);
    put('\n');
}

static void find(const struct given *g) {
    unwrite();
    uint8_t answer = dirgemist_head_find(T(1), T(0), numbers[0], numbers[1], numbers[2], numbers[3], numbers[4], numbers[5]);
    TELL(answer, *numbers[0], *numbers[1], *numbers[2], *numbers[3], *numbers[4], *numbers[5]);
    put('\n');
}

/* A quantity that was not measured is no number. */
static void mercury_read(const struct given *g) {
    unwrite();
    uint8_t *status = shorts[0], *measured = shorts[1];
    uint8_t answer = dirgemist_mercury_read(N(0), T(1), status, measured, quantities[0],
                                            quantities[1], quantities[2], quantities[3]);
    TELL(answer, *status);
    for (size_t at = 0; at < COUNT(quantities); at++) {
        put(' ');
        if (answer == DIRGEMIST_MERCURY_DONE && (*measured >> at & 1) == 0) {
            put('-');
        } else {
            put_number(*quantities[at]);
        }
    }
    put('\n');
}

/* ---- A session: it is told all at once, and hears a reply or silence at a time. Its work is kept,
 * and lent with each call. */

static struct dirgemist_session *session;
static bool in_session; /* one that was started, and not refused */
static struct pages kept;
static struct given kept_work;

/* What is told in hex, or by a name that nothing is. */
static bool take_or(const char *nothing, struct word word, struct given *given) {
    given->number = !is(word, nothing);
    return take_text(given->number == 0 ? (struct word){"-", 1} : word, given);
}

/* A read: its letter, and of an energy or a table the number. */
static bool take_read(struct word word, uint8_t *read) {
    uint64_t number = 0;
    bool plain = is(word, "T") || is(word, "L") || is(word, "K");
    bool numbered = word.length > 1 && memchr("EGZ", *word.start, 3) != NULL &&
                    number_of((struct word){word.start + 1, word.length - 1}, UINT8_MAX, &number);
    read[0] = word.length > 0 ? (uint8_t)*word.start : 0;
    read[1] = (uint8_t)number;
    return plain || numbered;
}

/* `post` and its text, or `reads` and then each of them. */
static bool take_work(const struct word *words, size_t count, struct given *given) {
    given->number = is(words[0], "post");
    if (given->number == 1) {
        return count == 2 && take_text(words[1], given);
    }
    given->length = 2 * (count - 1);
    uint8_t *reads = placed(texts[texts_taken++], given->length, text_at_the_start);
    given->text = reads;
    bool good = is(words[0], "reads");
    for (size_t at = 1; at < count && good; at++) {
        good = take_read(words[at], reads + 2 * (at - 1));
    }
    return good;
}

static void keep(const struct given *work) {
    uint8_t *place = placed(kept, work->length, text_at_the_start);
    memcpy(place, work->text, work->length);
    kept_work = *work;
    kept_work.text = place;
}

static bool start_session(const struct word *words, size_t count) {
    struct given serial, password, work;
    uint64_t edition, decimals;
    texts_taken = 0;
    text_at_the_start = !text_at_the_start;
    if (count < 5 || !number_of(words[0], UINT8_MAX, &edition) ||
        !number_of(words[1], UINT8_MAX, &decimals) || !take_or("any", words[2], &serial) ||
        !take_or("open", words[3], &password) || !take_work(words + 4, count - 4, &work)) {
        return false;
    }
    uint8_t *out = room_lent(DIRGEMIST_SESSION_ROOM);
    dirgemist_size *length = numbers[0], *place = numbers[1];
    uint8_t answer = dirgemist_session_start(
        session, (uint8_t)edition, (uint8_t)decimals, (uint8_t)serial.number, serial.text,
        serial.length, (uint8_t)password.number, password.text, password.length,
        (uint8_t)work.number, work.text, work.length, out, buffer.room, length, place);
    put_written(answer, *place, *length);
    in_session = answer == DIRGEMIST_SESSION_DONE;
    if (in_session) {
        keep(&work);
    }
    return true;
}

/* How the session stands, the number of a message, and the next message. */
static void put_turn(uint8_t answer, uint8_t fact, uint8_t message, size_t length) {
    static const char *const facts[] = {"next", "done", "nak", "wrong", "silence"};
    if (answer != DIRGEMIST_SESSION_DONE || fact >= COUNT(facts)) {
        put_text("error\n");
        return;
    }
    put_text(facts[fact]);
    put(' ');
    put_number(message);
    put(' ');
    put_buffer(&buffer, length);
    put('\n');
}

static void reply(const struct given *g) {
    uint8_t *out = room_lent(DIRGEMIST_SESSION_ROOM);
    uint8_t *fact = shorts[0], *message = shorts[1];
    uint8_t answer = dirgemist_session_reply(session, kept_work.text, kept_work.length, T(0), out,
                                             buffer.room, fact, message, numbers[0]);
    put_turn(answer, *fact, *message, *numbers[0]);
}

static void quiet(const struct given *g) {
    (void)g;
    room_lent(0);
    uint8_t answer = dirgemist_session_silence(session, shorts[0], shorts[1]);
    put_turn(answer, *shorts[0], *shorts[1], 0);
}

static const struct call calls[] = {
    {"build", "any", 1, {ROOM}, any},
    {"build", "close", 1, {ROOM}, closing},
    {"build", "serial", 2, {ROOM, TEXT}, serial},
    {"build", "wired", 2, {ROOM, TEXT}, wired},
    {"build", "confirm", 3, {ROOM, BYTE, BYTE}, confirm},
    {"build", "readonly", 1, {ROOM}, readonly},
    {"build", "password", 2, {ROOM, TEXT}, password},
    {"build", "clock", 1, {ROOM}, clock_asked},
    {"build", "number", 1, {ROOM}, number_asked},
    {"build", "account", 1, {ROOM}, account_asked},
    {"build", "energy", 2, {ROOM, SHORT}, energy_asked},
    {"build", "out", 2, {ROOM, SHORT}, out_asked},
    {"build", "table", 3, {ROOM, SHORT, SHORT}, table_asked},
    {"build", "setclock", 7, {ROOM, YEAR, SHORT, SHORT, SHORT, SHORT, SHORT}, set_clock},
    {"build", "setaccount", 2, {ROOM, TEXT}, set_account},
    {"build", "settable", 4, {ROOM, SHORT, SHORT, TEXT}, set_table},
    {"build", "break", 1, {ROOM}, sign_off},
    {"value", "serial", 1, {TEXT}, value_serial},
    {"value", "account", 1, {TEXT}, value_account},
    {"value", "row", 1, {TEXT}, value_row},
    {"value", "counter", 1, {TEXT}, value_counter},
    {"value", "eqm", 2, {SHORT, TEXT}, value_eqm},
    {"value", "date", 1, {TEXT}, value_date},
    {"value", "time", 1, {TEXT}, value_time},
    {"value", "period", 1, {TEXT}, value_period},
    {"mercury", "ask", 5, {ROOM, SHORT, SHORT, SHORT, SHORT}, mercury_ask},
    {"mercury", "read", 2, {SHORT, TEXT}, mercury_read},
    {"check", "", 2, {SHORT, TEXT}, check},
    {"export", "", 3, {SHORT, ROOM, TEXT}, export},
    {"card", "", 3, {SHORT, ROOM, TEXT}, card},
    {"strip", "", 2, {ROOM, TEXT}, strip},
    {"part", "", 1, {TEXT}, part},
    {"next", "", 2, {ROOM, TEXT}, next},
    {"find", "", 2, {TEXT, TEXT}, find},
    {"reply", "", 1, {TEXT}, reply},
    {"quiet", "", 0, {0}, quiet},
};

/* Whether a line asks of a session that there is not. */
static bool needs_session(struct word name) {
    return !in_session && (is(name, "reply") || is(name, "quiet"));
}

static bool play(const struct word *words, size_t count) {
    if (needs_session(words[0])) {
        return false;
    }
    if (is(words[0], "session")) {
        return start_session(words + 1, count - 1);
    }
    for (size_t at = 0; at < COUNT(calls); at++) {
        const struct call *call = &calls[at];
        size_t names = *call->second == '\0' ? 1 : 2;
        bool named = count >= names && is(words[0], call->name);
        if (named && (names == 1 || is(words[1], call->second))) {
            return play_call(call, words + names, count - names);
        }
    }
    return false;
}

int main(void) {
    buffer = buffer_for(ROOM_LENT);
    for (size_t at = 0; at < COUNT(texts); at++) {
        texts[at] = guarded(TEXT_MOST);
    }
    for (size_t at = 0; at < NUMBERS; at++) {
        numbers[at] = own(sizeof *numbers[at]);
    }
    for (size_t at = 0; at < COUNT(shorts); at++) {
        shorts[at] = own(sizeof *shorts[at]);
    }
    year = own(sizeof *year);
    counted = own(sizeof *counted);
    for (size_t at = 0; at < COUNT(quantities); at++) {
        quantities[at] = own(sizeof *quantities[at]);
    }
    session = own(sizeof *session);
    kept = guarded(TEXT_MOST);
    play_all(play);
    return 0;
}
