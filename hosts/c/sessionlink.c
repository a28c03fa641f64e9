/* sessionlink.c: a head that holds sessions in C. Every start is held to requests [7], [3] and [10]: each refusal in its order, each
 * read, each post, for both editions and for none, for every family and for none.
 * Whole sessions of reads and of posts are played against right replies, and at each message every other reply, silence, a small
 * buffer and other work are tried on a copy; then records with any byte hurt. What each call answers, every byte of its buffer and of
 * the record, and every number handed out are compared. What is lent is memory of its exact size, and what is only read may only be
 * read. Prints one line, and exits with 1 at the first difference. */
#include "exactly.h"

/* All of a head's and a meter's headers in one file. */
#include "dirgemist.h"
#include "dirgemist_head.h"
#include "dirgemist_mercury.h"
#include "dirgemist_meter.h"
#include "dirgemist_session.h"

#include <stdio.h>

/* The layout that the library uses, and the header's names for the numbers. */
_Static_assert(sizeof(struct dirgemist_session) == 26 && _Alignof(struct dirgemist_session) == 1, "the record");
_Static_assert(offsetof(struct dirgemist_session, password) == 10 && offsetof(struct dirgemist_session, named) == 18, "the record");
_Static_assert(offsetof(struct dirgemist_session, access) == 19 && offsetof(struct dirgemist_session, work) == 20, "the record");
_Static_assert(offsetof(struct dirgemist_session, count) == 21 && offsetof(struct dirgemist_session, sent) == 22, "the record");
_Static_assert(offsetof(struct dirgemist_session, fact) == 23 && offsetof(struct dirgemist_session, edition) == 24, "the record");
_Static_assert(offsetof(struct dirgemist_session, decimals) == 25, "the record");
_Static_assert(DIRGEMIST_SESSION_NO_EDITION == 16 && DIRGEMIST_SESSION_NO_DECIMALS == 18, "numbers");
_Static_assert(DIRGEMIST_SESSION_DONE == 1 && DIRGEMIST_SESSION_FIELD == 9 && DIRGEMIST_SESSION_NO_ROOM == 19, "numbers");
_Static_assert(DIRGEMIST_SESSION_NO_POST == 20 && DIRGEMIST_SESSION_NO_READS == 28 && DIRGEMIST_SESSION_MANY_READS == 29, "numbers");
_Static_assert(DIRGEMIST_SESSION_READ_ONLY == 30 && DIRGEMIST_SESSION_NONE == 31 && DIRGEMIST_SESSION_ROOM == 64, "numbers");
_Static_assert(DIRGEMIST_SESSION_GOES_ON == 0 && DIRGEMIST_SESSION_OVER == 1 && DIRGEMIST_SESSION_NAK == 2, "facts");
_Static_assert(DIRGEMIST_SESSION_WRONG == 3 && DIRGEMIST_SESSION_SILENT == 4, "facts");

#define KEPT 0x5A
#define COUNT(array) (sizeof(array) / sizeof *(array))

static uint8_t edition, decimals; /* that each start is told */
static unsigned long calls = 0;
static unsigned long numbers_seen[32], facts_seen[5];

static void expect(bool right, const char *what) {
    if (!right) {
        printf("sessionlink in C: call %lu differs: %s\n", calls, what);
        exit(1);
    }
}

/* ---- Request [7] and document 01, written again. */

struct text {
    const uint8_t *at;
    size_t length;
};

/* What a start is told. */
struct told {
    uint8_t named, access, kind;
    struct text serial, password, work;
};

/* What a call comes to: the number and the numbers handed out, what is sent, and the record after it. */
struct outcome {
    uint8_t number, fact, message;
    size_t length, place;
    uint8_t wire[64];
    struct dirgemist_session record;
};

static uint8_t with_parity(uint8_t character) {
    return (uint8_t)(character | (__builtin_parity(character) << 7));
}

/* Characters as they are sent: a frame or a block with its BCC, which leaves the first character out. */
static size_t to_wire(const char *text, size_t length, uint8_t *wire) {
    uint8_t bcc = 0;
    for (size_t at = 0; at < length; at++) {
        wire[at] = with_parity((uint8_t)text[at]);
        bcc ^= at == 0 ? 0 : (uint8_t)text[at];
    }
    if (text[0] != 1 && text[0] != 2) {
        return length;
    }
    wire[length] = with_parity(bcc);
    return length + 1;
}

static bool is_digit(uint8_t c) {
    return c >= '0' && c <= '9';
}

static bool all_digits(const uint8_t *bytes, size_t length) {
    for (size_t at = 0; at < length; at++) {
        if (!is_digit(bytes[at])) {
            return false;
        }
    }
    return true;
}

static bool all_zero(const uint8_t *bytes, size_t length) {
    for (size_t at = 0; at < length; at++) {
        if (bytes[at] != 0) {
            return false;
        }
    }
    return true;
}

/* Whether a text has a form: `d` is a digit, `r` a zone's digit, `a` a character of an account. */
static bool fits(const char *form, const uint8_t *text, size_t length) {
    if (strlen(form) != length) {
        return false;
    }
    for (size_t at = 0; at < length; at++) {
        uint8_t c = text[at], folded = (uint8_t)(c | 0x20);
        bool good = form[at] == 'd'   ? is_digit(c)
                    : form[at] == 'r' ? c >= '1' && c <= '4'
                    : form[at] == 'a' ? is_digit(c) || c == ' ' || c == '_' || (folded >= 'a' && folded <= 'z')
                                      : c == (uint8_t)form[at];
        if (!good) {
            return false;
        }
    }
    return true;
}

#define ROW_FORM "rrrrrrrrrrrrrrrrrrrrrrrr"

static unsigned two(const uint8_t *digits) {
    return (unsigned)(digits[0] - '0') * 10 + (unsigned)(digits[1] - '0');
}

static bool is_date(unsigned year, unsigned month, unsigned day) {
    static const unsigned days[] = {31, 28, 31, 30, 31, 30, 31, 31, 30, 31, 30, 31};
    return month >= 1 && month <= 12 && day >= 1 && day <= days[month - 1] + (month == 2 && year % 4 == 0);
}

/* The tables of an edition. */
static unsigned tables_of(uint8_t number) {
    return number == 2 ? 25 : 24;
}

/* The place of a text: how much of it some post begins with; and how many lines it has, 0 where it is no post. */
static size_t post_place(struct text text, unsigned *lines) {
    static const char form[] = "131.0.xx(" ROW_FORM ")\r\n";
    unsigned above = 0, found = 0;
    size_t at = 0;
    *lines = 0;
    for (;;) {
        if (found > 0 && at < text.length && text.at[at] == '!') {
            for (size_t i = 0; i < 3; i++, at++) {
                if (at == text.length || text.at[at] != (uint8_t) "!\r\n"[i]) {
                    return at;
                }
            }
            *lines = at == text.length ? found : 0;
            return at;
        }
        for (size_t i = 0; i < 36; i++, at++) {
            if (at == text.length || above == tables_of(edition)) {
                return at;
            }
            uint8_t c = text.at[at];
            bool good = form[i] == 'r'   ? c >= '1' && c <= '4'
                        : form[i] != 'x' ? c == (uint8_t)form[i]
                        : i == 6         ? c >= '0' && c <= '2' && (unsigned)(c - '0') >= (above + 1) / 10
                                         : is_digit(c) && two(&text.at[at - 1]) > above && two(&text.at[at - 1]) <= tables_of(edition);
            if (!good) {
                return at;
            }
        }
        above = two(&text.at[at - 30]);
        found++;
    }
}

/* Whether meters of an edition and of a family can be asked for something. */
static bool good_read(uint8_t of, uint8_t family, uint8_t letter, uint8_t n) {
    return letter == 'T' || letter == 'L' || letter == 'K' || (letter == 'E' && n <= 4) || (letter == 'G' && n <= 4 && family != 0)
           || (letter == 'Z' && n >= 1 && n <= tables_of(of));
}

static bool is_family(uint8_t number) {
    return number == 0 || (number >= 2 && number <= 4);
}

/* The line of a counter in its family's form, with `d` for a digit. */
static void energy_form(char *form, size_t size, uint8_t family, uint8_t letter, unsigned n) {
    if (family == 0) {
        snprintf(form, size, "15.8.%u(dddddd.ddd*kWh)\r\n", n);
    } else {
        snprintf(form, size, "%c.8.%u(%.*s.%.*s*kWh)\r\n", letter == 'E' ? '1' : '2', n, 8 - family, "dddddd", family, "dddd");
    }
}

static uint8_t byte_at(struct text text, size_t at) {
    return at < text.length ? text.at[at] : 0;
}

/* A message of the work as it is sent; 0 where there is none. */
static size_t work_message(const struct dirgemist_session *s, struct text work, size_t i, uint8_t *wire) {
    char text[64];
    int length;
    if (s->work == 1) {
        const uint8_t *line = work.at + i * 36;
        bool there = work.length >= i * 36 + 36 && fits("131.0.dd(" ROW_FORM ")\r\n", line, 36);
        if (!there || two(line + 6) < 1 || two(line + 6) > tables_of(s->edition)) {
            return 0;
        }
        length = snprintf(text, sizeof text, "\001W1\002Z(%.2s;%.24s)\003", (const char *)line + 6, (const char *)line + 9);
        return to_wire(text, (size_t)length, wire);
    }
    uint8_t letter = byte_at(work, i * 2), n = byte_at(work, i * 2 + 1);
    if (!good_read(s->edition, s->decimals, letter, n)) {
        return 0;
    }
    length = letter == 'Z'   ? snprintf(text, sizeof text, "\001R1\002Z(%02u)\003", n)
             : letter == 'E' ? snprintf(text, sizeof text, "\001R1\002E%u()\003", n)
             : letter == 'G' ? snprintf(text, sizeof text, "\001R1\002G%u()\003", n)
                             : snprintf(text, sizeof text, "\001R1\002%c()\003", letter);
    return to_wire(text, (size_t)length, wire);
}

static size_t message_of(const struct dirgemist_session *s, struct text work, unsigned n, uint8_t *wire) {
    char text[64];
    if (n > 3 && n <= s->count + 3u) {
        return work_message(s, work, n - 4, wire);
    }
    int length = n == 1   ? (s->named ? snprintf(text, sizeof text, "/?%.3s %.7s!\r\n", (const char *)s->serial, (const char *)s->serial + 3)
                                      : snprintf(text, sizeof text, "/?!\r\n"))
                 : n == 2 ? snprintf(text, sizeof text, "\006051\r\n")
                 : n == 3 ? snprintf(text, sizeof text, "\001P1\002(%.*s)\003", s->access ? 8 : 0, (const char *)s->password)
                          : snprintf(text, sizeof text, "\001B0\003");
    return to_wire(text, (size_t)length, wire);
}

/* Whether a reply is a block with just what a read asked for. */
static bool answers(uint8_t of, uint8_t family, uint8_t letter, uint8_t n, struct text reply) {
    uint8_t plain[64], bcc = 0;
    if (!good_read(of, family, letter, n) || reply.length < 3 || reply.length > sizeof plain) {
        return false;
    }
    for (size_t at = 0; at < reply.length; at++) {
        if (__builtin_parity(reply.at[at])) {
            return false;
        }
        plain[at] = reply.at[at] & 0x7F;
        bcc ^= at == 0 || at == reply.length - 1 ? 0 : plain[at];
    }
    if (plain[0] != 2 || plain[reply.length - 2] != 3 || plain[reply.length - 1] != bcc) {
        return false;
    }
    const uint8_t *data = plain + 1;
    size_t length = reply.length - 3;
    char form[64];
    if (letter == 'T') {
        return fits("0.9.1(dd:dd:dd)\r\n0.9.2(dd-dd-dd)\r\n", data, length) && two(data + 6) < 24 && two(data + 9) < 60
               && two(data + 12) < 60 && is_date(two(data + 23), two(data + 26), two(data + 29));
    }
    if (letter == 'E' || letter == 'G') {
        energy_form(form, sizeof form, family, letter, n);
    } else {
        snprintf(form, sizeof form, "131.0.%02u(" ROW_FORM ")\r\n", n);
    }
    return fits(letter == 'L'   ? "C.1.0(ddd ddddddd)\r\n"
                : letter == 'K' ? "0.0.0(aaaaaaaaaa)\r\n"
                                : form,
                data, length);
}

/* The right reply to a message, of these values; a read's is a block. */
static size_t right_reply(const struct dirgemist_session *s, struct text work, unsigned n, uint8_t *wire) {
    char text[64];
    if (n == 1) {
        return to_wire(s->edition == 2 ? "/ZZZ5SUB-VP02.00*\r\n" : "/ZZZ5SUB-VP01.00*\r\n", 19, wire);
    }
    if (n == 2) {
        return to_wire("\001P0\002(0000)\003", 11, wire);
    }
    if (n == 3 || s->work == 1 || n > s->count + 3u) {
        return to_wire("\006", 1, wire);
    }
    uint8_t letter = byte_at(work, (n - 4) * 2), number = byte_at(work, (n - 4) * 2 + 1);
    if (letter == 'E' || letter == 'G') {
        text[0] = 2;
        energy_form(text + 1, sizeof text - 1, s->decimals, letter, number);
        char *digit = text;
        for (int at = 1; (digit = strchr(digit, 'd')) != NULL; at++) {
            *digit = (char)('0' + at);
        }
        strcat(text, "\003");
        return to_wire(text, strlen(text), wire);
    }
    int length = letter == 'T'   ? snprintf(text, sizeof text, "\0020.9.1(23:59:58)\r\n0.9.2(28-02-29)\r\n\003")
                 : letter == 'L' ? snprintf(text, sizeof text, "\002C.1.0(123 4567890)\r\n\003")
                 : letter == 'K' ? snprintf(text, sizeof text, "\0020.0.0(Kiln_7 old)\r\n\003")
                                 : snprintf(text, sizeof text, "\002131.0.%02u(123412341234123412341234)\r\n\003", number);
    return to_wire(text, (size_t)length, wire);
}

static bool same_text(struct text a, const uint8_t *b, size_t length) {
    return a.length == length && memcmp(a.at, b, length) == 0;
}

static bool is_right(const struct dirgemist_session *s, struct text work, struct text reply) {
    uint8_t wire[64];
    if (s->sent > 3 && s->sent <= s->count + 3u && s->work == 0) {
        return answers(s->edition, s->decimals, byte_at(work, (s->sent - 4u) * 2), byte_at(work, (s->sent - 4u) * 2 + 1), reply);
    }
    size_t length = right_reply(s, work, s->sent, wire);
    return same_text(reply, wire, length);
}

/* Whether a session may stand so. */
static bool good_record(const struct dirgemist_session *s) {
    bool named = s->named == 0 ? all_zero(s->serial, 10) : s->named == 1 && all_digits(s->serial, 10);
    bool entered = s->access == 0 ? all_zero(s->password, 8) : s->access == 1 && all_digits(s->password, 8);
    bool worked = s->work == 0 || (s->work == 1 && s->access == 1 && s->count <= tables_of(s->edition));
    bool placed_well = s->count >= 1 && s->count <= 32 && s->sent >= 1 && s->sent <= s->count + 4;
    return (s->edition == 1 || s->edition == 2) && is_family(s->decimals) && named && entered && worked && placed_well && s->fact <= 4 && (s->fact != 1 || s->sent == s->count + 4);
}

static struct outcome start_of(const struct told *t, size_t room) {
    struct outcome o = {0};
    unsigned lines = 0;
    size_t place = t->kind == 1 ? post_place(t->work, &lines) : 0, length = t->work.length;
    bool good = t->kind <= 1 && t->named <= 1 && t->access <= 1;
    good = good && (t->named == 0 || (t->serial.length == 10 && all_digits(t->serial.at, 10)));
    good = good && (t->access == 0 || (t->password.length == 8 && all_digits(t->password.at, 8)));
    if (t->kind == 0 && length <= 64) {
        good = good && length % 2 == 0;
        for (size_t at = 0; at + 1 < length; at += 2) {
            good = good && good_read(edition, decimals, t->work.at[at], t->work.at[at + 1]);
        }
    }
    o.number = edition != 1 && edition != 2             ? DIRGEMIST_SESSION_NO_EDITION
               : !is_family(decimals)                   ? DIRGEMIST_SESSION_NO_DECIMALS
               : room < 64                              ? DIRGEMIST_SESSION_NO_ROOM
               : t->kind == 0 && length == 0            ? DIRGEMIST_SESSION_NO_READS
               : t->kind == 0 && length > 64            ? DIRGEMIST_SESSION_MANY_READS
               : t->kind == 1 && lines == 0             ? DIRGEMIST_SESSION_NO_POST
               : t->kind == 1 && t->access == 0         ? DIRGEMIST_SESSION_READ_ONLY
               : !good                                  ? DIRGEMIST_SESSION_FIELD
                                                        : DIRGEMIST_SESSION_DONE;
    o.place = o.number == DIRGEMIST_SESSION_NO_POST ? place : 0;
    if (o.number == DIRGEMIST_SESSION_DONE) {
        o.record = (struct dirgemist_session){.named = t->named, .access = t->access, .work = t->kind, .sent = 1, .edition = edition, .decimals = decimals};
        o.record.count = (uint8_t)(t->kind == 1 ? lines : length / 2);
        if (t->named) {
            memcpy(o.record.serial, t->serial.at, 10);
        }
        if (t->access) {
            memcpy(o.record.password, t->password.at, 8);
        }
        o.length = message_of(&o.record, t->work, 1, o.wire);
    }
    return o;
}

static void end_with(struct outcome *o, uint8_t fact) {
    o->number = DIRGEMIST_SESSION_DONE;
    o->fact = o->record.fact = fact;
    o->message = o->record.sent;
}

static struct outcome reply_of(const struct dirgemist_session *s, struct text work, struct text reply, size_t room) {
    struct outcome o = {.record = *s};
    if (room < 64 || !good_record(s)) {
        o.number = room < 64 ? DIRGEMIST_SESSION_NO_ROOM : DIRGEMIST_SESSION_NONE;
    } else if (s->fact != 0) {
        end_with(&o, s->fact);
    } else if (reply.length == 1 && reply.at[0] == 0x95) {
        end_with(&o, DIRGEMIST_SESSION_NAK);
    } else if (!is_right(s, work, reply)) {
        end_with(&o, DIRGEMIST_SESSION_WRONG);
    } else if (s->sent == s->count + 4) {
        end_with(&o, DIRGEMIST_SESSION_OVER);
    } else {
        o.length = message_of(s, work, s->sent + 1u, o.wire);
        o.number = o.length == 0 ? DIRGEMIST_SESSION_NONE : DIRGEMIST_SESSION_DONE;
        if (o.length > 0) {
            o.message = ++o.record.sent;
        }
    }
    return o;
}

static struct outcome silence_of(const struct dirgemist_session *s) {
    struct outcome o = {.number = DIRGEMIST_SESSION_NONE, .record = *s};
    if (good_record(s)) {
        end_with(&o, s->fact == 0 ? DIRGEMIST_SESSION_SILENT : s->fact);
    }
    return o;
}

/* ---- The calls, with what is lent of its exact size. */

static const size_t rooms[] = {0, 1, 63, 64, 65, 100};
static uint8_t *outs[COUNT(rooms)];
static struct dirgemist_session *record;
static size_t *length, *place;
static uint8_t *fact, *message;

static void unwrite(size_t r) {
    memset(outs[r], KEPT, rooms[r]);
    memset(length, KEPT, sizeof *length);
    memset(place, KEPT, sizeof *place);
    *fact = *message = KEPT;
    calls++;
}

static void compare(const struct outcome *o, uint8_t number, size_t r, const char *what) {
    expect(number == o->number, what);
    expect(memcmp(record, &o->record, sizeof *record) == 0, what);
    for (size_t at = 0; at < rooms[r]; at++) {
        expect(outs[r][at] == (at < o->length ? o->wire[at] : KEPT), what);
    }
    numbers_seen[number]++;
}

/* Lends a text for one call. */
static struct text lend(struct text text) {
    return (struct text){lent(text.at, text.length), text.length};
}

static void try_start(const struct told *t, size_t r) {
    struct outcome o = start_of(t, rooms[r]);
    struct text serial = lend(t->serial), password = lend(t->password), work = lend(t->work);
    memset(record, KEPT, sizeof *record);
    unwrite(r);
    uint8_t number = dirgemist_session_start(record, edition, decimals, t->named, serial.at, serial.length, t->access, password.at, password.length,
                                             t->kind, work.at, work.length, outs[r], rooms[r], length, place);
    compare(&o, number, r, "a start");
    expect(*length == o.length && *place == o.place, "a start's numbers");
    expect(*fact == KEPT && *message == KEPT, "a number that no start hands out");
    give_back(serial.at, serial.length);
    give_back(password.at, password.length);
    give_back(work.at, work.length);
}

/* From a record; the next one stays in *record. */
static void try_reply(const struct dirgemist_session *from, struct text work, struct text reply, size_t r) {
    struct outcome o = reply_of(from, work, reply, rooms[r]);
    struct text own_work = lend(work), own_reply = lend(reply);
    memcpy(record, from, sizeof *record);
    unwrite(r);
    uint8_t number = dirgemist_session_reply(record, own_work.at, own_work.length, own_reply.at, own_reply.length, outs[r],
                                             rooms[r], fact, message, length);
    compare(&o, number, r, "a reply");
    expect(*fact == o.fact && *message == o.message && *length == o.length, "a reply's numbers");
    facts_seen[*fact] += number == DIRGEMIST_SESSION_DONE;
    give_back(own_work.at, own_work.length);
    give_back(own_reply.at, own_reply.length);
}

static void try_silence(const struct dirgemist_session *from) {
    struct outcome o = silence_of(from);
    memcpy(record, from, sizeof *record);
    unwrite(0);
    uint8_t number = dirgemist_session_silence(record, fact, message);
    compare(&o, number, 0, "silence");
    expect(*fact == o.fact && *message == o.message, "silence's numbers");
    facts_seen[*fact] += number == DIRGEMIST_SESSION_DONE;
}

#define FULL 3 /* the first room that is enough */

/* ---- What is told. */

#define TEXT(string) {(const uint8_t *)(string), sizeof(string) - 1}

static const struct text nobody = TEXT("");
static const struct text serial_told = TEXT("1234567890");
static const struct text password_told = TEXT("00008642");

static uint8_t post_bytes[26 * 36 + 3];

/* A post of so many lines, from a table on. */
static struct text post_of(unsigned first, unsigned lines) {
    size_t at = 0;
    for (unsigned i = 0; i < lines; i++, at += 36) {
        char line[37];
        snprintf(line, sizeof line, "131.0.%02u(%.24s)\r\n", first + i, &"12341234123412341234123412341234"[i % 4]);
        memcpy(post_bytes + at, line, 36);
    }
    memcpy(post_bytes + at, "!\r\n", 3);
    return (struct text){post_bytes, at + 3};
}

/* All that can be told, each thing good and bad, in each room: the refusals in their order. */
static void every_start(void) {
    static const struct text serials[] = {TEXT("1234567890"), TEXT("123456789"), TEXT("12345678901"), TEXT("123456789x"), TEXT("")};
    static const struct text passwords[] = {TEXT("00008642"), TEXT("0000864"), TEXT("0000 642")};
    static const uint8_t flags[] = {0, 1, 2, 255};
    static uint8_t many[66];
    for (size_t at = 0; at < sizeof many; at++) {
        many[at] = at % 2 == 0 ? 'T' : 0;
    }
    struct text post = post_of(3, 2), no_post = {post.at, post.length - 1};
    const struct text works[] = {nobody, TEXT("T"), TEXT("T\0E\4"), TEXT("T\0E\5"), {many, 64}, {many, 65}, {many, 66}, post, no_post};
    for (size_t f = 0; f < 4 * 4 * 4; f++) {
        for (size_t s = 0; s < COUNT(serials) * COUNT(passwords); s++) {
            for (size_t w = 0; w < COUNT(works); w++) {
                struct told t = {flags[f % 4], flags[f / 4 % 4], flags[f / 16], serials[s % 5], passwords[s / 5], works[w]};
                try_start(&t, (f + s + w) % 2 == 0 ? FULL : (f + s * w) % COUNT(rooms));
            }
        }
    }
    /* each letter and each number */
    for (unsigned letter = 0; letter < 256; letter++) {
        for (unsigned n = 0; n < 256; n += good_read(edition, 2, (uint8_t)letter, 1) ? 1 : 51) {
            uint8_t read[2] = {(uint8_t)letter, (uint8_t)n};
            struct told t = {0, 0, 0, nobody, nobody, {read, 2}};
            try_start(&t, FULL);
        }
    }
}

/* Each post, cut at each character and hurt at each character. */
static void every_post(void) {
    struct told t = {0, 1, 1, nobody, password_told, nobody};
    for (unsigned lines = 0; lines <= 26; lines++) {
        t.work = post_of(1, lines);
        try_start(&t, FULL);
    }
    t.work = post_of(22, tables_of(edition) - 21);
    struct text whole = t.work;
    for (size_t cut = 0; cut < whole.length; cut++) {
        t.work.length = cut;
        try_start(&t, FULL);
    }
    t.work = whole;
    for (size_t at = 0; at < whole.length; at++) {
        uint8_t was = post_bytes[at];
        for (unsigned bit = 0; bit < 8; bit++) {
            post_bytes[at] = (uint8_t)(was ^ 1u << bit);
            try_start(&t, FULL);
        }
        post_bytes[at] = was;
    }
}

/* ---- Sessions. */

/* At a message: all that may come but the right reply, and the right one under other conditions. */
static void all_else(const struct dirgemist_session *now, struct text work, struct text right) {
    static const struct text others[] = {TEXT(""), TEXT("\x95"), TEXT("\x06"), TEXT("\x15"), TEXT("\x06\x06"), TEXT("\x95\x95"), TEXT("\x82\x03\x03")};
    uint8_t bytes[66], wire[64];
    for (size_t at = 0; at < COUNT(others); at++) {
        try_reply(now, work, others[at], FULL);
        struct dirgemist_session ended = *record;
        try_reply(&ended, work, right, FULL); /* it says the same again */
        try_silence(&ended);
    }
    for (unsigned n = 1; n <= 5; n++) {
        size_t size = right_reply(now, work, n, wire);
        try_reply(now, work, (struct text){wire, size}, FULL);
    }
    for (size_t r = 0; r < COUNT(rooms); r++) {
        try_reply(now, work, right, r);
    }
    memcpy(bytes, right.at, right.length);
    for (size_t at = 0; at < right.length; at++) {
        try_reply(now, work, (struct text){right.at, at}, FULL);
        for (unsigned bit = 0; bit < 8; bit++) {
            bytes[at] = (uint8_t)(right.at[at] ^ 1u << bit);
            try_reply(now, work, (struct text){bytes, right.length}, FULL);
        }
        bytes[at] = right.at[at];
    }
    bytes[right.length] = '\n';
    try_reply(now, work, (struct text){bytes, right.length + 1}, FULL);
    /* less work than was told, and other work */
    for (size_t less = 0; less < work.length; less += 1 + work.length / 20) {
        try_reply(now, (struct text){work.at, less}, right, FULL);
    }
    try_reply(now, (struct text)TEXT("L\0Z\30"), right, FULL);
    try_reply(now, (struct text)TEXT("L\0Z\31"), right, FULL);
    try_silence(now);
    struct dirgemist_session ended = *record;
    try_reply(&ended, work, right, FULL);
}

/* A whole session with right replies: as many exchanges as it has messages. */
static void play(const struct told *t, bool thoroughly) {
    try_start(t, FULL);
    struct dirgemist_session now = *record;
    unsigned messages = now.count + 4u;
    for (unsigned n = 1; n <= messages; n++) {
        uint8_t wire[64];
        struct text right = {wire, right_reply(&now, t->work, n, wire)};
        expect(now.sent == n && now.fact == DIRGEMIST_SESSION_GOES_ON, "where a session stands");
        if (thoroughly) {
            all_else(&now, t->work, right);
        }
        try_reply(&now, t->work, right, FULL + n % 3);
        now = *record;
    }
    expect(now.sent == messages && now.fact == DIRGEMIST_SESSION_OVER && *message == messages, "a session that is done");
    try_reply(&now, t->work, nobody, FULL);
    try_silence(&now);
}

/* Blocks with a good BCC and parity, and data that is not quite what was asked. */
static void not_quite(void) {
    static const struct {
        const char *read, *data;
    } tries[] = {
        {"T", "0.9.1(24:00:00)\r\n0.9.2(28-02-29)\r\n"}, {"T", "0.9.1(23:60:00)\r\n0.9.2(28-02-29)\r\n"},
        {"T", "0.9.1(23:59:60)\r\n0.9.2(28-02-29)\r\n"}, {"T", "0.9.1(23:59:59)\r\n0.9.2(27-02-29)\r\n"},
        {"T", "0.9.1(23:59:59)\r\n0.9.2(27-13-01)\r\n"}, {"T", "0.9.1(23:59:59)\r\n0.9.2(27-04-31)\r\n"},
        {"T", "0.9.2(28-02-29)\r\n0.9.1(23:59:59)\r\n"}, {"T", "0.9.1(23:59:59)\r\n"},
        {"T", "0.9.1(00:00:00)\r\n0.9.2(00-01-01)\r\n"}, {"T", "0.9.1(23:59:59)\r\n0.9.2(28-02-29)\r\n!\r\n"},
        {"L", "C.1.0(1234567890)\r\n"}, {"L", "C.1.0(123.4567890)\r\n"}, {"L", "C.1.0(000 0000000)\r\n"}, {"L", "C.1.1(123 4567890)\r\n"},
        {"K", "0.0.0(Kiln-7 old)\r\n"}, {"K", "0.0.0(Kiln_7 ol)\r\n"}, {"K", "0.0.0(__________)\r\n"}, {"K", "0.0.0(Kiln_7 old)\n\r"},
        {"E", "15.8.0(999999.999*kWh)\r\n"}, {"E", "15.8.1(000123.456*kWh)\r\n"}, {"E", "15.8.0(000123,456*kWh)\r\n"},
        {"E", "1.8.0(000123.45*kWh)\r\n"}, {"E", "1.8.0(00012.345*kWh)\r\n"}, {"E", "1.8.0(0001.2345*kWh)\r\n"},
        {"E", "2.8.0(000123.45*kWh)\r\n"}, {"E", "1.8.1(00012.345*kWh)\r\n"}, {"E", "1.8.0(000.12345*kWh)\r\n"},
        {"G", "2.8.0(000123.45*kWh)\r\n"}, {"G", "2.8.0(00012.345*kWh)\r\n"}, {"G", "2.8.0(0001.2345*kWh)\r\n"},
        {"G\4", "2.8.4(999999.99*kWh)\r\n"}, {"G\4", "2.8.4(99999.999*kWh)\r\n"}, {"G\4", "2.8.4(9999.9999*kWh)\r\n"},
        {"G", "1.8.0(00012.345*kWh)\r\n"}, {"G", "15.8.0(000123.456*kWh)\r\n"}, {"G", "2.8.0(00012,345*kWh)\r\n"},
        {"G\5", "2.8.5(00012.345*kWh)\r\n"}, {"G", "2.8.0(0012345678*kWh)\r\n"}, {"G", "2.8.0(00012.345)\r\n"},
        {"E", "15.8.0(00012.3456*kWh)\r\n"}, {"E", "15.8.0(000123.456*kWH)\r\n"}, {"E", "15.8.0(000123.456)\r\n"},
        {"Z\1", "131.0.01(111111111111111111111111)\r\n"}, {"Z\1", "131.0.02(111111111111111111111111)\r\n"},
        {"Z\1", "131.0.1(111111111111111111111111)\r\n"}, {"Z\1", "131.0.01(11111111111111111111111)\r\n"},
        {"Z\1", "131.0.01(111111111111111111111115)\r\n"}, {"Z\30", "131.0.24(444444444444444444444444)\r\n"}, {"Z\31", "131.0.25(444444444444444444444444)\r\n"},
        {"L", ""}, {"L", "\r\n"}, {"E", "15.8.0()\r\n"}, {"E", "15.8.0(00000000000000000000000000000000000000000*kWh)\r\n"},
    };
    for (size_t at = 0; at < COUNT(tries); at++) {
        uint8_t read[2] = {(uint8_t)tries[at].read[0], (uint8_t)tries[at].read[1]}, wire[80];
        char text[80];
        struct dirgemist_session now = {.count = 1, .sent = 4, .edition = edition, .decimals = decimals};
        int size = snprintf(text, sizeof text, "\002%s\003", tries[at].data);
        struct text reply = {wire, to_wire(text, (size_t)size, wire)};
        try_reply(&now, (struct text){read, 2}, reply, FULL);
    }
}

/* Each byte of a record hurt in each way. */
static void every_damage(const struct dirgemist_session *base, struct text work) {
    uint8_t wire[64];
    struct text right = {wire, right_reply(base, work, base->sent, wire)};
    for (size_t at = 0; at < sizeof *base; at++) {
        for (unsigned value = 0; value < 256; value++) {
            struct dirgemist_session hurt = *base;
            ((uint8_t *)&hurt)[at] = (uint8_t)value;
            try_reply(&hurt, work, right, FULL);
            try_silence(&hurt);
        }
    }
}

/* Everything above, for one edition and one family. A post is the same to every family: what it is damaged to be is tried with one. */
static void try_meters(uint8_t of, uint8_t family) {
    edition = of;
    decimals = family;
    every_start();
    if (family == 0) {
        every_post();
    }

    static const struct text reads = TEXT("T\0L\0K\0E\0E\1E\2E\3E\4Z\1Z\12Z\30");
    struct told told = {1, 1, 0, serial_told, password_told, reads};
    play(&told, true);
    if (family != 0) {
        told.work = (struct text)TEXT("E\0E\4G\0G\1G\2G\3G\4");
        play(&told, true);
    }
    told = (struct told){0, 0, 0, nobody, nobody, TEXT("K\377")};
    play(&told, true);
    static uint8_t many[64];
    for (size_t at = 0; at < sizeof many; at++) {
        many[at] = at % 2 == 0 ? "TLKEZ"[at / 2 % 5] : (uint8_t)(at / 2 % 5 == 3 ? at / 10 % 5 : 1 + at / 2 % tables_of(edition));
    }
    for (size_t count = 1; count <= 32; count++) {
        told = (struct told){(uint8_t)(count % 2), (uint8_t)(count / 2 % 2), 0, serial_told, password_told, {many, 2 * count}};
        play(&told, false);
    }
    told = (struct told){1, 1, 1, serial_told, password_told, post_of(9, 3)};
    play(&told, family == 0);
    for (unsigned lines = 1; lines <= tables_of(edition); lines++) {
        told = (struct told){0, 1, 1, nobody, password_told, post_of(tables_of(edition) + 1 - lines, lines)};
        play(&told, false);
    }
    not_quite();

    for (uint8_t sent = 1; sent <= 6; sent++) {
        struct dirgemist_session base = {.named = 1, .access = 1, .count = 2, .sent = sent, .edition = edition, .decimals = decimals};
        memcpy(base.serial, serial_told.at, 10);
        memcpy(base.password, password_told.at, 8);
        every_damage(&base, reads);
        base = (struct dirgemist_session){.access = 1, .work = 1, .count = 2, .sent = sent, .fact = sent > 4 ? sent - 2u : 0, .edition = edition, .decimals = decimals};
        memcpy(base.password, password_told.at, 8);
        if (family == 0) {
            every_damage(&base, post_of(1, 2));
        }
        base = (struct dirgemist_session){.count = 2, .sent = sent, .fact = sent == 6, .edition = edition, .decimals = decimals};
        every_damage(&base, reads);
    }
}

int main(void) {
    for (size_t r = 0; r < COUNT(rooms); r++) {
        outs[r] = exactly(rooms[r]);
    }
    record = exactly(sizeof *record);
    length = exactly(sizeof *length);
    place = exactly(sizeof *place);
    fact = exactly(1);
    message = exactly(1);

    static const uint8_t none[] = {0, 3, 24, 25, 255}, no_family[] = {1, 5, 6, 255};
    for (size_t at = 0; at < sizeof none; at++) {
        edition = none[at];
        decimals = (uint8_t)at;
        every_start();
    }
    for (size_t at = 0; at < sizeof no_family; at++) {
        edition = (uint8_t)(1 + at % 2);
        decimals = no_family[at];
        every_start();
    }
    try_meters(1, 0);
    try_meters(2, 0);
    try_meters(1, 2);
    try_meters(2, 3);
    try_meters(1, 4);

    static const uint8_t reached[] = {1, 9, 16, 18, 19, 20, 28, 29, 30, 31};
    for (size_t at = 0; at < sizeof reached; at++) {
        expect(numbers_seen[reached[at]] > 0, "a number that was never reached");
    }
    for (size_t at = 0; at < COUNT(facts_seen); at++) {
        expect(facts_seen[at] > 0, "a fact that was never reached");
    }
    printf("sessions in C: %lu calls, as requests [7], [3] and [10] have them\n", calls);
    return 0;
}
