/* head-tty.c: a visit of the head to a meter, over a serial device or a pseudo-terminal.
 *
 *     head-tty [-b] [-e EDITION] [-d DECIMALS] [-w SECONDS] [-g SECONDS] DEVICE METER ACCESS reads READ..
 *     head-tty [-b] [-e EDITION] [-d DECIMALS] [-w SECONDS] [-g SECONDS] DEVICE METER ACCESS post FILE
 *
 * METER is `any` or ten digits of a serial; ACCESS is `open` or eight digits of a password; a READ
 * is T, L, K, E0 to E4, Z1 to Z24, or `all` for these 32; a meter of edition 2 (-e 2) has Z25 too, and
 * an EQM meter (-d and its decimals) G0 to G4. Each line that is read goes to standard output as its
 * address, a space and its value; of a post, how many tables were written.
 *
 * With -b the bytes take their time on a pseudo-terminal too, as they do on a serial device.
 *
 * Status: 0 the visit was done; 1 it was refused before anything was sent; 2 the words, the file or
 * the line are not such as it takes; 3 the meter said NAK; 4 a wrong reply came; 5 none came.
 * Standard error says at which message.
 *
 * A reply is whole: ACK and NAK at once; what starts with '/' at LF; what starts with SOH or STX at
 * the character behind the first ETX. Anything else, and anything that breaks off, is over where no
 * character came for the time of -g (half a second). No reply at all for the time of -w (two
 * seconds), counted from when the message has left, is silence. Bytes that come between a whole
 * reply and the next message belong to the next reply, which is then a wrong one. */
#include "tty.h"

#include "dirgemist_head.h"
#include "dirgemist_session.h"

enum { DONE = 0, REFUSED = 1, STOPPED_BY_NAK = 3, STOPPED_BY_WRONG = 4, STOPPED_BY_SILENCE = 5 };

/* Wire bytes, with their parity. */
#define SOH 0x81
#define STX 0x82
#define ETX 0x03
#define ACK 0x06
#define NAK 0x95
#define SLASH 0xAF
#define LF 0x0A

#define REPLY_MOST 2048
#define READS_MOST 32
#define POST_MOST 1024 /* a post is shorter; a longer text is none */

static double patience = 2, gap = 0.5;
static uint8_t edition = 1, decimals = 0;

static _Noreturn void usage(void) {
    fprintf(stderr, "usage: head-tty [-b] [-e EDITION] [-d DECIMALS] [-w SECONDS] [-g SECONDS] DEVICE METER ACCESS WORK..\n"
                    "  METER   any, or a serial's ten digits\n"
                    "  ACCESS  open, or a password's eight digits\n"
                    "  WORK    reads T L K E0..E4 G0..G4 Z1..Z25, reads all, or post FILE\n");
    exit(UNABLE);
}

/* ---- The work. */

static uint8_t work[POST_MOST];
static size_t work_length;
static uint8_t kind; /* 0 reads, 1 a post */

static void add_read(char letter, unsigned number) {
    if (work_length + 2 > sizeof work) {
        usage();
    }
    work[work_length++] = (uint8_t)letter;
    work[work_length++] = (uint8_t)number;
}

static void take_read(const char *word) {
    if (strcmp(word, "all") == 0) {
        add_read('T', 0);
        add_read('L', 0);
        add_read('K', 0);
        for (unsigned energy = 0; energy <= 4; energy++) {
            add_read('E', energy);
        }
        for (unsigned table = 1; table <= 24; table++) {
            add_read('Z', table);
        }
        return;
    }
    if (strlen(word) == 1 && strchr("TLK", *word) != NULL) {
        add_read(*word, 0);
        return;
    }
    char *end;
    unsigned long number = strtoul(word + 1, &end, 10);
    if (*word == '\0' || strchr("EGZ", *word) == NULL || word[1] < '0' || word[1] > '9' || *end != '\0' ||
        number > 255) {
        fprintf(stderr, "%s: '%s' is no read\n", program, word);
        usage();
    }
    add_read(*word, (unsigned)number);
}

static void take_post(const char *name) {
    FILE *opened = fopen(name, "rb");
    if (opened == NULL) {
        fail(name);
    }
    work_length = fread(work, 1, sizeof work, opened);
    if (ferror(opened)) {
        fail(name);
    }
    fclose(opened);
    kind = 1;
}

static void take_work(int count, char **words) {
    if (count == 2 && strcmp(words[0], "post") == 0) {
        take_post(words[1]);
    } else if (count >= 1 && strcmp(words[0], "reads") == 0) {
        for (int at = 1; at < count; at++) {
            take_read(words[at]);
        }
    } else {
        usage();
    }
}

/* ---- Replies. */

/* Whether what came so far is a whole reply. */
static bool whole(const uint8_t *reply, size_t length) {
    switch (reply[0]) {
    case ACK:
    case NAK: return true;
    case SLASH: return reply[length - 1] == LF;
    case SOH:
    case STX: return length >= 2 && reply[length - 2] == ETX;
    default: return false;
    }
}

/* The reply to what was sent just now; none has the length 0. */
static size_t take_reply(int line, uint8_t *reply) {
    size_t length = 0;
    double until = now() + patience;
    while (length < REPLY_MOST) {
        ssize_t count = hear(line, reply + length, 1, until);
        if (count < 0) {
            fprintf(stderr, "%s: the line is gone\n", program);
            exit(UNABLE);
        }
        if (count == 0) {
            break;
        }
        length++;
        if (whole(reply, length)) {
            break;
        }
        until = now() + gap;
    }
    return length;
}

/* The data sets of a block that the session took, one a line. */
static void show(const uint8_t *reply, size_t length) {
    static uint8_t stripped[REPLY_MOST];
    size_t count, place, start, part;
    if (dirgemist_head_strip(reply, length, stripped, sizeof stripped, &count, &place) !=
            DIRGEMIST_HEAD_DONE ||
        dirgemist_head_part(stripped, count, &start, &part) != DIRGEMIST_HEAD_DONE) {
        return;
    }
    const uint8_t *sets = stripped + start;
    for (size_t at = 0;;) {
        size_t address, value, next, place;
        if (dirgemist_head_next(sets, part, at, &address, &value, &next, &place) !=
            DIRGEMIST_HEAD_DONE) {
            break;
        }
        printf("%.*s %.*s\n", (int)address, (const char *)sets + at, (int)value,
               (const char *)sets + at + address + 1);
        at = next;
    }
}

/* ---- The visit. */

/* What a message of this session is for. */
static const char *named(const struct dirgemist_session *session, uint8_t message) {
    static char text[40];
    if (message == 1) {
        return "sign-on";
    }
    if (message == 2) {
        return "confirmation";
    }
    if (message == 3) {
        return session->access == 1 ? "password" : "entry with ()";
    }
    if (message == session->count + 4) {
        return "break";
    }
    size_t at = (size_t)message - 4;
    if (session->work == 1) {
        snprintf(text, sizeof text, "table %.2s", (const char *)work + at * 36 + 6);
    } else if (memchr("EGZ", work[2 * at], 3) != NULL) {
        snprintf(text, sizeof text, "read %c%u", work[2 * at], work[2 * at + 1]);
    } else {
        snprintf(text, sizeof text, "read %c", work[2 * at]);
    }
    return text;
}

static int refused(uint8_t number, size_t place) {
    const char *why = number == DIRGEMIST_SESSION_NO_EDITION ? "there are editions 1 and 2"
                      : number == DIRGEMIST_SESSION_NO_DECIMALS ? "decimals are 0, 2, 3 or 4"
                      : number == DIRGEMIST_SESSION_FIELD    ? "a serial, a password or a read that is none"
                      : number == DIRGEMIST_SESSION_NO_POST  ? "the text is no post"
                      : number == DIRGEMIST_SESSION_NO_READS ? "nothing to read"
                      : number == DIRGEMIST_SESSION_MANY_READS
                          ? "more than 32 reads"
                          : "a post needs the password";
    fprintf(stderr, "%s: refused before anything was sent, %u: %s", program, number, why);
    if (number == DIRGEMIST_SESSION_NO_POST) {
        fprintf(stderr, ", from place %zu on", place);
    }
    fprintf(stderr, "\n");
    return REFUSED;
}

static int stopped(const struct dirgemist_session *session, uint8_t fact, uint8_t message) {
    const char *what = fact == DIRGEMIST_SESSION_NAK     ? "NAK"
                       : fact == DIRGEMIST_SESSION_WRONG ? "wrong reply"
                                                         : "silence";
    fprintf(stderr, "%s: %s at message %u of %u, %s\n", program, what, message,
            session->count + 4, named(session, message));
    return fact == DIRGEMIST_SESSION_NAK     ? STOPPED_BY_NAK
           : fact == DIRGEMIST_SESSION_WRONG ? STOPPED_BY_WRONG
                                             : STOPPED_BY_SILENCE;
}

static int visit(int line, struct dirgemist_session *session, uint8_t *message, size_t length) {
    static uint8_t reply[REPLY_MOST];
    for (;;) {
        uint8_t sent = session->sent, fact, number, answer;
        if (!say(line, message, length)) {
            fail("the line");
        }
        if (sent == 2) {
            /* The confirmation asks for 9600 baud, and the meter replies at it. */
            set_speed(line, 5);
        }
        size_t came = take_reply(line, reply);
        if (came == 0) {
            answer = dirgemist_session_silence(session, &fact, &number);
        } else {
            answer = dirgemist_session_reply(session, work, work_length, reply, came, message,
                                             DIRGEMIST_SESSION_ROOM, &fact, &number, &length);
        }
        if (answer != DIRGEMIST_SESSION_DONE) {
            fprintf(stderr, "%s: the session answers %u\n", program, answer);
            return UNABLE;
        }
        if (fact == DIRGEMIST_SESSION_OVER) {
            return DONE;
        }
        if (fact != DIRGEMIST_SESSION_GOES_ON) {
            return stopped(session, fact, number);
        }
        if (session->work == 0 && sent >= 4) {
            show(reply, came);
        }
    }
}

int main(int count, char **words) {
    program = "head-tty";
    for (int option; (option = getopt(count, words, "+be:d:w:g:")) != -1;) {
        if (option == 'b') {
            paced = true;
        } else if (option == 'e' || option == 'd') {
            if (strlen(optarg) != 1 || *optarg < '0' || *optarg > '9') {
                usage();
            }
            *(option == 'e' ? &edition : &decimals) = (uint8_t)(*optarg - '0');
        } else if (option == '?' || !seconds_of(optarg, option == 'w' ? &patience : &gap)) {
            usage();
        }
    }
    if (count - optind < 4) {
        usage();
    }
    char **told = words + optind;
    take_work(count - optind - 3, told + 3);
    bool named = strcmp(told[1], "any") != 0, entered = strcmp(told[2], "open") != 0;
    struct dirgemist_session session;
    uint8_t message[DIRGEMIST_SESSION_ROOM];
    size_t length, place;
    uint8_t number = dirgemist_session_start(
        &session, edition, decimals, named, (const uint8_t *)told[1], strlen(told[1]), entered,
        (const uint8_t *)told[2], strlen(told[2]), kind, work, work_length, message, sizeof message,
        &length, &place);
    if (number != DIRGEMIST_SESSION_DONE) {
        return refused(number, place);
    }
    int status = visit(open_line(told[0]), &session, message, length);
    if (status == DONE && session.work == 1) {
        printf("%u tables written\n", session.count);
    }
    if (fflush(stdout) != 0) {
        fail("the output");
    }
    return status;
}
