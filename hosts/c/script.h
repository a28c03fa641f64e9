/* script.h: a tester's script and its transcript. A line is a command, words with one space between
 * them; bytes are small hex, `-` for none; numbers are decimal. Both benches read and write by this
 * file. */
#ifndef SCRIPT_H
#define SCRIPT_H

#include "exactly.h"

#include <errno.h>

#define LINE_MOST 262143           /* characters of a line; a longer one is an error */
#define BYTES_MOST (LINE_MOST / 2) /* so many bytes can a word of a line have at most */
#define WORDS_MOST ((LINE_MOST + 1) / 2) /* a line of more has an empty word, and is an error */
#define FILLING 0xAA               /* what a lent buffer holds before the call */

#define COUNT(array) (sizeof(array) / sizeof *(array))

/* A part of a line between two spaces. */
struct word {
    const char *start;
    size_t length;
};

struct line {
    struct word words[WORDS_MOST];
    size_t count;
};

/* ---- The transcript. It goes out before more of the script is waited for, so that a person can
 * play too. */

static char transcript[1 << 16];
static size_t told;

static void fail(const char *what) {
    perror(what);
    exit(2);
}

static void hand_out(void) {
    for (size_t at = 0; at < told;) {
        ssize_t count = write(STDOUT_FILENO, transcript + at, told - at);
        if (count >= 0) {
            at += (size_t)count;
        } else if (errno != EINTR) {
            fail("the transcript cannot be written");
        }
    }
    told = 0;
}

static inline void put(char character) {
    if (told == sizeof transcript) {
        hand_out();
    }
    transcript[told++] = character;
}

static inline void put_text(const char *text) {
    while (*text != '\0') {
        put(*text++);
    }
}

static inline void put_number(uint64_t number) {
    char digits[20];
    size_t count = 0;
    do {
        digits[count++] = (char)('0' + number % 10);
        number /= 10;
    } while (number > 0);
    while (count > 0) {
        put(digits[--count]);
    }
}

static inline void put_bytes(const uint8_t *bytes, size_t count) {
    static const char hex[] = "0123456789abcdef";
    if (count == 0) {
        put('-');
    }
    for (size_t at = 0; at < count; at++) {
        put(hex[bytes[at] >> 4]);
        put(hex[bytes[at] & 15]);
    }
}

/* Numbers with a space between them. */
static inline void put_numbers(const uint64_t *numbers, size_t count) {
    for (size_t at = 0; at < count; at++) {
        if (at > 0) {
            put(' ');
        }
        put_number(numbers[at]);
    }
}

/* ---- The script. */

static char script[1 << 20];
static size_t unread, read_to; /* what was read and not yet played */

/* Reads on; false at the end of the script. */
static bool read_more(void) {
    memmove(script, script + unread, read_to - unread);
    read_to -= unread;
    unread = 0;
    hand_out();
    for (;;) {
        ssize_t count = read(STDIN_FILENO, script + read_to, sizeof script - read_to);
        if (count >= 0) {
            read_to += (size_t)count;
            return count > 0;
        }
        if (errno != EINTR) {
            fail("the script cannot be read");
        }
    }
}

/* The next line without its LF, which the last may lack; false at the end. A line that is too long
 * comes with a greater length than LINE_MOST, and only its length counts. */
static bool next_line(const char **start, size_t *length) {
    size_t dropped = 0;
    for (;;) {
        size_t there = read_to - unread;
        const char *end = memchr(script + unread, '\n', there);
        if (end != NULL) {
            *start = script + unread;
            *length = dropped + (size_t)(end - *start);
            unread = (size_t)(end - script) + 1;
            return true;
        }
        if (there > LINE_MOST) {
            dropped += there;
            unread = read_to;
        }
        if (!read_more()) {
            *start = script + unread;
            *length = dropped + read_to - unread;
            unread = read_to;
            return *length > 0;
        }
    }
}

/* The words of a line; false if it has too many. */
static bool split(const char *start, size_t length, struct line *line) {
    const char *end = start + length;
    for (line->count = 0; line->count < WORDS_MOST;) {
        const char *space = memchr(start, ' ', (size_t)(end - start));
        const char *stop = space == NULL ? end : space;
        line->words[line->count++] = (struct word){start, (size_t)(stop - start)};
        if (space == NULL) {
            return true;
        }
        start = space + 1;
    }
    return false;
}

static inline bool is(struct word word, const char *text) {
    return strlen(text) == word.length && memcmp(word.start, text, word.length) == 0;
}

/* A number of digits up to the greatest that is taken. */
static inline bool number_of(struct word word, uint64_t most, uint64_t *number) {
    uint64_t sum = 0;
    for (size_t at = 0; at < word.length; at++) {
        unsigned digit = (unsigned)(unsigned char)word.start[at] - '0';
        if (digit > 9 || sum > (UINT64_MAX - digit) / 10) {
            return false;
        }
        sum = sum * 10 + digit;
    }
    *number = sum;
    return word.length > 0 && sum <= most;
}

/* 0 to 15, and more for what is no digit. */
static inline unsigned hex_digit(char character) {
    unsigned digit = (unsigned)(unsigned char)character - '0';
    unsigned letter = (unsigned)(unsigned char)character - 'a';
    return digit <= 9 ? digit : letter <= 5 ? letter + 10 : 16;
}

/* How many bytes a word has the length of. */
static inline bool size_of(struct word word, size_t *size) {
    *size = is(word, "-") ? 0 : word.length / 2;
    return is(word, "-") || (word.length > 0 && word.length % 2 == 0);
}

/* The bytes of a word, `size` of them; false if they are not these many or not all hex. */
static inline bool bytes_of(struct word word, uint8_t *bytes, size_t size) {
    size_t written;
    if (!size_of(word, &written) || written != size) {
        return false;
    }
    for (size_t at = 0; at < size; at++) {
        unsigned high = hex_digit(word.start[2 * at]), low = hex_digit(word.start[2 * at + 1]);
        if (high > 15 || low > 15) {
            return false;
        }
        bytes[at] = (uint8_t)(high << 4 | low);
    }
    return true;
}

/* ---- Lent buffers. They are filled before each call and shown after it. In every other call they
 * end where the memory ends, in the ones between they start where it starts. */

struct buffer {
    struct pages pages; /* FILLING, but for what a call wrote and was not yet shown */
    bool at_the_start;
    uint8_t *start;
    size_t room;
};

static struct buffer buffer_for(size_t most) {
    struct buffer buffer = {.pages = guarded(most)};
    memset(buffer.pages.start, FILLING, buffer.pages.size);
    return buffer;
}

static inline uint8_t *lend(struct buffer *buffer, size_t room) {
    buffer->at_the_start = !buffer->at_the_start;
    buffer->room = room;
    buffer->start = placed(buffer->pages, room, buffer->at_the_start);
    return buffer->start;
}

/* Shows the buffer without the run of FILLING that ends it behind `length`, and fills it again. */
static void put_buffer(struct buffer *buffer, size_t length) {
    size_t shown = buffer->room;
    size_t least = length < shown ? length : shown;
    while (shown >= least + 8) {
        uint64_t eight;
        memcpy(&eight, buffer->start + shown - 8, 8);
        if (eight != FILLING * UINT64_C(0x0101010101010101)) {
            break;
        }
        shown -= 8;
    }
    while (shown > least && buffer->start[shown - 1] == FILLING) {
        shown--;
    }
    put_bytes(buffer->start, shown);
    memset(buffer->start, FILLING, shown);
}

/* ---- Playing. */

/* Plays the whole script, line by line. `play` answers a line, given as its words, or returns false
 * where it is an error, and then it has changed and told nothing. */
static void play_all(bool (*play)(const struct word *words, size_t count)) {
    static struct line line;
    const char *start;
    size_t length;
    while (next_line(&start, &length)) {
        if (length > LINE_MOST || !split(start, length, &line) || !play(line.words, line.count)) {
            put_text("error\n");
        }
    }
    hand_out();
}

#endif
