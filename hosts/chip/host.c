/* host.c: what a bench needs of the machine that the emulator runs on: its standard input and output, and its memory's guards. */
#include "board.h"
#include "exactly.h"

/* ---- Input and output. */

static int opened(const char *name, int mode) {
    const struct {
        const char *name;
        int mode;
        uint32_t length;
    } with = {name, mode, strlen(name)};
    int handle = call_host(1, &with);
    if (handle < 0) {
        end_run(2);
    }
    return handle;
}

/* So many bytes were not read or written. */
static uint32_t left_by(int call, int handle, const void *bytes, size_t count) {
    const struct {
        int handle;
        const void *bytes;
        uint32_t count;
    } with = {handle, bytes, count};
    return (uint32_t)call_host(call, &with);
}

ssize_t read(int file, void *bytes, size_t count) {
    static int input = -1;
    (void)file;
    if (input < 0) {
        input = opened("/dev/stdin", 1);
    }
    return (ssize_t)(count - left_by(6, input, bytes, count));
}

ssize_t write(int file, const void *bytes, size_t count) {
    static int output = -1;
    (void)file;
    if (output < 0) {
        output = opened("/dev/stdout", 9);
    }
    return (ssize_t)(count - left_by(5, output, bytes, count));
}

void perror(const char *what) {
    write(1, what, strlen(what));
}

/* ---- Guards: one before the first piece, and one behind each. A run that changed one ends with status 4. */

#define GUARD 64
#define GUARDING 0xC3

static uint8_t memory[1400000] __attribute__((aligned(8)));
static size_t taken;
static uint8_t *guards[64];
static size_t guards_taken;

static void guard(void) {
    guards[guards_taken++] = memset(memory + taken, GUARDING, GUARD);
    taken += GUARD;
}

struct pages guarded(size_t size) {
    if (guards_taken == 0) {
        guard();
    }
    size_t held = (size + 8) / 8 * 8;
    if (taken + held + GUARD > sizeof memory || guards_taken == sizeof guards / sizeof *guards) {
        end_run(2);
    }
    struct pages pages = {memory + taken, held};
    taken += held;
    guard();
    return pages;
}

static bool guards_whole(void) {
    for (size_t which = 0; which < guards_taken; which++) {
        for (size_t at = 0; at < GUARD; at++) {
            if (guards[which][at] != GUARDING) {
                return false;
            }
        }
    }
    return true;
}

int verdict(int status) {
    return guards_whole() ? status : 4;
}

_Noreturn void exit(int status) {
    end_run(verdict(status));
}
