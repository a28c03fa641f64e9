/* tty.h: a line of bytes, a serial device or a pseudo-terminal, and time. A byte of ours carries its
 * own parity, so the line has 8 bits, no parity and one stop bit. Include this file first. */
#ifndef TTY_H
#define TTY_H

#define _DEFAULT_SOURCE
#define _XOPEN_SOURCE 700
#include <errno.h>
#include <fcntl.h>
#include <poll.h>
#include <signal.h>
#include <stdbool.h>
#include <stddef.h>
#include <stdint.h>
#include <stdio.h>
#include <stdlib.h>
#include <string.h>
#include <sys/stat.h>
#include <sys/sysmacros.h>
#include <termios.h>
#include <time.h>
#include <unistd.h>

/* The exit status of a program that was told what it can't do, or whose line or file is not there. */
#define UNABLE 2

static const char *program; /* what complaints start with */

static inline _Noreturn void fail(const char *what) {
    fprintf(stderr, "%s: %s: %s\n", program, what, strerror(errno));
    exit(UNABLE);
}

/* ---- Time, in seconds. */

static inline double now(void) {
    struct timespec time;
    clock_gettime(CLOCK_MONOTONIC, &time);
    return (double)time.tv_sec + (double)time.tv_nsec / 1e9;
}

static inline void rest_until(double then) {
    for (double left = then - now(); left > 0; left = then - now()) {
        struct timespec rest = {(time_t)left, (long)((left - (double)(time_t)left) * 1e9)};
        nanosleep(&rest, NULL);
    }
}

/* Seconds as a person writes them: 8, or 0.5. */
static inline bool seconds_of(const char *word, double *seconds) {
    char *end;
    *seconds = strtod(word, &end);
    return end != word && *end == '\0' && *seconds > 0 && *seconds <= 3600;
}

/* ---- The line. */

/* Set by a signal that ends the program in good order. */
static volatile sig_atomic_t ended;

static inline void end(int signal) {
    (void)signal;
    ended = 1;
}

static inline void end_by_signals(void) {
    struct sigaction action = {.sa_handler = end};
    sigemptyset(&action.sa_mask);
    sigaction(SIGTERM, &action, NULL);
    sigaction(SIGINT, &action, NULL);
    sigaction(SIGHUP, &action, NULL);
}

/* Whether bytes take the time that the line's speed gives them. On a serial device they do, and some
 * drivers say that all has left while the last bytes are still on their way: the speed must not
 * change before. A pseudo-terminal takes no time unless it is told to. */
static bool paced;
static double baud = 300;

static inline double baud_of(uint8_t identifier) {
    return identifier == 5 ? 9600 : 300;
}

/* Linux gives the far ends of pseudo-terminals these numbers. */
static inline bool is_pseudo(int line) {
    struct stat found;
    return fstat(line, &found) == 0 && major(found.st_rdev) >= 136 && major(found.st_rdev) <= 143;
}

/* Bytes as they are: nothing is echoed, turned, counted or waited for. */
static inline bool set_raw(int line) {
    struct termios settings;
    if (tcgetattr(line, &settings) != 0) {
        return false;
    }
    cfmakeraw(&settings);
    settings.c_cflag &= ~(tcflag_t)(PARENB | CSTOPB | CSIZE | HUPCL);
    settings.c_cflag |= CS8 | CLOCAL | CREAD;
    settings.c_cc[VMIN] = 1;
    settings.c_cc[VTIME] = 0;
    return cfsetspeed(&settings, B300) == 0 && tcsetattr(line, TCSANOW, &settings) == 0;
}

/* The speed of an identifier: 0 is 300 baud, 5 is 9600. What was written before goes out first. */
static inline void set_speed(int line, uint8_t identifier) {
    struct termios settings;
    speed_t speed = identifier == 5 ? B9600 : B300;
    baud = baud_of(identifier);
    if (tcgetattr(line, &settings) != 0) {
        fail("the line");
    }
    if (cfgetospeed(&settings) == speed && cfgetispeed(&settings) == speed) {
        return;
    }
    if (cfsetspeed(&settings, speed) != 0 || tcsetattr(line, TCSADRAIN, &settings) != 0) {
        fail("the line's speed");
    }
}

static inline int open_line(const char *device) {
    int line = open(device, O_RDWR | O_NOCTTY | O_CLOEXEC);
    if (line < 0) {
        fail(device);
    }
    if (!isatty(line) || !set_raw(line)) {
        fprintf(stderr, "%s: %s is no serial device and no terminal\n", program, device);
        exit(UNABLE);
    }
    paced = paced || !is_pseudo(line);
    /* What came while nobody had the line was heard by nobody. */
    tcflush(line, TCIOFLUSH);
    return line;
}

/* A new pseudo-terminal under a name of our own: what is written here is read there. The far end
 * stays open here too, so that the line is not gone while nobody else has it. */
static inline int make_line(const char *name) {
    int line = posix_openpt(O_RDWR | O_NOCTTY | O_CLOEXEC);
    if (line < 0 || grantpt(line) != 0 || unlockpt(line) != 0) {
        fail("a pseudo-terminal");
    }
    const char *device = ptsname(line);
    int far_end = open(device, O_RDWR | O_NOCTTY | O_CLOEXEC);
    if (far_end < 0 || !set_raw(far_end)) {
        fail(device);
    }
    struct stat found;
    if (lstat(name, &found) == 0 && S_ISLNK(found.st_mode)) {
        unlink(name);
    }
    if (symlink(device, name) != 0) {
        fail(name);
    }
    return line;
}

/* Waits for bytes up to a time: how many came, 0 where none did, less where the line is gone. */
static inline ssize_t hear(int line, uint8_t *bytes, size_t most, double until) {
    for (;;) {
        double left = until - now();
        struct pollfd waiting = {.fd = line, .events = POLLIN};
        int found = poll(&waiting, 1, left > 0 ? (int)(left * 1000) + 1 : 0);
        if (found == 0 || (found < 0 && errno == EINTR && ended)) {
            return 0;
        }
        if (found > 0) {
            ssize_t count = read(line, bytes, most);
            if (count > 0) {
                return count;
            }
            if (count == 0 || errno != EINTR) {
                return -1;
            }
        } else if (errno != EINTR) {
            return -1;
        }
    }
}

/* Sends bytes and waits until they have left; false where the line is gone. */
static inline bool say(int line, const uint8_t *bytes, size_t length) {
    double gone = now() + 10 * (double)length / baud; /* eight bits, a start and a stop */
    while (length > 0) {
        ssize_t count = write(line, bytes, length);
        if (count < 0 && errno != EINTR) {
            return false;
        }
        if (count > 0) {
            bytes += count;
            length -= (size_t)count;
        }
    }
    if (tcdrain(line) != 0) {
        return false;
    }
    if (paced) {
        rest_until(gone);
    }
    return true;
}

#endif
