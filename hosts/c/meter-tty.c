/* meter-tty.c: a meter on a line, a serial device or a pseudo-terminal.
 *
 *     meter-tty [-pb] [-e EDITION] [-d DECIMALS] [-s SECONDS] [-w UNITS] [-o UNITS]
 *               [-n SERIAL,ACCOUNT,PASSWORD] DEVICE STATE
 *
 * Each character that comes, each second, and each silence (8 seconds without a character, or those
 * of -s, counted from the last one that came or went) is told to the proved meter, and what it
 * replies goes out at the reply's speed. With -p the DEVICE is a name, and a pseudo-terminal is made
 * under it; with -b its bytes take their time, as on a serial device. With -w so many units of the
 * last place, Wh but for an EQM meter, come in each second; with -o so many go out of an EQM meter.
 *
 * The record is kept in the file STATE. It is written anew, beside the old one and then in its
 * place, before a change of it is acknowledged; a power cut at any time loses the session and
 * nothing else. At the start the file is read, the record checked, and met with power-up; the clock
 * goes on from where it stood. A file that is no meter's is refused. With -n a meter is made where
 * there is no file, of the edition of -e, else 1, and with -d an EQM meter of so many decimals;
 * where there is one, it must be of that serial and password. */
#include "tty.h"

#include "dirgemist_meter.h"

#define SILENCE 8.0 /* seconds */
#define TURN 0.2    /* seconds that a head has to change its speed in */

/* ---- The file: a mark, a sum and the record. */

static const char MARK[8] = "DGMETER1";

struct kept {
    char mark[sizeof MARK];
    uint64_t sum;
    struct dirgemist_meter meter;
};

static const char *file;    /* its name */
static struct kept kept;    /* as it stands in the file, or will */
static struct dirgemist_meter *const meter = &kept.meter;

/* FNV-1a over the record: it finds a file that was spoilt, not one that was forged. */
static uint64_t sum_of(const struct dirgemist_meter *record) {
    const uint8_t *bytes = (const uint8_t *)record;
    uint64_t sum = UINT64_C(0xCBF29CE484222325);
    for (size_t at = 0; at < sizeof *record; at++) {
        sum = (sum ^ bytes[at]) * UINT64_C(0x100000001B3);
    }
    return sum;
}

/* The folder must know of the new name too, before it counts. */
static void keep_folder(void) {
    char folder[4096];
    const char *slash = strrchr(file, '/');
    size_t length = slash == NULL ? 0 : (size_t)(slash - file) + 1;
    if (length >= sizeof folder) {
        return;
    }
    memcpy(folder, file, length);
    folder[length] = '\0';
    int opened = open(length == 0 ? "." : folder, O_RDONLY | O_DIRECTORY | O_CLOEXEC);
    if (opened < 0 || fsync(opened) != 0) {
        fail("the state can't be kept");
    }
    close(opened);
}

/* The whole new file, or the whole old one: never a part. */
static void keep(void) {
    char beside[4096];
    memcpy(kept.mark, MARK, sizeof kept.mark);
    kept.sum = sum_of(meter);
    if (snprintf(beside, sizeof beside, "%s.new", file) >= (int)sizeof beside) {
        errno = ENAMETOOLONG;
        fail(file);
    }
    int opened = open(beside, O_WRONLY | O_CREAT | O_TRUNC | O_CLOEXEC, 0600);
    if (opened < 0) {
        fail(beside);
    }
    const uint8_t *bytes = (const uint8_t *)&kept;
    for (size_t at = 0; at < sizeof kept;) {
        ssize_t count = write(opened, bytes + at, sizeof kept - at);
        if (count < 0 && errno != EINTR) {
            fail("the state can't be kept");
        }
        at += count > 0 ? (size_t)count : 0;
    }
    if (fsync(opened) != 0 || close(opened) != 0 || rename(beside, file) != 0) {
        fail("the state can't be kept");
    }
    keep_folder();
}

static _Noreturn void refuse(const char *why) {
    fprintf(stderr, "%s: %s is refused: %s\n", program, file, why);
    exit(UNABLE);
}

/* Reads the file; false where there is none. */
static bool fetch(void) {
    uint8_t bytes[sizeof kept + 1];
    size_t length = 0;
    int opened = open(file, O_RDONLY | O_CLOEXEC);
    if (opened < 0 && errno == ENOENT) {
        return false;
    }
    if (opened < 0) {
        fail(file);
    }
    while (length < sizeof bytes) {
        ssize_t count = read(opened, bytes + length, sizeof bytes - length);
        if (count < 0 && errno != EINTR) {
            fail(file);
        }
        if (count == 0) {
            break;
        }
        length += count > 0 ? (size_t)count : 0;
    }
    close(opened);
    if (length != sizeof kept) {
        refuse("it has not the length of a meter's file");
    }
    memcpy(&kept, bytes, sizeof kept);
    if (memcmp(kept.mark, MARK, sizeof kept.mark) != 0) {
        refuse("it does not start as a meter's file does");
    }
    if (dirgemist_meter_check(meter) != 1) {
        refuse("its record is not well-formed (14)");
    }
    if (kept.sum != sum_of(meter)) {
        refuse("its sum is not that of its record");
    }
    return true;
}

/* ---- A new meter. */

static uint8_t edition = 1, decimals = 0;

struct facts {
    const char *serial, *account, *password;
};

/* SERIAL,ACCOUNT,PASSWORD, taken apart where it stands. */
static bool facts_of(char *words, struct facts *facts) {
    char *first = strchr(words, ','), *second = first == NULL ? NULL : strchr(first + 1, ',');
    if (second == NULL) {
        return false;
    }
    *first = *second = '\0';
    *facts = (struct facts){words, first + 1, second + 1};
    return true;
}

static void make(const struct facts *facts) {
    time_t seconds = time(NULL);
    struct tm date;
    localtime_r(&seconds, &date);
    uint8_t number = dirgemist_meter_make(
        meter, (const uint8_t *)facts->serial, strlen(facts->serial),
        (const uint8_t *)facts->account, strlen(facts->account), (const uint8_t *)facts->password,
        strlen(facts->password), (uint16_t)(date.tm_year + 1900), (uint8_t)(date.tm_mon + 1),
        (uint8_t)date.tm_mday, (uint8_t)date.tm_hour, (uint8_t)date.tm_min,
        (uint8_t)(date.tm_sec > 59 ? 59 : date.tm_sec), edition, 1, decimals);
    if (number != 1) {
        fprintf(stderr,
                "%s: no meter is made (%u): the serial has ten digits, the account ten letters, "
                "digits, spaces or underscores, the password eight digits; editions are 1 and 2, "
                "decimals 2, 3 and 4\n",
                program, number);
        exit(UNABLE);
    }
    keep();
}

static bool is(const uint8_t *field, size_t size, const char *word) {
    return strlen(word) == size && memcmp(field, word, size) == 0;
}

static void same_meter(const struct facts *facts) {
    const struct dirgemist_facts *own = &meter->registers.facts;
    if (!is(own->serial, sizeof own->serial, facts->serial) ||
        !is(own->password, sizeof own->password, facts->password)) {
        refuse("it is a meter of another serial or password");
    }
}

/* ---- What happens. */

static int line;

/* Tells the meter what has happened, keeps what it changed, and only then sends its reply. */
static void meet(uint8_t kind, uint32_t value) {
    static uint8_t reply[DIRGEMIST_REPLY_ROOM];
    struct dirgemist_registers before = meter->registers;
    size_t length;
    uint8_t speed, place;
    uint8_t number =
        dirgemist_meter_meet(meter, kind, value, reply, sizeof reply, &length, &speed, &place);
    if (number >= 12) {
        fprintf(stderr, "%s: the meter answers %u\n", program, number);
        exit(UNABLE);
    }
    if (memcmp(&before, &meter->registers, sizeof before) != 0) {
        keep();
    }
    if (length > 0) {
        if (paced && baud_of(speed) != baud) {
            rest_until(now() + TURN);
        }
        set_speed(line, speed);
        if (!say(line, reply, length)) {
            fail("the line");
        }
    }
    set_speed(line, meter->speed);
}

static void serve(double silence, uint32_t in, uint32_t out) {
    double tick = now() + 1, silent = now() + silence;
    while (!ended) {
        uint8_t bytes[256];
        ssize_t count = hear(line, bytes, sizeof bytes, tick < silent ? tick : silent);
        if (count < 0) {
            fprintf(stderr, "%s: the line is gone\n", program);
            exit(UNABLE);
        }
        for (ssize_t at = 0; at < count; at++) {
            meet(DIRGEMIST_CHARACTER, bytes[at]);
        }
        if (count > 0) {
            silent = now() + silence;
        }
        for (; now() >= tick; tick += 1) {
            meet(DIRGEMIST_TICK, 0);
            if (in > 0) {
                meet(DIRGEMIST_PULSE, in);
            }
            if (out > 0) {
                meet(DIRGEMIST_PULSE_OUT, out);
            }
        }
        if (now() >= silent) {
            meet(DIRGEMIST_SILENCE, 0);
            silent = now() + silence;
        }
    }
}

static _Noreturn void usage(void) {
    fprintf(stderr, "usage: meter-tty [-pb] [-e EDITION] [-d DECIMALS] [-s SECONDS] [-w UNITS] "
                    "[-o UNITS] [-n SERIAL,ACCOUNT,PASSWORD] DEVICE STATE\n");
    exit(UNABLE);
}

static uint8_t digit_of(const char *word) {
    if (strlen(word) != 1 || *word < '0' || *word > '9') {
        usage();
    }
    return (uint8_t)(*word - '0');
}

static uint32_t units_of(const char *word) {
    char *stop;
    unsigned long units = strtoul(word, &stop, 10);
    if (stop == word || *stop != '\0' || units > 1000000) {
        usage();
    }
    return (uint32_t)units;
}

int main(int count, char **words) {
    double silence = SILENCE;
    uint32_t in = 0, out = 0;
    bool made_here = false, told = false;
    struct facts facts = {0};
    program = "meter-tty";
    for (int option; (option = getopt(count, words, "pbe:d:s:w:o:n:")) != -1;) {
        switch (option) {
        case 'p': made_here = true; break;
        case 'b': paced = true; break;
        case 'e': edition = digit_of(optarg); break;
        case 'd': decimals = digit_of(optarg); break;
        case 's':
            if (!seconds_of(optarg, &silence)) {
                usage();
            }
            break;
        case 'w': in = units_of(optarg); break;
        case 'o': out = units_of(optarg); break;
        case 'n':
            told = facts_of(optarg, &facts);
            if (!told) {
                usage();
            }
            break;
        default: usage();
        }
    }
    if (count - optind != 2) {
        usage();
    }
    const char *device = words[optind];
    file = words[optind + 1];
    if (fetch()) {
        if (told) {
            same_meter(&facts);
        }
    } else if (told) {
        make(&facts);
    } else {
        refuse("there is no such file; -n makes a meter");
    }
    end_by_signals();
    line = made_here ? make_line(device) : open_line(device);
    meet(DIRGEMIST_POWER_UP, 0);
    printf("meter-tty: meter %.10s listens on %s\n", (const char *)meter->registers.facts.serial,
           device);
    fflush(stdout);
    serve(silence, in, out);
    keep();
    if (made_here) {
        unlink(device);
    }
    return 0;
}
