/* cable.c: a cable between two pseudo-terminals, which can be pulled.
 *
 *     cable [-n BYTES] [-x BYTE] NAME NAME
 *
 * Makes two lines under two names and carries the bytes of each to the other, until a signal ends
 * it. With -n it carries so many bytes, of both ways together, and then no more: what is sent after
 * that is lost. SIGUSR1 plugs it in again, for as many bytes as come. With -x the byte of that
 * number, the first being 1, arrives with one bit turned. */
#include "tty.h"

static volatile sig_atomic_t plugged_in;

static void plug_in(int signal) {
    (void)signal;
    plugged_in = 1;
}

static void usage(void) {
    fprintf(stderr, "usage: cable [-n BYTES] [-x BYTE] NAME NAME\n");
    exit(UNABLE);
}

static unsigned long number_of(const char *word) {
    char *end;
    unsigned long number = strtoul(word, &end, 10);
    if (end == word || *end != '\0' || *word == '-') {
        usage();
    }
    return number;
}

int main(int count, char **words) {
    bool endless = true;
    unsigned long left = 0, hurt = 0, carried = 0;
    program = "cable";
    for (int option; (option = getopt(count, words, "n:x:")) != -1;) {
        switch (option) {
        case 'n': left = number_of(optarg), endless = false; break;
        case 'x': hurt = number_of(optarg); break;
        default: usage();
        }
    }
    if (count - optind != 2) {
        usage();
    }
    end_by_signals();
    struct sigaction action = {.sa_handler = plug_in};
    sigemptyset(&action.sa_mask);
    sigaction(SIGUSR1, &action, NULL);
    const char *names[2] = {words[optind], words[optind + 1]};
    int lines[2] = {make_line(names[0]), make_line(names[1])};
    printf("cable: %s to %s\n", names[0], names[1]);
    fflush(stdout);
    while (!ended) {
        struct pollfd waiting[2] = {{.fd = lines[0], .events = POLLIN},
                                    {.fd = lines[1], .events = POLLIN}};
        if (poll(waiting, 2, 500) < 0 && errno != EINTR) {
            fail("the lines");
        }
        for (int from = 0; from < 2 && !ended; from++) {
            uint8_t byte;
            if ((waiting[from].revents & POLLIN) == 0 || read(lines[from], &byte, 1) != 1) {
                continue;
            }
            if (plugged_in) {
                endless = true;
            }
            if (!endless && left == 0) {
                continue;
            }
            left -= !endless;
            carried++;
            if (carried == hurt) {
                byte ^= 0x04;
            }
            if (!say(lines[!from], &byte, 1)) {
                fail("the line");
            }
        }
    }
    unlink(names[0]);
    unlink(names[1]);
    return 0;
}
