/* meter.c: the meter's firmware on the board, to start from. The optical link is the first serial port. The measuring part is on the
 * second: each of its bytes is a pulse of so many Wh. The proved library decides everything; here it is told what happens, and what
 * it replies is sent. */
#include "board.h"

#include "dirgemist_meter.h"

#define SILENCE 8000 /* milliseconds without a character */
#define TURN 200     /* milliseconds that a head has to change its speed in */

/* The state. The start-up leaves it alone, as a memory with a battery does. */
__attribute__((section(".kept"))) static struct dirgemist_meter meter;

static uint8_t reply[DIRGEMIST_REPLY_ROOM];

static uint32_t baud_of(uint8_t speed) {
    return speed == 5 ? 9600 : 300;
}

/* Tells the meter what has happened, and sends its reply. */
static uint8_t meet(uint8_t kind, uint32_t value) {
    uint8_t before = meter.speed, speed, place;
    dirgemist_size length;
    uint8_t number =
        dirgemist_meter_meet(&meter, kind, value, reply, sizeof reply, &length, &speed, &place);
    if (length > 0) {
        if (speed != before) {
            rest(TURN);
            set_baud(LINK, baud_of(speed));
        }
        send(LINK, reply, (uint32_t)length);
    }
    set_baud(LINK, baud_of(meter.speed));
    return number;
}

/* A meter of this serial, account and password, at the start of 2024. */
static void make(void) {
    dirgemist_meter_make(&meter, (const uint8_t *)"1234567890", 10, (const uint8_t *)"Kiln_7 old",
                         10, (const uint8_t *)"20304050", 8, 2024, 1, 1, 0, 0, 0, 1, 1, 0);
}

int main(void) {
    uint32_t second, silent;
    uint8_t byte;
    start_timer();
    open_port(LINK);
    open_port(MEASURING);
    /* What stands in the memory is the state before power was lost, or anything at all. */
    if (meet(DIRGEMIST_POWER_UP, 0) != 1) {
        make();
    }
    for (second = silent = milliseconds;; wait()) {
        while (fetch(LINK, &byte)) {
            meet(DIRGEMIST_CHARACTER, byte);
            silent = milliseconds;
        }
        while (fetch(MEASURING, &byte)) {
            meet(DIRGEMIST_PULSE, byte);
        }
        for (; milliseconds - second >= 1000; second += 1000) {
            meet(DIRGEMIST_TICK, 0);
        }
        if (milliseconds - silent >= SILENCE) {
            meet(DIRGEMIST_SILENCE, 0);
            silent = milliseconds;
        }
    }
}
