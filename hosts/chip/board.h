/* board.h: the board that is emulated, an MPS2 with a Cortex-M3 or M4 at 25 MHz: two serial ports, a timer, and the end of a run. */
#ifndef BOARD_H
#define BOARD_H

#include <stdbool.h>
#include <stdint.h>

#define CYCLES_A_SECOND 25000000

/* ---- The timer. */

extern volatile uint32_t milliseconds;

void start_timer(void);
void rest(uint32_t so_many); /* milliseconds */

/* ---- Serial ports. What comes is taken by an interrupt and waits to be fetched. */

enum port { LINK, MEASURING };

void open_port(enum port port);
void set_baud(enum port port, uint32_t baud); /* when what was sent has left */
bool fetch(enum port port, uint8_t *byte);
void send(enum port port, const uint8_t *bytes, uint32_t count);

/* Until the next interrupt. */
static inline void wait(void) {
    __asm__ volatile("wfi");
}

/* ---- Under the emulator: a call to the machine that it runs on, and the end of the run. */

static inline int call_host(int call, const void *block) {
    register int result __asm__("r0") = call;
    register const void *with __asm__("r1") = block;
    __asm__ volatile("bkpt 0xab" : "+r"(result) : "r"(with) : "memory");
    return result;
}

/* The status of a run whose main has returned one: the same, unless a program has its own. */
int verdict(int status);
_Noreturn void end_run(int status);

#endif
