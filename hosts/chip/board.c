/* board.c: start-up, timer and serial ports. */
#include "board.h"

/* ---- Start-up. */

extern uint32_t data_image[], data_start[], data_end[], bss_start[], bss_end[], stack_start[];

int main(void);

#define CONFIGURATION (*(volatile uint32_t *)0xE000ED14)
#define NO_ODD_WORDS 8

_Noreturn void start(void) {
#if __ARM_ARCH == 6
    CONFIGURATION |= NO_ODD_WORDS; /* so the board's Cortex-M3 faults at a word that is not aligned, as a Cortex-M0 does */
#endif
    for (uint32_t *from = data_image, *to = data_start; to < data_end;) {
        *to++ = *from++;
    }
    for (uint32_t *to = bss_start; to < bss_end;) {
        *to++ = 0;
    }
    end_run(verdict(main()));
}

__attribute__((weak)) int verdict(int status) {
    return status;
}

_Noreturn void end_run(int status) {
    const int with[2] = {0x20026, status}; /* the program has ended by itself */
    call_host(0x20, with);
    for (;;) {
        wait();
    }
}

static void fault(void) {
    end_run(3);
}

/* ---- The timer: SysTick. */

#define SYSTICK ((volatile uint32_t *)0xE000E010) /* control, reload, value */

volatile uint32_t milliseconds;

static void another_millisecond(void) {
    milliseconds++;
}

void start_timer(void) {
    SYSTICK[1] = CYCLES_A_SECOND / 1000 - 1;
    SYSTICK[2] = 0;
    SYSTICK[0] = 7; /* the processor's clock, an interrupt, on */
}

void rest(uint32_t so_many) {
    for (uint32_t since = milliseconds; milliseconds - since < so_many;) {
        wait();
    }
}

/* ---- Serial ports: the UARTs of the CMSDK. */

struct uart {
    volatile uint32_t data, state, control, interrupt, divider;
};

enum { SENDING_FULL = 1, RECEIVED = 2 };                     /* state */
enum { SEND = 1, RECEIVE = 2, INTERRUPT_WHEN_RECEIVED = 8 }; /* control */
#define INTERRUPTS_ON (*(volatile uint32_t *)0xE000E100)

/* A ring: what came and was not yet fetched. */
#define WAITING_MOST 256

static struct {
    volatile uint8_t bytes[WAITING_MOST];
    volatile uint32_t came, fetched;
    uint32_t baud;
} ports[2];

static struct uart *uart_of(enum port port) {
    return (struct uart *)(0x40004000 + 0x1000 * port);
}

static void take(enum port port) {
    struct uart *uart = uart_of(port);
    uart->interrupt = RECEIVED;
    while (uart->state & RECEIVED) {
        ports[port].bytes[ports[port].came % WAITING_MOST] = (uint8_t)uart->data;
        ports[port].came++;
    }
}

static void take_from_link(void) {
    take(LINK);
}

static void take_from_measuring(void) {
    take(MEASURING);
}

void open_port(enum port port) {
    set_baud(port, 300);
    uart_of(port)->control = SEND | RECEIVE | INTERRUPT_WHEN_RECEIVED;
    INTERRUPTS_ON = 1u << (2 * port);
}

void set_baud(enum port port, uint32_t baud) {
    if (ports[port].baud == baud) {
        return;
    }
    if (ports[port].baud != 0) {
        rest(20000 / ports[port].baud + 1); /* two characters of ten bits: one that waits, one on its way */
    }
    ports[port].baud = baud;
    uart_of(port)->divider = CYCLES_A_SECOND / baud;
}

bool fetch(enum port port, uint8_t *byte) {
    if (ports[port].came == ports[port].fetched) {
        return false;
    }
    *byte = ports[port].bytes[ports[port].fetched++ % WAITING_MOST];
    return true;
}

void send(enum port port, const uint8_t *bytes, uint32_t count) {
    struct uart *uart = uart_of(port);
    for (uint32_t at = 0; at < count; at++) {
        while (uart->state & SENDING_FULL) {
        }
        uart->data = bytes[at];
    }
}

/* ---- The vectors: the stack, the start, faults, the timer, and what the ports receive. */

__attribute__((section(".vectors"), used)) static void (*const vectors[])(void) = {
    (void (*)(void))stack_start,
    start,
    [2] = fault,
    [3] = fault,
    [4] = fault,
    [5] = fault,
    [6] = fault,
    [15] = another_millisecond,
    [16] = take_from_link,
    [18] = take_from_measuring,
};
