/* odd.c: reads a word where none starts. A Cortex-M0 faults at it, and so must the board that stands for one: else no run on it would
 * show that the libraries never do it. */
#include "board.h"

int main(void) {
    static const uint8_t bytes[8];
    const uint8_t *at = bytes + 1;
    __asm__ volatile("" : "+r"(at)); /* the compiler is not to know where that is */
    return *(const volatile uint32_t *)(const void *)at == 0 ? 0 : 1;
}
