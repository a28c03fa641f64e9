/* exactly.h: in place of hosts/c/exactly.h on the chip, for a bench that is compiled for it. There is no page that may not be touched;
 * what is lent lies between guards instead, and a run that changed one ends with status 4 (host.c). */
#ifndef EXACTLY_H
#define EXACTLY_H

#include <stdbool.h>
#include <stddef.h>
#include <stdint.h>
#include <stdio.h>
#include <stdlib.h>
#include <string.h>
#include <unistd.h>

struct pages {
    uint8_t *start;
    size_t size;
};

/* So many bytes, up to eight more, between two guards. */
struct pages guarded(size_t size);

/* Where so many bytes lie that a guard follows them, or goes before. */
static inline uint8_t *placed(struct pages pages, size_t size, bool at_the_start) {
    return at_the_start && size > 0 ? pages.start : pages.start + pages.size - size;
}

#endif
