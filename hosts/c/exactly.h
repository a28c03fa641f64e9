/* exactly.h: memory that starts and ends where its size says. A library is machine code without
 * the sanitizers' tests, so they do not see what it reads and writes itself. Here nothing may touch
 * the pages before and behind: a byte too many stops the program. What is lent ends where they
 * start; with AT_THE_START defined it starts where they end. Include this file first. */
#ifndef EXACTLY_H
#define EXACTLY_H

#define _DEFAULT_SOURCE
#include <stdbool.h>
#include <stddef.h>
#include <stdint.h>
#include <stdio.h>
#include <stdlib.h>
#include <string.h>
#include <sys/mman.h>
#include <unistd.h>

#ifdef AT_THE_START
#define EXACTLY_AT_THE_START true
#else
#define EXACTLY_AT_THE_START false
#endif

/* Pages to read and write between two that may not be touched. */
struct pages {
    uint8_t *start;
    size_t size;
};

static inline size_t page_size(void) {
    return (size_t)sysconf(_SC_PAGESIZE);
}

/* The bytes of the pages that hold so many: one page at least. */
static inline size_t pages_for(size_t size) {
    size_t page = page_size();
    return size == 0 ? page : (size + page - 1) / page * page;
}

static inline struct pages guarded(size_t size) {
    size_t page = page_size(), held = pages_for(size);
    uint8_t *start = mmap(NULL, held + 2 * page, PROT_NONE, MAP_PRIVATE | MAP_ANONYMOUS, -1, 0);
    if (start == MAP_FAILED || mprotect(start + page, held, PROT_READ | PROT_WRITE) != 0) {
        perror("no memory");
        exit(2);
    }
    return (struct pages){start + page, held};
}

/* Where so many bytes of the pages lie that nothing follows them, or nothing goes before; no bytes
 * are a place that may not be touched. */
static inline uint8_t *placed(struct pages pages, size_t size, bool at_the_start) {
    return at_the_start && size > 0 ? pages.start : pages.start + pages.size - size;
}

/* So many bytes to read and write. */
static inline void *exactly(size_t size) {
    return placed(guarded(size), size, EXACTLY_AT_THE_START);
}

/* The pages of what `exactly` gave. */
static inline struct pages pages_of(const void *place, size_t size) {
    size_t held = pages_for(size);
    uint8_t *start = (uint8_t *)place;
    return (struct pages){EXACTLY_AT_THE_START && size > 0 ? start : start + size - held, held};
}

/* A copy that may only be read. */
static inline const uint8_t *lent(const void *bytes, size_t size) {
    uint8_t *copy = exactly(size);
    memcpy(copy, bytes, size);
    struct pages pages = pages_of(copy, size);
    if (mprotect(pages.start, pages.size, PROT_READ) != 0) {
        exit(2);
    }
    return copy;
}

static inline void give_back(const void *place, size_t size) {
    struct pages pages = pages_of(place, size);
    if (munmap(pages.start - page_size(), pages.size + 2 * page_size()) != 0) {
        exit(2);
    }
}

#endif
