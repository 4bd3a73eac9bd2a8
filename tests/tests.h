/*
 * What the C tests share. Each makes calls of the library and prints what came of them; tools/try_edge compares that
 * with the recorded text beside the test.
 */
#ifndef TESTS_H
#define TESTS_H

#include <inttypes.h>
#include <stdbool.h>
#include <stdio.h>
#include <stdlib.h>
#include <string.h>

#include "microscope.h"

static inline bool same_bytes(const void *one, const void *other, size_t count) {
    return memcmp(one, other, count) == 0;
}

/* Memory of just so many bytes, so that valgrind sees a byte that a call reads or writes outside of what it was lent. */
static inline void *exactly(size_t count) {
    void *memory = malloc(count);
    if (memory == NULL) {
        fprintf(stderr, "no memory of %zu bytes\n", count);
        exit(1);
    }
    return memory;
}

static inline void *exact_copy(const void *bytes, size_t count) {
    return memcpy(exactly(count), bytes, count);
}

/* `accepted`, `refused by 6`; with 14 the index follows behind its word. */
static inline void print_verdict(uint64_t number, uint64_t index, const char *word) {
    if (number == MICROSCOPE_ACCEPTED) {
        printf("accepted");
        return;
    }
    printf("refused by %" PRIu64, number);
    if (number == MICROSCOPE_UNSOUND) {
        printf("%s%" PRIu64, word, index);
    }
}

/* The sum of byte i times i + 1: by it a long cell is told, and a block of a store checked. */
static inline uint64_t weighed(const uint8_t *bytes, size_t count) {
    uint64_t sum = 0;
    for (size_t i = 0; i < count; i++) {
        sum += (i + 1) * bytes[i];
    }
    return sum;
}

/* Where a cell has its zoom: behind its pixels. */
static inline size_t zoom_at(size_t t) {
    return t + 2;
}

/* Where it has the four bytes of its shutter. */
static inline size_t shutter_at(size_t t) {
    return zoom_at(t) + 1;
}

#endif
