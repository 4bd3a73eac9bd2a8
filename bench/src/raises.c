/*
 * The calls that ask for a base's zoom ceiling, by themselves: what it costs to ask, an item that raises the zoom, and a merge of
 * two cells that does. Of each cell one pixel is full and the others are 0, so that the raise itself costs little. In ns a call, the
 * shortest of 101 timings. See docs/BENCHMARK.md, "What T-03 did".
 */
#define _POSIX_C_SOURCE 199309L
#include <inttypes.h>
#include <stdio.h>
#include <string.h>
#include <time.h>

#include "microscope.h"

enum { T = 12, DEPTH = MICROSCOPE_DEPTH(T), CALLS = 20000, TIMINGS = 101 };

static uint8_t full[DEPTH] = {255};

static double now(void) {
    struct timespec time;
    clock_gettime(CLOCK_MONOTONIC, &time);
    return (double)time.tv_sec * 1e9 + (double)time.tv_nsec;
}

static void ask(uint64_t c) {
    uint64_t zoom;
    microscope_base_max_zoom(c, &zoom);
}

static uint64_t state;

static void item(uint64_t c) {
    uint8_t cell[DEPTH];
    microscope_change change;
    memcpy(cell, full, DEPTH);
    microscope_cell_insert(cell, DEPTH, T, c, 0, &state, &change);
}

static void merge(uint64_t c) {
    uint8_t cell[DEPTH];
    microscope_change change;
    memcpy(cell, full, DEPTH);
    microscope_cell_merge(cell, DEPTH, full, DEPTH, T, c, 0, &state, &change);
}

/* `call` is known where this is compiled into its caller, so that no call through an address is timed. */
static inline double timed(void call(uint64_t), uint64_t c) {
    double best = 1e18;
    for (int timing = 0; timing < TIMINGS; timing++) {
        state = 1;
        double start = now();
        for (int i = 0; i < CALLS; i++) {
            call(c);
        }
        double took = (now() - start) / CALLS;
        best = took < best ? took : best;
    }
    return best;
}

int main(void) {
    static const uint64_t bases[] = {2, 3, 9, 24, 84, 255, 256};
    printf("| c | `microscope_base_max_zoom` | an item that raises the zoom | a merge of two cells that does |\n|---|---|---|---|\n");
    for (size_t i = 0; i < sizeof bases / sizeof *bases; i++) {
        printf("| %" PRIu64 " | %.1f | %.1f | %.0f |\n", bases[i], timed(ask, bases[i]), timed(item, bases[i]), timed(merge, bases[i]));
    }
    return 0;
}
