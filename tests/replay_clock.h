/*
 * The file `clock`. The edge has no clock alone: each is put into a sketch of two cells whose pixels are all 1, and the calls on
 * a sketch show what it does. A tick is an item in the first cell, an advance is an advance. Then
 *
 *     seen or now           stands in the sketch
 *     the fraction          comes with a reading
 *     sub-windows crossed   are the pixels of the second cell that were cleared, up to all of them
 *     n, modulo PIXELS      is the pixel that one more item credits
 *     same_frame            is that a merge is not refused by 11
 *
 * All of n and of the sub-windows crossed is held to what the header says of the reading that the call left.
 */
#ifndef REPLAY_CLOCK_H
#define REPLAY_CLOCK_H

#include "replay.h"

enum { CLOCK_READ = 1, TICK = 2, CLOCK_ADVANCE = 3, SAME_FRAME = 4, CLOCK_KINDS = 5 };

static struct kind clock_kinds[CLOCK_KINDS] = {
    [CLOCK_READ] = {.name = "n and fraction"},
    [TICK] = {.name = "tick"},
    [CLOCK_ADVANCE] = {.name = "advance_to"},
    [SAME_FRAME] = {.name = "same_frame"},
};

/* As many pixels as a prime. */
enum { CLOCK_T = 249, PIXELS = CLOCK_T + 2, CLOCK_DEPTH = MICROSCOPE_DEPTH(CLOCK_T) };
enum { CLOCK_GRID = MICROSCOPE_GRID_BYTES(1, 2, CLOCK_T) };

/* The second cell, which no item of a tick is in. */
static const uint32_t first_key[1] = {0}, second_key[1] = {1};

static uint8_t *second_cell(uint8_t *grid) {
    return grid + CLOCK_DEPTH;
}

static microscope_sketch sketch_with(uint64_t kind, uint64_t length, uint64_t epoch, uint64_t reading) {
    return (microscope_sketch){1, 2, CLOCK_T, 2, kind, length, epoch, reading, 1};
}

static uint8_t *grid_of_ones(void) {
    uint8_t *grid = exactly(CLOCK_GRID);
    memset(grid, 0, CLOCK_GRID);
    memset(grid, 1, PIXELS);
    memset(second_cell(grid), 1, PIXELS);
    return grid;
}

static uint64_t cleared(const uint8_t *cell) {
    uint64_t count = 0;
    for (size_t i = 0; i < PIXELS; i++) {
        count += cell[i] == 0;
    }
    return count;
}

/* The pixel that an item credits, by the kind of clock; PIXELS if there is not just one. */
static uint64_t credited(microscope_sketch *sketch, uint8_t *grid) {
    uint8_t before[PIXELS];
    microscope_change change;
    uint64_t found = PIXELS, times = 0;
    memcpy(before, second_cell(grid), PIXELS);
    hold("refused by", 0,
         sketch->kind == MICROSCOPE_ITEMS ? microscope_update(sketch, second_key, 1, grid, CLOCK_GRID, &change)
                                          : microscope_update_at(sketch, second_key, 1, 0, grid, CLOCK_GRID, &change));
    for (size_t i = 0; i < PIXELS; i++) {
        if (second_cell(grid)[i] > before[i]) {
            found = i;
            times++;
        }
    }
    return times == 1 ? found : PIXELS;
}

static void move(microscope_sketch *sketch, uint8_t *grid, const uint8_t *record) {
    microscope_change change;
    if (byte_at(record, 0) == TICK) {
        hold("refused by", 0, microscope_update(sketch, first_key, 1, grid, CLOCK_GRID, &change));
    }
    if (byte_at(record, 0) == CLOCK_ADVANCE) {
        hold("refused by", 0, microscope_advance_to(sketch, u64_at(record, 32), grid, CLOCK_GRID, &change));
    }
}

/* A merge may be refused by 12 as well, behind 11. It is made on copies. */
static void compare_frames(const microscope_sketch *sketch, const uint8_t *record) {
    microscope_sketch mine = *sketch;
    microscope_sketch other =
        sketch_with(byte_at(record, 2), u64_at(record, 32), u64_at(record, 40), u64_at(record, 48));
    uint8_t *grid = grid_of_ones(), *other_grid = grid_of_ones();
    microscope_change change;
    uint64_t number = microscope_merge(&mine, grid, CLOCK_GRID, &other, other_grid, CLOCK_GRID, &change);
    hold("same_frame", byte_at(record, 3), number == MICROSCOPE_ACCEPTED || number == MICROSCOPE_SUB_WINDOWS);
    free(grid);
    free(other_grid);
}

static void replay_one_clock(const uint8_t *record) {
    bool frames = byte_at(record, 0) == SAME_FRAME;
    uint64_t crossed = u64_at(record, 56);
    microscope_sketch sketch =
        sketch_with(byte_at(record, 1), u64_at(record, 8), u64_at(record, 16), u64_at(record, 24));
    uint64_t before = sub_window(&sketch);
    uint8_t *grid = grid_of_ones();
    microscope_figures figures;
    microscope_items items;
    move(&sketch, grid, record);
    if (frames) {
        compare_frames(&sketch, record);
    }
    hold("seen or now", u64_at(record, frames ? 24 : 48), sketch.reading);
    hold("n", u64_at(record, 64), sub_window(&sketch));
    hold("crossed", crossed, sub_window(&sketch) - before);
    hold("pixels cleared", crossed < PIXELS ? crossed : PIXELS, cleared(second_cell(grid)));
    hold("refused by", 0, microscope_estimate(&sketch, second_key, 1, grid, CLOCK_GRID, &figures, &items));
    hold("bits of the fraction", bits_of(double_of(u64_at(record, 72))), bits_of(figures.fraction));
    hold("the pixel credited, n modulo 251", u64_at(record, 64) % PIXELS, credited(&sketch, grid));
    free(grid);
}

static void replay_clock(FILE *in) {
    uint8_t record[80];
    while (next_header(in, record, sizeof record)) {
        struct kind *kind = kind_of(clock_kinds, CLOCK_KINDS, byte_at(record, 0));
        replay_one_clock(record);
        end_record(kind);
    }
}

#endif
