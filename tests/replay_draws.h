/*
 * The file `draws`. A division of 32-bit numbers is that of 64-bit numbers, and a draw is a run of one. A fresh start must
 * take the same state from a seed as the call that makes one.
 */
#ifndef REPLAY_DRAWS_H
#define REPLAY_DRAWS_H

#include "replay.h"

enum { DRAW = 1, DIVISION = 2, SMALL_DIVISION = 3, SEED = 4, RUN = 5, DRAW_KINDS = 6 };

static struct kind draw_kinds[DRAW_KINDS] = {
    [DRAW] = {.name = "draw"},
    [DIVISION] = {.name = "division of 64 bits"},
    [SMALL_DIVISION] = {.name = "division of 32 bits"},
    [SEED] = {.name = "seed"},
    [RUN] = {.name = "run of draws"},
};

/* The value is the last draw's. */
static void draw(const uint8_t *record) {
    uint64_t state = u64_at(record, 8), value = 0;
    for (uint64_t draws = u32_at(record, 4); draws > 0; draws--) {
        hold("refused by", 0, microscope_next_u64(&state, &value));
    }
    hold("state", u64_at(record, 16), state);
    hold("value", u64_at(record, 40), value);
}

static void divide(const uint8_t *record) {
    uint64_t state = u64_at(record, 8), quotient;
    microscope_change change;
    hold("refused by", 0,
         microscope_unbiased_div_u64(u64_at(record, 24), u64_at(record, 32), &state, &quotient, &change));
    hold("draws", u32_at(record, 4), change.draws);
    hold("lost", 0, change.lost);
    hold("state", u64_at(record, 16), state);
    hold("value", u64_at(record, 40), quotient);
}

static void seed(const uint8_t *record) {
    uint64_t given = u64_at(record, 8);
    uint8_t grid[MICROSCOPE_GRID_BYTES(1, 2, 1)];
    microscope_sketch sketch;
    microscope_watch watch;
    hold("state", u64_at(record, 16), microscope_rounding_new(given));
    hold("refused by", 0,
         microscope_new(&sketch, &watch, 1, 2, 1, 2, MICROSCOPE_ITEMS, 1, 0, given, grid, sizeof grid));
    hold("state of a fresh start", u64_at(record, 16), sketch.state);
}

static void replay_draw(const uint8_t *record) {
    switch (byte_at(record, 0)) {
    case DRAW:
    case RUN:
        draw(record);
        break;
    case SEED:
        seed(record);
        break;
    default:
        divide(record);
        break;
    }
}

static void replay_draws(FILE *in) {
    uint8_t record[48];
    while (next_header(in, record, sizeof record)) {
        struct kind *kind = kind_of(draw_kinds, DRAW_KINDS, byte_at(record, 0));
        replay_draw(record);
        end_record(kind);
    }
}

#endif
