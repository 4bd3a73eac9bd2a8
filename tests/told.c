/*
 * What a refused call tells is 0, but for the index of an unsound cell, whatever stood there before; and it tells no more than
 * that, and leaves all else as it was. Every call is refused here, most of them by 14 too, but for those that only draw, which
 * tests/draws.c has. told.out has what this must print. tests/pairs.c tries the same over many more refusals, but not of calls
 * on one cell.
 */
#include "tests.h"

/* ---- what calls are lent ---- */

/* Sketches of two cells; calls are on the second. */
enum { T = 1, DEPTH = MICROSCOPE_DEPTH(T), SECOND = 1 };
enum { GRID = MICROSCOPE_GRID_BYTES(1, 2, T), STORE = MICROSCOPE_STORE_BYTES(1, 2, T) };

/* All that any call is lent, but for what it tells. */
static struct lent {
    microscope_sketch sketch;
    microscope_sketch other;
    microscope_watch watch;
    uint64_t limits[MICROSCOPE_MOST_CODES];
    uint64_t state;
    uint32_t columns[MICROSCOPE_KEPT_COLUMNS];
    uint32_t key[1];
    uint8_t grid[GRID];
    uint8_t other_grid[GRID];
    uint8_t store[STORE];
    uint8_t list[1];
} lent;

/* All that any call tells. */
static struct told {
    microscope_change change;
    microscope_figures figures;
    microscope_items items;
    microscope_value value;
    microscope_found found;
    microscope_asked asked;
    microscope_shape shape;
    uint64_t number;
    double pixel;
} told;

/* Two sketches of the same cells, a code that is watched, a key; and bytes that are no store. */
static void lend(void) {
    memset(&lent, 165, sizeof lent);
    microscope_new(&lent.other, &lent.watch, 1, 2, T, 2, MICROSCOPE_ITEMS, 10, 0, 1, lent.other_grid, GRID);
    microscope_new(&lent.sketch, &lent.watch, 1, 2, T, 2, MICROSCOPE_ITEMS, 10, 0, 1, lent.grid, GRID);
    lent.watch = (microscope_watch){1, 1, 0};
    lent.columns[0] = lent.key[0] = SECOND;
    lent.state = 1;
}

static void without_state(void) {
    lent.sketch.state = 0;
}

static void unsound(void) {
    lent.grid[SECOND * DEPTH + zoom_at(T)] = 255;
}

static void as_it_is(void) {
}

/* ---- the calls ---- */

static uint64_t new_of_t_0(void) {
    return microscope_new(&lent.sketch, &lent.watch, 1, 2, 0, 2, MICROSCOPE_ITEMS, 10, 0, 1, lent.grid, GRID);
}
static uint64_t update(void) {
    return microscope_update(&lent.sketch, lent.key, 1, lent.grid, GRID, &told.change);
}
static uint64_t update_at(void) {
    return microscope_update_at(&lent.sketch, lent.key, 1, 5, lent.grid, GRID, &told.change);
}
static uint64_t advance_to(void) {
    return microscope_advance_to(&lent.sketch, 5, lent.grid, GRID, &told.change);
}
static uint64_t merge(void) {
    return microscope_merge(&lent.sketch, lent.grid, GRID, &lent.other, lent.other_grid, GRID, &told.change);
}
static uint64_t estimate(void) {
    return microscope_estimate(&lent.sketch, lent.key, 1, lent.grid, GRID, &told.figures, &told.items);
}
static uint64_t estimate_with(void) {
    return microscope_estimate_with(&lent.sketch, lent.key, 1, 0.5, lent.grid, GRID, &told.figures, &told.items);
}
static uint64_t mean(void) {
    return microscope_mean(&lent.sketch, lent.key, 1, lent.grid, GRID, &told.value);
}
static uint64_t bucket_check(void) {
    return microscope_bucket_check(&lent.sketch, 0, 0, lent.grid, GRID);
}
static uint64_t max_zoom(void) {
    return microscope_max_zoom(&lent.sketch, lent.grid, GRID, &told.value);
}
static uint64_t audit(void) {
    return microscope_audit(&lent.sketch, lent.grid, GRID, &told.found);
}
static uint64_t length_of_store(void) {
    return microscope_store_length(&lent.sketch, &told.number);
}
static uint64_t save(void) {
    return microscope_save(&lent.sketch, lent.grid, GRID, lent.store, STORE, &told.number);
}
static uint64_t load(void) {
    return microscope_load(&lent.sketch, &lent.watch, lent.grid, GRID, lent.store, STORE, &told.number);
}
static uint64_t store_shape(void) {
    return microscope_store_shape(lent.store, STORE, &told.shape);
}
static uint64_t set_codes(void) {
    return microscope_set_codes(&lent.sketch, &lent.watch, lent.key, 1, &lent.state, 1, lent.columns, lent.limits);
}
static uint64_t ask(void) {
    return microscope_ask(&lent.sketch, &lent.watch, lent.columns, lent.limits, lent.grid, GRID, lent.list, 1,
                          &told.asked);
}
static uint64_t depth_of_t_0(void) {
    return microscope_depth(0, 2, &told.number);
}
static uint64_t zoom_of_base_1(void) {
    return microscope_base_max_zoom(1, &told.number);
}

/* The calls on one cell have the second of the grid. */
static uint8_t *const cell = lent.grid + SECOND * DEPTH;

static uint64_t cell_check(void) {
    return microscope_cell_check(cell, DEPTH, T, 2);
}
static uint64_t cell_zoom(void) {
    return microscope_cell_zoom(cell, DEPTH, T, 2, &told.number);
}
static uint64_t cell_shutter(void) {
    return microscope_cell_shutter(cell, DEPTH, T, 2, &told.number);
}
static uint64_t cell_scaled_pixel(void) {
    return microscope_cell_scaled_pixel(cell, DEPTH, T, 2, 0, &told.pixel);
}
static uint64_t cell_insert(void) {
    return microscope_cell_insert(cell, DEPTH, T, 2, 0, &lent.state, &told.change);
}
static uint64_t cell_enter_sub_window(void) {
    return microscope_cell_enter_sub_window(cell, DEPTH, T, 2, 1, 1, &lent.state, &told.change);
}
static uint64_t cell_merge(void) {
    return microscope_cell_merge(cell, DEPTH, lent.other_grid, DEPTH, T, 2, 0, &lent.state, &told.change);
}

/* ---- how each is refused, and what came of it ---- */

/* A part of what is told. */
struct part {
    size_t at;
    size_t bytes;
};

#define PART(field) {offsetof(struct told, field), sizeof told.field}
#define NOTHING {0, 0}

/* A call that is refused: how it comes to that, which parts it tells, and the index that stands first in the first of them. */
static const struct refusal {
    const char *name;
    uint64_t (*call)(void);
    void (*spoil)(void);
    struct part tells, figures;
    uint64_t number, index;
} refusals[] = {
    {"new", new_of_t_0, as_it_is, NOTHING, NOTHING, 1, 0},
    {"update", update, without_state, PART(change), NOTHING, 5, 0},
    {"update_at", update_at, as_it_is, PART(change), NOTHING, 8, 0},
    {"advance_to", advance_to, as_it_is, PART(change), NOTHING, 8, 0},
    {"merge", merge, without_state, PART(change), NOTHING, 5, 0},
    {"estimate", estimate, without_state, PART(items), PART(figures), 5, 0},
    {"estimate_with", estimate_with, without_state, PART(items), PART(figures), 5, 0},
    {"mean", mean, without_state, PART(value), NOTHING, 5, 0},
    {"bucket_check", bucket_check, without_state, NOTHING, NOTHING, 5, 0},
    {"max_zoom", max_zoom, without_state, PART(value), NOTHING, 5, 0},
    {"audit", audit, without_state, PART(found), NOTHING, 5, 0},
    {"store_length", length_of_store, without_state, PART(number), NOTHING, 5, 0},
    {"save", save, without_state, PART(number), NOTHING, 5, 0},
    {"load", load, as_it_is, PART(number), NOTHING, 17, 0},
    {"store_shape", store_shape, as_it_is, PART(shape), NOTHING, 17, 0},
    {"set_codes", set_codes, without_state, NOTHING, NOTHING, 5, 0},
    {"ask", ask, without_state, PART(asked), NOTHING, 5, 0},
    {"depth", depth_of_t_0, as_it_is, PART(number), NOTHING, 1, 0},
    {"base_max_zoom", zoom_of_base_1, as_it_is, PART(number), NOTHING, 2, 0},
    {"update", update, unsound, PART(change), NOTHING, 14, SECOND},
    {"merge", merge, unsound, PART(change), NOTHING, 14, SECOND},
    {"estimate", estimate, unsound, PART(items), PART(figures), 14, SECOND},
    {"estimate_with", estimate_with, unsound, PART(items), PART(figures), 14, SECOND},
    {"mean", mean, unsound, PART(value), NOTHING, 14, SECOND},
    {"max_zoom", max_zoom, unsound, PART(value), NOTHING, 14, SECOND},
    {"save", save, unsound, PART(number), NOTHING, 14, SECOND},
    {"ask", ask, unsound, PART(asked), NOTHING, 14, SECOND},
    {"cell_check", cell_check, unsound, NOTHING, NOTHING, 14, 0},
    {"cell_zoom", cell_zoom, unsound, PART(number), NOTHING, 14, 0},
    {"cell_shutter", cell_shutter, unsound, PART(number), NOTHING, 14, 0},
    {"cell_scaled_pixel", cell_scaled_pixel, unsound, PART(pixel), NOTHING, 14, 0},
    {"cell_insert", cell_insert, unsound, PART(change), NOTHING, 14, 0},
    {"cell_enter_sub_window", cell_enter_sub_window, unsound, PART(change), NOTHING, 14, 0},
    {"cell_merge", cell_merge, unsound, PART(change), NOTHING, 14, 0},
};

/* What must be told where each byte was this one: 0 but for the index, and nothing beside what the call tells. */
static bool tells_0(const struct refusal *of, uint8_t before) {
    struct told expected;
    uint8_t *bytes = (uint8_t *)&expected;
    memset(&expected, before, sizeof expected);
    memset(bytes + of->tells.at, 0, of->tells.bytes);
    memset(bytes + of->figures.at, 0, of->figures.bytes);
    if (of->index != 0) {
        memcpy(bytes + of->tells.at, &of->index, sizeof of->index);
    }
    return same_bytes(&told, &expected, sizeof told);
}

static struct lent was;

/* Whether the call, told over these bytes, is refused as it should and tells 0. */
static bool refused_over(const struct refusal *of, uint8_t before) {
    lend();
    of->spoil();
    memset(&told, before, sizeof told);
    memcpy(&was, &lent, sizeof was);
    return of->call() == of->number && tells_0(of, before);
}

static bool left(void) {
    return same_bytes(&lent, &was, sizeof was);
}

static void refuse(const struct refusal *of) {
    bool told_0 = refused_over(of, 165), kept = left();
    told_0 = refused_over(of, 255) && told_0;
    kept = left() && kept;
    printf("%s: ", of->name);
    print_verdict(of->number, of->index, " at index ");
    printf("%s%s\n", told_0 ? ", tells 0" : ": NOT SO, OR TELLS OTHERWISE", kept ? ", all as it was" : ", CHANGED");
}

int main(void) {
    for (size_t i = 0; i < sizeof refusals / sizeof refusals[0]; i++) {
        refuse(&refusals[i]);
    }
    return 0;
}
