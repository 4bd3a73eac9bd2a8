/*
 * The reckoning of tests/lost.c, from the words of documents 01 and 02 alone: what a call leaves in a cell's bytes or a
 * grid's, the random state, the draws, and the units that it loses (document 02, T-04). Beside these it is kept how the
 * units were lost, so that lost.c can say what a mistake would have told.
 */
#ifndef LOST_RECKONED_H
#define LOST_RECKONED_H

#include "tests.h"

enum { FULL = 255, MOST_T = 4096, MOST_DEPTH = MICROSCOPE_DEPTH(MOST_T) };

/* Of the sketches: 3 rows of 4 columns and t = 12 at most. */
enum { MOST_ROWS = 3, MOST_CELLS = MOST_ROWS * 4, MOST_GRID = MOST_CELLS * MICROSCOPE_DEPTH(12) };

/* ---- settings, and the bytes of a cell ---- */

static uint64_t t, c, max_zoom;

/* max_zoom is the largest z with c^z at most 2^32 - 1. */
static void settle(uint64_t sub_windows, uint64_t base) {
    t = sub_windows;
    c = base;
    max_zoom = 0;
    for (uint64_t power = c; power <= UINT32_MAX; power *= c) {
        max_zoom++;
    }
}

/* c^zoom: what a pixel's 1 is worth, in items. */
static uint64_t unit(uint64_t zoom) {
    uint64_t items = 1;
    while (zoom-- > 0) {
        items *= c;
    }
    return items;
}

static size_t pixels(void) {
    return t + 2;
}

static size_t depth(void) {
    return MICROSCOPE_DEPTH(t);
}

/* Which pixel sub-window n uses. */
static size_t slot_of(uint64_t n) {
    return n % pixels();
}

static uint64_t zoom_of(const uint8_t *cell) {
    return cell[zoom_at(t)];
}

static uint64_t shutter_of(const uint8_t *cell) {
    uint64_t shutter = 0;
    for (size_t i = 4; i > 0; i--) {
        shutter = shutter << 8 | cell[shutter_at(t) + i - 1];
    }
    return shutter;
}

static void set_shutter(uint8_t *cell, uint64_t shutter) {
    for (size_t i = 0; i < 4; i++) {
        cell[shutter_at(t) + i] = (uint8_t)(shutter >> 8 * i);
    }
}

/* The items of a cell: s + c^Z x the sum of its pixels. At most 2^32 x 255 x 4,098 and 2^32, so below 2^53. */
static uint64_t total_of(const uint8_t *cell) {
    uint64_t sum = 0;
    for (size_t i = 0; i < pixels(); i++) {
        sum += cell[i];
    }
    return shutter_of(cell) + unit(zoom_of(cell)) * sum;
}

/* ---- what is reckoned of a call ---- */

static struct {
    uint64_t state, draws, lost;
    uint64_t row, of_row[MOST_ROWS]; /* the row that is gone through, and what was lost in each */
    uint64_t dropped;                /* units that were dropped at an item */
    uint64_t drops_closing;          /* and at a shutter that was closed */
    uint64_t cut, cut_pixels;        /* units that a merge cut off, and of how many pixels */
    uint64_t raises, above;          /* full pixels that raised the zoom; units above 255 that a merge kept so */
    uint64_t cleared;                /* units in pixels that left the window */
} reckoned;

static void begin(uint64_t state) {
    memset(&reckoned, 0, sizeof reckoned);
    reckoned.state = state;
}

static void lose(uint64_t units) {
    reckoned.lost += units;
    reckoned.of_row[reckoned.row] += units;
}

/* ---- draws ---- */

static uint64_t draw(void) {
    uint64_t x = reckoned.state;
    x ^= x >> 12;
    x ^= x << 25;
    x ^= x >> 27;
    reckoned.state = x;
    reckoned.draws++;
    return x * UINT64_C(0x2545F4914F6CDD1D);
}

static uint64_t rounded(uint64_t v, uint64_t d) {
    uint64_t quotient = v / d, remainder = v % d;
    if (remainder > 0 && draw() % d < remainder) {
        quotient++;
    }
    return quotient;
}

/* ---- one cell ---- */

/* Credits a pixel with a unit. True if the unit was dropped: the pixel is full, and the zoom the largest. */
static bool drops(uint8_t *cell, size_t slot) {
    if (cell[slot] < FULL) {
        cell[slot]++;
        return false;
    }
    if (zoom_of(cell) == max_zoom) {
        return true;
    }
    reckoned.raises++;
    cell[zoom_at(t)]++;
    for (size_t i = 0; i < pixels(); i++) {
        uint64_t counted = i == slot ? FULL + 1 : cell[i];
        cell[i] = (uint8_t)rounded(counted, c);
    }
    return false;
}

static void insert(uint8_t *cell, uint64_t n) {
    uint64_t items = shutter_of(cell) + 1;
    if (items < unit(zoom_of(cell))) {
        set_shutter(cell, items);
        return;
    }
    set_shutter(cell, 0);
    if (drops(cell, slot_of(n))) {
        reckoned.dropped++;
        lose(1);
    }
}

static void close_shutter(uint8_t *cell, uint64_t ended) {
    uint64_t items = shutter_of(cell);
    set_shutter(cell, 0);
    if (items > 0 && rounded(items, unit(zoom_of(cell))) == 1 && drops(cell, slot_of(ended))) {
        reckoned.drops_closing++;
        lose(1);
    }
}

/* What a cleared pixel held has left the window and is not lost. */
static void clear(uint8_t *cell, size_t slot) {
    reckoned.cleared += cell[slot];
    cell[slot] = 0;
}

static bool zooms_in(const uint8_t *cell) {
    for (size_t i = 0; i < pixels(); i++) {
        if (cell[i] > FULL / c) {
            return false;
        }
    }
    return zoom_of(cell) > 0;
}

static void enter(uint8_t *cell, uint64_t new_n, uint64_t crossed) {
    if (crossed == 0) {
        return;
    }
    if (crossed >= pixels()) {
        set_shutter(cell, 0);
        for (size_t i = 0; i < pixels(); i++) {
            clear(cell, i);
        }
    } else {
        close_shutter(cell, new_n - crossed);
        for (uint64_t n = new_n - crossed + 1; n != new_n + 1; n++) {
            clear(cell, slot_of(n));
        }
    }
    while (zooms_in(cell)) {
        for (size_t i = 0; i < pixels(); i++) {
            cell[i] = (uint8_t)(cell[i] * c);
        }
        cell[zoom_at(t)]--;
    }
}

/* A pixel divided by c once for each level that its cell is below the target. */
static uint64_t brought_up(uint64_t pixel, uint64_t levels) {
    while (levels-- > 0) {
        pixel = rounded(pixel, c);
    }
    return pixel;
}

/* The units above 255 of all sums. */
static uint64_t above_255(const uint64_t *sums) {
    uint64_t units = 0;
    for (size_t i = 0; i < pixels(); i++) {
        units += sums[i] > FULL ? sums[i] - FULL : 0;
    }
    return units;
}

static void cut_sums(uint64_t *sums) {
    reckoned.cut += above_255(sums);
    lose(above_255(sums));
    for (size_t i = 0; i < pixels(); i++) {
        if (sums[i] > FULL) {
            reckoned.cut_pixels++;
            sums[i] = FULL;
        }
    }
}

static void merge(uint8_t *dst, const uint8_t *src, uint64_t n) {
    static uint64_t sums[MOST_T + 2];
    uint64_t target = zoom_of(dst) > zoom_of(src) ? zoom_of(dst) : zoom_of(src);
    for (size_t i = 0; i < pixels(); i++) {
        sums[i] = brought_up(dst[i], target - zoom_of(dst));
        sums[i] += brought_up(src[i], target - zoom_of(src));
    }
    uint64_t items = shutter_of(dst) + shutter_of(src);
    sums[slot_of(n)] += items / unit(target);
    set_shutter(dst, items % unit(target));
    while (above_255(sums) > 0) {
        if (target == max_zoom) {
            cut_sums(sums);
            break;
        }
        reckoned.above += above_255(sums);
        target++;
        for (size_t i = 0; i < pixels(); i++) {
            sums[i] = rounded(sums[i], c);
        }
    }
    for (size_t i = 0; i < pixels(); i++) {
        dst[i] = (uint8_t)sums[i];
    }
    dst[zoom_at(t)] = (uint8_t)target;
}

/* ---- a sketch: cells by row, then column; one random state for all of them ---- */

struct plane {
    microscope_sketch sketch;
    uint8_t grid[MOST_GRID];
};

static size_t cells_of(const struct plane *plane) {
    return plane->sketch.rows * plane->sketch.cols;
}

static size_t grid_bytes(const struct plane *plane) {
    return cells_of(plane) * depth();
}

static uint8_t *cell_at(struct plane *plane, size_t index) {
    return plane->grid + index * depth();
}

static uint64_t n_of(const microscope_sketch *sketch) {
    if (sketch->kind == MICROSCOPE_ITEMS) {
        return sketch->reading / sketch->length;
    }
    return sketch->reading > sketch->epoch ? (sketch->reading - sketch->epoch) / sketch->length : 0;
}

/* Each row's cell of the key, in the order of the rows. */
static void record_item(struct plane *plane, const uint32_t *key) {
    for (uint64_t row = 0; row < plane->sketch.rows; row++) {
        reckoned.row = row;
        insert(cell_at(plane, row * plane->sketch.cols + key[row]), n_of(&plane->sketch));
    }
}

/* Every cell, in grid order, into the sub-window that the clock now shows. */
static void cross_from(struct plane *plane, uint64_t old_n) {
    uint64_t n = n_of(&plane->sketch);
    for (size_t i = 0; i < cells_of(plane); i++) {
        reckoned.row = i / plane->sketch.cols;
        enter(cell_at(plane, i), n, n - old_n);
    }
}

static void update(struct plane *plane, const uint32_t *key) {
    uint64_t old_n = n_of(&plane->sketch);
    record_item(plane, key);
    if (plane->sketch.reading < UINT64_MAX) {
        plane->sketch.reading++;
    }
    cross_from(plane, old_n);
}

static void advance(struct plane *plane, uint64_t timestamp) {
    uint64_t old_n = n_of(&plane->sketch);
    if (timestamp > plane->sketch.reading) {
        plane->sketch.reading = timestamp;
    }
    cross_from(plane, old_n);
}

static void update_at(struct plane *plane, const uint32_t *key, uint64_t timestamp) {
    advance(plane, timestamp);
    record_item(plane, key);
}

static void merge_grids(struct plane *plane, struct plane *other) {
    for (size_t i = 0; i < cells_of(plane); i++) {
        reckoned.row = i / plane->sketch.cols;
        merge(cell_at(plane, i), cell_at(other, i), n_of(&plane->sketch));
    }
}

#endif
