/*
 * Document 02, T-11: how far a crossing zooms in, reckoned here from its words alone, behind the stages of document 01 that
 * come before it: the shutter is closed, which may zoom out, and pixels are cleared. Every byte that a crossing leaves, and
 * the random state, beside what the library leaves. Beside what was right stands how many of these crossings each mistake
 * would have got wrong. levels.out has what this must print.
 */
#include "tests.h"

enum { MOST_T = 4096, MOST_PIXELS = MOST_T + 2, ROWS = 2, COLS = 4, CELLS = ROWS * COLS };

/* A linear congruence (Knuth's of MMIX): the same numbers in every run. */
static uint64_t chosen(uint64_t below) {
    static uint64_t state = 11;
    state = state * 6364136223846793005u + 1442695040888963407u;
    return (state >> 33) % below;
}

/* ---- a cell, and its bytes ---- */

static uint64_t t, c;

struct cell {
    uint64_t zoom, shutter;
    uint8_t pixels[MOST_PIXELS];
    uint8_t pads[4];
};

static size_t depth(void) {
    return MICROSCOPE_DEPTH(t);
}

static size_t pads(void) {
    return depth() - (shutter_at(t) + 4);
}

static void write_cell(const struct cell *cell, uint8_t *bytes) {
    memcpy(bytes, cell->pixels, t + 2);
    bytes[zoom_at(t)] = (uint8_t)cell->zoom;
    for (size_t i = 0; i < 4; i++) {
        bytes[shutter_at(t) + i] = (uint8_t)(cell->shutter >> 8 * i);
    }
    memcpy(bytes + shutter_at(t) + 4, cell->pads, pads());
}

static void read_cell(const uint8_t *bytes, struct cell *cell) {
    memcpy(cell->pixels, bytes, t + 2);
    cell->zoom = bytes[zoom_at(t)];
    cell->shutter = 0;
    for (size_t i = 0; i < 4; i++) {
        cell->shutter |= (uint64_t)bytes[shutter_at(t) + i] << 8 * i;
    }
    memcpy(cell->pads, bytes + shutter_at(t) + 4, pads());
}

/* ---- document 01: draws, the highest zoom, a credit, and the stages before the zooming in ---- */

static uint64_t random_state;

static uint64_t draw(void) {
    uint64_t x = random_state;
    x ^= x >> 12;
    x ^= x << 25;
    x ^= x >> 27;
    random_state = x;
    return x * UINT64_C(0x2545F4914F6CDD1D);
}

static uint64_t divided(uint64_t v, uint64_t d) {
    if (v % d == 0) {
        return v / d;
    }
    return draw() % d < v % d ? v / d + 1 : v / d;
}

static uint64_t power(uint64_t k) {
    uint64_t product = 1;
    while (k-- > 0) {
        product *= c;
    }
    return product;
}

static uint64_t max_zoom(void) {
    uint64_t z = 0;
    while (power(z + 1) <= UINT32_MAX) {
        z++;
    }
    return z;
}

static void credit(struct cell *cell, size_t slot) {
    if (cell->pixels[slot] < 255) {
        cell->pixels[slot]++;
        return;
    }
    if (cell->zoom == max_zoom()) {
        return;
    }
    cell->zoom++;
    for (size_t i = 0; i < t + 2; i++) {
        cell->pixels[i] = (uint8_t)divided(i == slot ? 256 : cell->pixels[i], c);
    }
}

static void close_shutter(struct cell *cell, uint64_t ended) {
    uint64_t shutter = cell->shutter;
    cell->shutter = 0;
    if (shutter > 0 && divided(shutter, power(cell->zoom)) == 1) {
        credit(cell, ended % (t + 2));
    }
}

/* ---- document 02, T-11 ---- */

enum { A_BYTE = 255 };

static uint8_t largest(const struct cell *cell) {
    uint8_t most = 0;
    for (size_t i = 0; i < t + 2; i++) {
        most = cell->pixels[i] > most ? cell->pixels[i] : most;
    }
    return most;
}

static bool fits(uint64_t k, uint64_t pixel, uint64_t room) {
    while (k-- > 0 && pixel <= room) {
        pixel *= c;
    }
    return pixel <= room;
}

/* The largest k of 0 to `zoom` for which c^k x the pixel is at most `room`. */
static uint64_t levels(uint64_t zoom, uint64_t pixel, uint64_t room) {
    uint64_t k = zoom;
    while (k > 0 && !fits(k, pixel, room)) {
        k--;
    }
    return k;
}

/* The same as include/microscope.h tells it, word for word. */
static uint64_t told(uint64_t largest, uint64_t Z) {
    uint64_t k;
    for (k = 0; k < Z && largest * c <= 255; k++) largest *= c;
    return k;
}

/* ---- the mistakes ---- */

enum { TO_256, PAST_ZOOM, OF_COVERED, FROM_ZOOM_BEFORE, BEFORE_CLEARING, ONE_LEVEL, MISTAKES };

/* The largest pixel of the sub-windows that a figure covers: n back to n - t. */
static uint8_t largest_covered(const struct cell *cell, uint64_t n) {
    uint8_t most = 0;
    for (uint64_t back = 0; back <= t && back <= n; back++) {
        uint8_t pixel = cell->pixels[(n - back) % (t + 2)];
        most = pixel > most ? pixel : most;
    }
    return most;
}

/* How far the zoom would fall from the cell that is cleared; `before` and `closed` are the cell at the stages before. */
static uint64_t mistaken(int mistake, const struct cell *before, const struct cell *closed, const struct cell *cleared, uint64_t n) {
    switch (mistake) {
    case TO_256:
        return levels(cleared->zoom, largest(cleared), A_BYTE + 1);
    case PAST_ZOOM:
        return levels(max_zoom(), largest(cleared), A_BYTE);
    case OF_COVERED:
        return levels(cleared->zoom, largest_covered(cleared, n), A_BYTE);
    case FROM_ZOOM_BEFORE:
        return cleared->zoom - before->zoom + levels(before->zoom, largest(cleared), A_BYTE);
    case BEFORE_CLEARING:
        return levels(cleared->zoom, largest(closed), A_BYTE);
    default:
        return levels(cleared->zoom < 1 ? cleared->zoom : 1, largest(cleared), A_BYTE);
    }
}

/* ---- a crossing, reckoned ---- */

static struct {
    unsigned cells, right, by_none, told_otherwise, raised, zoomed_in, several, noticed[MISTAKES];
} score;

static void zoom_in(struct cell *cell, const struct cell *before, const struct cell *closed, uint64_t n) {
    uint64_t k = levels(cell->zoom, largest(cell), A_BYTE);
    for (int mistake = 0; mistake < MISTAKES; mistake++) {
        score.noticed[mistake] += mistaken(mistake, before, closed, cell, n) != k;
    }
    score.told_otherwise += told(largest(cell), cell->zoom) != k;
    score.raised += cell->zoom > before->zoom;
    score.zoomed_in += k > 0;
    score.several += k > 1;
    for (size_t i = 0; i < t + 2; i++) {
        cell->pixels[i] = (uint8_t)(cell->pixels[i] * power(k));
    }
    cell->zoom -= k;
}

static void cross(struct cell *cell, uint64_t n, uint64_t crossed) {
    static struct cell before, closed;
    if (crossed == 0) {
        score.by_none++;
        return;
    }
    before = *cell;
    if (crossed >= t + 2) {
        closed = *cell;
        memset(cell->pixels, 0, t + 2);
        cell->shutter = 0;
    } else {
        close_shutter(cell, n - crossed);
        closed = *cell;
        for (uint64_t i = 0; i < crossed; i++) {
            cell->pixels[(n - i) % (t + 2)] = 0;
        }
    }
    zoom_in(cell, &before, &closed, n);
}

/* ---- beside the library ---- */

static void tell_bytes(const char *word, const uint8_t *bytes, size_t count) {
    printf("%s", word);
    for (size_t i = 0; i < count && i < 24; i++) {
        printf(" %u", (unsigned)bytes[i]);
    }
}

static void compare(const uint8_t *before, const uint8_t *ours, const uint8_t *expected, size_t count, unsigned cells, bool same_state) {
    score.cells += cells;
    if (same_state && same_bytes(ours, expected, count)) {
        score.right += cells;
        return;
    }
    printf("t %" PRIu64 " c %" PRIu64, t, c);
    tell_bytes(": from", before, count);
    tell_bytes(" to", ours, count);
    tell_bytes(", EXPECTED", expected, count);
    printf("%s\n", same_state ? "" : ", ANOTHER STATE");
}

static void print_score(const char *what) {
    printf("%s: %u cells; as reckoned: %u; k otherwise in the header: %u; crossing by 0: %u, raised by closing: %u, zoomed in: %u, "
           "by 2 or more: %u\n",
           what, score.cells, score.right, score.told_otherwise, score.by_none, score.raised, score.zoomed_in, score.several);
    printf("  wrong would be, 256 for 255: %u, past the zoom: %u, of covered pixels: %u, from the zoom before: %u, before clearing: %u, "
           "one level at most: %u\n",
           score.noticed[TO_256], score.noticed[PAST_ZOOM], score.noticed[OF_COVERED], score.noticed[FROM_ZOOM_BEFORE],
           score.noticed[BEFORE_CLEARING], score.noticed[ONE_LEVEL]);
    memset(&score, 0, sizeof score);
}

/* One cell, by the call on a cell. */
static void compare_cell(struct cell *cell, uint64_t n, uint64_t crossed, uint64_t state) {
    static uint8_t before[MICROSCOPE_DEPTH(MOST_T)], expected[MICROSCOPE_DEPTH(MOST_T)];
    write_cell(cell, before);
    uint8_t *lent = exact_copy(before, depth());
    microscope_change change;
    random_state = state;
    cross(cell, n, crossed);
    write_cell(cell, expected);
    uint64_t number = microscope_cell_enter_sub_window(lent, depth(), t, c, n, crossed, &state, &change);
    compare(before, lent, expected, depth(), 1, number == MICROSCOPE_ACCEPTED && state == random_state);
    free(lent);
}

/* ---- which cells ---- */

/* With an empty shutter nothing is drawn: three pixels, the largest in slot 0, one that is cleared, and one as large or less. */
static void every_largest(void) {
    static struct cell cell;
    for (uint64_t zoom = 0; zoom <= max_zoom(); zoom++) {
        for (unsigned most = 0; most <= 255; most++) {
            cell = (struct cell){.zoom = zoom, .pixels = {(uint8_t)most}};
            cell.pixels[1] = (uint8_t)chosen(256);
            cell.pixels[2] = (uint8_t)chosen(most + 1);
            compare_cell(&cell, 1, 1, 1);
        }
    }
}

static void every_base(void) {
    t = 1;
    for (c = 2; c <= 256; c++) {
        every_largest();
    }
    print_score("every base, zoom and largest pixel");
}

/* A sound cell whose pixels reach up to one that is chosen first, so that small ones come as often as large ones. */
static void choose_cell(struct cell *cell) {
    uint64_t most = chosen(256);
    *cell = (struct cell){.zoom = chosen(max_zoom() + 1)};
    for (size_t i = 0; i < t + 2; i++) {
        cell->pixels[i] = (uint8_t)chosen(most + 1);
    }
    if (chosen(2) == 0) {
        cell->pixels[chosen(t + 2)] = 255;
    }
    if (chosen(4) > 0) {
        cell->shutter = chosen(power(cell->zoom));
    }
    for (size_t i = 0; i < pads(); i++) {
        cell->pads[i] = (uint8_t)chosen(256);
    }
}

static uint64_t some_state(void) {
    uint64_t high = chosen(UINT32_MAX);
    return high << 31 | (chosen(UINT32_MAX) + 1);
}

/* The sub-window that ends, far below the last of all or close to it. */
static uint64_t some_ended(void) {
    uint64_t low = chosen(1000);
    return chosen(2) == 0 ? low : UINT64_MAX - 2 * MOST_T - low;
}

static void some_base(void) {
    static const uint16_t bases[] = {2, 2, 3, 3, 4, 5, 7, 16, 17, 85, 128, 129, 255, 256};
    c = chosen(2) == 0 ? bases[chosen(sizeof bases / sizeof bases[0])] : 2 + chosen(255);
}

static void some_cells(uint64_t lowest_t, uint64_t highest_t, unsigned times, const char *what) {
    static struct cell cell;
    for (; times > 0; times--) {
        t = lowest_t + chosen(highest_t - lowest_t + 1);
        some_base();
        choose_cell(&cell);
        uint64_t crossed = chosen(t + 4), ended = some_ended();
        compare_cell(&cell, ended + crossed, crossed, some_state());
    }
    print_score(what);
}

/* ---- every cell of a grid, the state handed on from cell to cell ---- */

static microscope_sketch sketch;
static microscope_watch watch;
static uint8_t before_call[CELLS * MICROSCOPE_DEPTH(MOST_T)], expected_grid[CELLS * MICROSCOPE_DEPTH(MOST_T)];

/* A sketch whose cells are chosen, at the end of sub-window n of items, or with its clock at the start of n. */
static void choose_sketch(uint64_t kind, uint64_t length, uint64_t reading) {
    static struct cell cell;
    t = 1 + chosen(6);
    some_base();
    microscope_new(&sketch, &watch, ROWS, COLS, t, c, kind, length, 0, 1, before_call, CELLS * depth());
    sketch.reading = reading;
    sketch.state = some_state();
    for (size_t i = 0; i < CELLS; i++) {
        choose_cell(&cell);
        write_cell(&cell, before_call + i * depth());
    }
    memcpy(expected_grid, before_call, CELLS * depth());
    random_state = sketch.state;
}

static void cross_each(uint64_t n, uint64_t crossed) {
    static struct cell cell;
    for (size_t i = 0; i < CELLS; i++) {
        read_cell(expected_grid + i * depth(), &cell);
        cross(&cell, n, crossed);
        write_cell(&cell, expected_grid + i * depth());
    }
}

/* An item goes into the key's cells by the call on a cell: what is asked here is the crossing. */
static void insert_each(const uint32_t *key, uint64_t n) {
    microscope_change change;
    for (size_t row = 0; row < ROWS; row++) {
        microscope_cell_insert(expected_grid + (row * COLS + key[row]) * depth(), depth(), t, c, n, &random_state, &change);
    }
}

static void compare_grid(uint64_t number, const uint8_t *lent) {
    compare(before_call, lent, expected_grid, CELLS * depth(), CELLS, number == MICROSCOPE_ACCEPTED && sketch.state == random_state);
}

static void grids(unsigned times) {
    const uint32_t key[ROWS] = {1, 3};
    microscope_change change;
    uint8_t *lent;
    for (unsigned i = 0; i < times; i++) {
        uint64_t ended = some_ended(), crossed;
        choose_sketch(MICROSCOPE_TIME, 1, ended);
        crossed = chosen(t + 4);
        cross_each(ended + crossed, crossed);
        lent = exact_copy(before_call, CELLS * depth());
        compare_grid(microscope_advance_to(&sketch, ended + crossed, lent, CELLS * depth(), &change), lent);
        free(lent);
    }
    print_score("grids, advance_to");
    for (unsigned i = 0; i < times; i++) {
        uint64_t ended = some_ended(), crossed;
        choose_sketch(MICROSCOPE_TIME, 1, ended);
        crossed = chosen(t + 4);
        cross_each(ended + crossed, crossed);
        insert_each(key, ended + crossed);
        lent = exact_copy(before_call, CELLS * depth());
        compare_grid(microscope_update_at(&sketch, key, ROWS, ended + crossed, lent, CELLS * depth(), &change), lent);
        free(lent);
    }
    print_score("grids, update_at");
    for (unsigned i = 0; i < times; i++) {
        uint64_t length = 1 + chosen(3), ended = chosen(1000000);
        choose_sketch(MICROSCOPE_ITEMS, length, (ended + 1) * length - 1);
        insert_each(key, ended);
        cross_each(ended + 1, 1);
        lent = exact_copy(before_call, CELLS * depth());
        compare_grid(microscope_update(&sketch, key, ROWS, lent, CELLS * depth(), &change), lent);
        free(lent);
    }
    print_score("grids, update");
}

/* ---- worked by hand: t = 1; three pixels, zoom, shutter ---- */

static void worked(const char *what, uint64_t base, struct cell cell, uint64_t n, uint64_t crossed, uint64_t state) {
    uint8_t bytes[MICROSCOPE_DEPTH(1)];
    microscope_change change;
    t = 1;
    c = base;
    write_cell(&cell, bytes);
    printf("%s: c %" PRIu64, what, c);
    tell_bytes(",", bytes, 5);
    microscope_cell_enter_sub_window(bytes, depth(), t, c, n, crossed, &state, &change);
    printf(" by %" PRIu64 " to %" PRIu64, crossed, n);
    tell_bytes(" becomes", bytes, 5);
    printf("\n");
}

int main(void) {
    worked("just fits", 2, (struct cell){1, 0, {127, 0, 0}, {0}}, 1, 1, 1);
    worked("just over", 2, (struct cell){1, 0, {128, 0, 0}, {0}}, 1, 1, 1);
    worked("to the brim", 3, (struct cell){1, 0, {85, 0, 0}, {0}}, 1, 1, 1);
    worked("by three", 2, (struct cell){7, 0, {31, 9, 5}, {0}}, 1, 1, 1);
    worked("at most the zoom", 2, (struct cell){1, 0, {1, 0, 0}, {0}}, 1, 1, 1);
    worked("uncovered", 2, (struct cell){1, 0, {200, 0, 0}, {0}}, 2, 2, 1);
    worked("uncovered, the last", 2, (struct cell){1, 0, {1, 9, 200}, {0}}, 4, 1, 1);
    worked("cleared first", 2, (struct cell){1, 0, {0, 200, 0}, {0}}, 1, 1, 1);
    worked("raised first", 2, (struct cell){1, 1, {255, 0, 0}, {0}}, 1, 1, 2);
    worked("all zero", 2, (struct cell){31, 7, {255, 255, 255}, {0}}, 3, 3, 1);
    worked("by none", 2, (struct cell){1, 1, {1, 0, 0}, {0}}, 1, 0, 1);
    every_base();
    some_cells(1, 8, 200000, "cells of t 1 to 8");
    some_cells(MOST_T - 1, MOST_T, 300, "cells of t 4,095 and 4,096");
    grids(20000);
    return 0;
}
