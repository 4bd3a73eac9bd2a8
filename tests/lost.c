/*
 * Document 02, T-04: how many units a call lost. Every byte that a call leaves, the random state, the draws and the lost
 * units, beside a second reckoning of them (lost_reckoned.h): of one cell for every base, of cells by chance, and of small
 * sketches at their ceiling. The laws of T-04 are asked of what the library left and told, in items. Beside what was right
 * stands how many of these calls each mistake would have got wrong. lost.out has what this must print.
 */
#include "lost_sketches.h"

/* ---- worked by hand ---- */

static void tell_cell(const char *word, const uint8_t *cell) {
    printf("%s", word);
    for (size_t i = 0; i < pixels(); i++) {
        printf(" %u", (unsigned)cell[i]);
    }
    printf(", %" PRIu64 ", %" PRIu64, zoom_of(cell), shutter_of(cell));
}

/* A cell of t = 1 by its pixels, zoom and shutter, as on document 01's bench sheet. */
static void lay(uint8_t *cell, uint8_t first, uint8_t second, uint8_t third, uint64_t zoom, uint64_t shutter) {
    fill(cell, zoom, shutter, 0);
    cell[0] = first;
    cell[1] = second;
    cell[2] = third;
}

static void tell_told(void) {
    printf("; draws %" PRIu64 ", lost %" PRIu64 "\n", told.draws, told.lost);
}

static void worked(const char *what, int call, uint64_t n, uint64_t crossed, uint64_t state) {
    try_cell(call, n, crossed, state);
    printf("%s: c %" PRIu64, what, c);
    tell_cell(":", given);
    if (call == MERGE) {
        tell_cell(" merged with", src);
    }
    if (call == ENTER) {
        printf(", by %" PRIu64 " to n %" PRIu64, crossed, n);
    } else {
        printf("%s at n %" PRIu64, call == INSERT ? ", an item" : "", n);
    }
    tell_cell(" gives", left);
    tell_told();
}

/* 2^31 and 2^30 items are a unit at the ceiling of base 2 and one level below; 2^24 at that of base 256. */
static const uint64_t UNIT_31 = UINT64_C(1) << 31, UNIT_30 = UINT64_C(1) << 30, UNIT_24 = UINT64_C(1) << 24;

static void worked_items(void) {
    /* Bench item 5: the shutter is full, the pixel too, and Z cannot rise. */
    settle(1, 2);
    lay(given, 255, 0, 0, 31, UNIT_31 - 1);
    worked("dropped", INSERT, 0, 0, 1);
    /* The last unit that the pixel takes. */
    lay(given, 254, 0, 0, 31, UNIT_31 - 1);
    worked("just fits", INSERT, 0, 0, 1);
    /* An item short of a unit: nothing is credited yet. */
    lay(given, 255, 0, 0, 31, UNIT_31 - 2);
    worked("not yet", INSERT, 0, 0, 1);
    /* Sub-window 1 uses the second pixel. */
    lay(given, 255, 3, 255, 31, UNIT_31 - 1);
    worked("another is full", INSERT, 1, 0, 1);
    /* 256 by 2 is 128, 3 and 4 are 1 or 2, and 2: one draw, for 3; from state 1 it is odd. Raised, so nothing is lost. */
    lay(given, 255, 3, 4, 30, UNIT_30 - 1);
    worked("raised to the ceiling", INSERT, 0, 0, 1);
    /* Bench item 2. */
    lay(given, 255, 10, 0, 0, 0);
    worked("raised from 0", INSERT, 0, 0, 1);
    settle(1, 256);
    lay(given, 9, 9, 255, 3, UNIT_24 - 1);
    worked("dropped", INSERT, 2, 0, 1);
}

/* The first draw from state 1 is 5180492295206395165, which is 158129437 mod 2^31 and mod 2^30. */
static void worked_crossings(void) {
    settle(1, 2);
    lay(given, 255, 6, 7, 31, UNIT_31 - 1);
    worked("closed and dropped", ENTER, 1, 1, 1);
    /* Rounded up from one above the draw on, and not by the draw itself. */
    lay(given, 255, 6, 7, 31, 158129438);
    worked("just rounded up", ENTER, 1, 1, 1);
    lay(given, 255, 6, 7, 31, 158129437);
    worked("just not", ENTER, 1, 1, 1);
    lay(given, 254, 6, 7, 31, UNIT_31 - 1);
    worked("closed and kept", ENTER, 1, 1, 1);
    lay(given, 255, 0, 0, 30, UNIT_30 - 1);
    worked("closed and raised", ENTER, 1, 1, 1);
    /* 200 and 255 leave the window; 3 x 2^6 is 192. */
    lay(given, 3, 200, 255, 31, 0);
    worked("cleared", ENTER, 2, 2, 1);
    lay(given, 255, 255, 255, 31, UNIT_31 - 1);
    worked("far", ENTER, 3, 3, 1);
    worked("by none", ENTER, 3, 0, 1);
}

static void worked_merges(void) {
    settle(1, 2);
    lay(given, 255, 0, 0, 31, 0);
    lay(src, 1, 0, 0, 31, 0);
    worked("cut by one", MERGE, 0, 0, 1);
    /* 510 - 255 and 300 - 255. */
    lay(given, 255, 200, 9, 31, 0);
    lay(src, 255, 100, 1, 31, 0);
    worked("two are cut", MERGE, 0, 0, 1);
    /* The shutters are a unit: 255 + 0 + 1. */
    lay(given, 9, 9, 255, 31, UNIT_31 - 1);
    lay(src, 9, 9, 0, 31, 1);
    worked("cut by what is carried", MERGE, 2, 0, 1);
    /* 511 - 255, twice 510 - 255. */
    lay(given, 255, 255, 255, 31, UNIT_31 - 1);
    lay(src, 255, 255, 255, 31, UNIT_31 - 1);
    worked("the most of three pixels", MERGE, 1, 0, 1);
    /* Bench item 8: 510 by 2. */
    lay(given, 255, 0, 0, 0, 0);
    lay(src, 255, 0, 0, 0, 0);
    worked("raised", MERGE, 1, 0, 1);
    /* 511 by 2 at the ceiling: from state 2 the draw is even, 256, of which a unit is cut; from state 1 it is odd, 255. */
    lay(given, 255, 0, 0, 30, UNIT_30 - 1);
    lay(src, 255, 0, 0, 30, UNIT_30 - 1);
    worked("raised and cut", MERGE, 0, 0, 2);
    worked("raised and not cut", MERGE, 0, 0, 1);
}

/* One or three rows of two cells, t = 1, c = 256: what stands in a cell by its place. */
static void lay_sketch(uint64_t rows, uint64_t kind, uint64_t length) {
    microscope_watch watch;
    settle(1, 256);
    memset(&before, 0, sizeof before);
    microscope_new(&before.sketch, &watch, rows, 2, t, c, kind, length, 0, 1, before.grid, rows * 2 * depth());
}

static void worked_sketch(const char *what, int call, uint64_t timestamp) {
    struct sketch_call of = {.call = call, .key = {0, 1, 0}, .timestamp = timestamp, .bytes = grid_bytes(&before)};
    other.sketch = before.sketch;
    try_sketch(&of);
    printf("%s, %s", sketch_names[call], what);
    for (size_t i = 0; i < cells_of(&after); i++) {
        tell_cell(i == 0 ? ": leaves" : " |", cell_at(&after, i));
    }
    tell_told();
}

/* The key's cells are 0, 3 and 4: two that drop their unit, one that keeps it. Cell 1 is not the key's, and would drop too. */
static void three_rows(uint64_t length) {
    lay_sketch(3, MICROSCOPE_ITEMS, length);
    lay(cell_at(&before, 0), 255, 0, 0, 3, UNIT_24 - 1);
    lay(cell_at(&before, 1), 255, 0, 0, 3, UNIT_24 - 1);
    lay(cell_at(&before, 3), 255, 0, 0, 3, UNIT_24 - 1);
    lay(cell_at(&before, 4), 254, 0, 0, 3, UNIT_24 - 1);
}

/* The first two draws from state 1 are 7134493 and 7955741 mod 2^24: either rounds such a shutter up. */
static void two_shutters(void) {
    lay_sketch(1, MICROSCOPE_TIME, 1);
    lay(cell_at(&before, 0), 255, 0, 0, 3, UNIT_24 - 1);
    lay(cell_at(&before, 1), 255, 0, 0, 3, UNIT_24 - 1);
}

static void worked_sketches(void) {
    three_rows(1000);
    worked_sketch("two rows of three", UPDATE, 0);
    /* The sub-window ends with this item: cell 1 is closed and drops its unit too. */
    three_rows(1);
    worked_sketch("and then cell 1 is closed", UPDATE, 0);
    two_shutters();
    worked_sketch("two shutters", ADVANCE_TO, 1);
    /* The same, and the item of sub-window 1 goes into a cleared pixel's shutter. */
    two_shutters();
    worked_sketch("two shutters, then the item", UPDATE_AT, 1);
    /* Within sub-window 0 the item completes the unit of cell 0, which is dropped. */
    two_shutters();
    worked_sketch("within the sub-window", UPDATE_AT, 0);
    two_shutters();
    worked_sketch("far", ADVANCE_TO, 3);
    /* 255 + 255 + 1 carried, and 300: 256 and 45. */
    two_shutters();
    lay(cell_at(&before, 1), 7, 200, 0, 3, 0);
    other = before;
    lay(cell_at(&other, 1), 7, 100, 0, 3, 0);
    worked_sketch("two cells are cut", MERGE_SKETCHES, 0);
}

static void by_hand(void) {
    worked_items();
    worked_crossings();
    worked_merges();
    worked_sketches();
    print_score("by hand");
    next_part();
}

int main(void) {
    by_hand();
    every_base(insertions, "items, every base");
    every_base(crossings, "crossings, every base");
    every_base(mergings, "merges, every base");
    raised_and_cut();
    largest_cells();
    some_cells(INSERT, 20000);
    some_cells(ENTER, 40000);
    some_cells(MERGE, 20000);
    print_score("cells by chance");
    next_part();
    refused_cells();
    every_choice();
    sketches(UPDATE, 4000);
    print_sketches("sketches by chance, update");
    sketches(UPDATE_AT, 4000);
    print_sketches("sketches by chance, update_at");
    sketches(ADVANCE_TO, 4000);
    print_sketches("sketches by chance, advance_to");
    sketches(MERGE_SKETCHES, 2000);
    print_score("sketches by chance, merge");
    next_part();
    print_mistakes();
    return 0;
}
