/*
 * What the header has by itself, held to the library: the sizes, and the version; and the words for the numbers.
 * sizes.out has what this must print.
 */
#include "tests.h"

/* ---- sizes ---- */

/* How many sizes were the same by the header and by a call. Of the others the first is told. */
struct tally {
    uint64_t same;
    uint64_t other;
};

static void compare(struct tally *tally, const char *what, uint64_t t, uint64_t by_header, uint64_t by_call) {
    if (by_header == by_call) {
        tally->same++;
    } else if (tally->other++ == 0) {
        printf("%s, t %" PRIu64 ": %" PRIu64 " by the header, %" PRIu64 " by the call\n", what, t, by_header, by_call);
    }
}

static void report(const char *what, struct tally tally) {
    printf("%s: %" PRIu64 " the same, %" PRIu64 " otherwise\n", what, tally.same, tally.other);
}

/* The cells of the small sketches that are made for every t. */
enum { ROWS = 2, COLS = 4, LARGEST_T = 4096 };

/* Whether a fresh start takes a grid of so many bytes. */
static bool starts_with(uint64_t t, size_t bytes) {
    microscope_sketch sketch;
    microscope_watch watch;
    uint8_t *grid = exactly(bytes);
    uint64_t number = microscope_new(&sketch, &watch, ROWS, COLS, t, 2, MICROSCOPE_ITEMS, 1000, 0, 1, grid, bytes);
    free(grid);
    return number == MICROSCOPE_ACCEPTED;
}

/* The bytes that a grid is accepted with: as many as the header says, one less, or one more; 0 if it is not just one of these. */
static uint64_t accepted_bytes(uint64_t t) {
    size_t bytes = MICROSCOPE_GRID_BYTES(ROWS, COLS, t);
    uint64_t found = 0;
    int times = 0;
    for (size_t tried = bytes - 1; tried <= bytes + 1; tried++) {
        if (starts_with(t, tried)) {
            found = tried;
            times++;
        }
    }
    return times == 1 ? found : 0;
}

static uint64_t depth(uint64_t t) {
    uint64_t depth;
    return microscope_depth(t, 2, &depth) == MICROSCOPE_ACCEPTED ? depth : 0;
}

/* A sketch of these cells, for a call that is lent no grid. */
static uint64_t store_length(uint64_t rows, uint64_t cols, uint64_t t) {
    microscope_sketch sketch = {rows, cols, t, 2, MICROSCOPE_ITEMS, 1, 0, 0, 1};
    uint64_t length;
    return microscope_store_length(&sketch, &length) == MICROSCOPE_ACCEPTED ? length : 0;
}

static void every_t(void) {
    struct tally depths = {0, 0}, grids = {0, 0}, stores = {0, 0};
    for (uint64_t t = 1; t <= LARGEST_T; t++) {
        compare(&depths, "depth", t, MICROSCOPE_DEPTH(t), depth(t));
        compare(&grids, "bytes of a grid", t, MICROSCOPE_GRID_BYTES(ROWS, COLS, t), accepted_bytes(t));
        compare(&stores, "bytes of a store", t, MICROSCOPE_STORE_BYTES(ROWS, COLS, t), store_length(ROWS, COLS, t));
    }
    report("depth, t from 1 to 4096", depths);
    report("bytes of a grid of 2 x 4 cells, and not one less or more", grids);
    report("bytes of a store of 2 x 4 cells", stores);
}

/* What the header says of one shape, beside what the library says of its store. */
static void shape(uint64_t rows, uint64_t cols, uint64_t t) {
    printf("%" PRIu64 " x %" PRIu64 " cells, t %" PRIu64 ": grid %zu, store %zu, by the call %" PRIu64 "\n", rows, cols,
           t, MICROSCOPE_GRID_BYTES(rows, cols, t), MICROSCOPE_STORE_BYTES(rows, cols, t), store_length(rows, cols, t));
}

static void shapes(void) {
    shape(1, 2, 1);
    shape(63, 2, 1);
    shape(2, 64, 12);
    shape(128, 2, 4096);
    shape(1, 65536, 1);
    shape(8, 65536, 4095);
    shape(8, 65536, 4096);
}

/* By constants the macros are constants: the sizes of arrays that are there from the start. */
static void arrays(void) {
    static uint8_t cell[MICROSCOPE_DEPTH(12)];
    static uint8_t grid[MICROSCOPE_GRID_BYTES(2, 64, 12)];
    static uint8_t store[MICROSCOPE_STORE_BYTES(2, 64, 12)];
    microscope_sketch sketch;
    microscope_watch watch;
    uint64_t index;
    printf("static arrays, 2 x 64 cells, t 12: cell of %zu ", sizeof cell);
    print_verdict(microscope_cell_check(cell, sizeof cell, 12, 2), 0, ", cell ");
    printf(", grid of %zu ", sizeof grid);
    print_verdict(microscope_new(&sketch, &watch, 2, 64, 12, 2, MICROSCOPE_ITEMS, 1, 0, 1, grid, sizeof grid), 0, "");
    printf(", store of %zu ", sizeof store);
    print_verdict(microscope_save(&sketch, grid, sizeof grid, store, sizeof store, &index), 0, "");
    printf("\n");
}

/* ---- the version, and the words ---- */

static void words(void) {
    printf("version: %" PRIu64 " of the library, %d of the header\n", microscope_version(), MICROSCOPE_VERSION);
    for (uint64_t number = 0; number <= MICROSCOPE_LIST + 1; number++) {
        printf("%" PRIu64 ": %s\n", number, microscope_meaning(number));
    }
}

int main(void) {
    every_t();
    shapes();
    arrays();
    words();
    return 0;
}
