/*
 * Counts fault codes from a small trace, reads them, and reads them again from a store.
 *
 *   faults STORE     writes the store to that file
 *
 * examples/faults.rs is the same over the Rust wrapper and prints the same bytes.
 */
#include <inttypes.h>
#include <stdio.h>
#include <stdlib.h>

#include "microscope.h"

/* The last five minutes, by sub-windows of a minute; time stamps are in seconds. */
enum { ROWS = 4, COLS = 64, T = 5, C = 2, MINUTE = 60 };
enum { DEPTH = MICROSCOPE_DEPTH(T) };
enum { GRID_BYTES = MICROSCOPE_GRID_BYTES(ROWS, COLS, T), STORE_BYTES = MICROSCOPE_STORE_BYTES(ROWS, COLS, T) };
enum { EPOCH = 1000, SEED = 2023 };

static const char *const CODES[] = {"P0301", "P0420", "P0171", "U0100", "C1201"};
enum { CODE_COUNT = sizeof CODES / sizeof CODES[0] };

/* At this second the code came so many times. */
struct event {
    uint64_t second;
    int code;
    int times;
};

static const struct event TRACE[] = {
    {1003, 0, 4},   {1010, 1, 1},   {1015, 3, 30},  {1042, 0, 9},   {1059, 2, 2},   {1061, 3, 270}, {1075, 0, 12},
    {1099, 4, 1},   {1118, 3, 801}, {1121, 0, 3},   {1140, 1, 1},   {1166, 3, 95},  {1190, 2, 1},   {1184, 0, 5},
    {1241, 0, 700}, {1250, 3, 40},  {1277, 4, 2},   {1301, 0, 333}, {1339, 1, 1},   {1342, 3, 7},
};
enum { EVENT_COUNT = sizeof TRACE / sizeof TRACE[0] };

/* When the reading is made: half a minute after the last event. */
enum { READING_AT = 1372 };

/* A sketch with all that belongs to it. It watches no codes; examples/limits.c does. */
struct counter {
    microscope_sketch sketch;
    microscope_watch watch;
    uint8_t grid[GRID_BYTES];
};

static void accepted(uint64_t number, const char *call) {
    if (number != MICROSCOPE_ACCEPTED) {
        fprintf(stderr, "%s: refused by %" PRIu64 ": %s\n", call, number, microscope_meaning(number));
        exit(1);
    }
}

/* A key is one column a row: an FNV-1a of the row and the code, its high bits folded in. Any good hash will do. */
static void columns_of(const char *code, uint32_t key[ROWS]) {
    for (uint32_t row = 0; row < ROWS; row++) {
        uint64_t hash = (UINT64_C(14695981039346656037) ^ row) * UINT64_C(1099511628211);
        for (const char *at = code; *at != 0; at++) {
            hash = (hash ^ (uint8_t)*at) * UINT64_C(1099511628211);
        }
        key[row] = (uint32_t)(hash ^ hash >> 32) & (COLS - 1);
    }
}

static const uint8_t *cell_at(const struct counter *counter, size_t row, uint32_t col) {
    accepted(microscope_bucket_check(&counter->sketch, row, col, counter->grid, GRID_BYTES), "bucket_check");
    return counter->grid + (row * COLS + col) * DEPTH;
}

static uint64_t sub_window(const microscope_sketch *sketch) {
    return (sketch->reading - sketch->epoch) / sketch->length;
}

/*
 * Raises the M of every code to the highest zoom that its cells hold, or may hold inside the next call: one more where
 * the pixel of the present sub-window is full. An item, or a shutter closed at a crossing, zooms such a cell out, and
 * the crossing in the same call may zoom it in again, so that the zoom after that call does not tell.
 */
static void raise_peaks(const struct counter *counter, uint64_t peaks[CODE_COUNT]) {
    size_t pixel = sub_window(&counter->sketch) % (T + 2);
    uint64_t top;
    accepted(microscope_base_max_zoom(C, &top), "base_max_zoom");
    for (int code = 0; code < CODE_COUNT; code++) {
        uint32_t key[ROWS];
        columns_of(CODES[code], key);
        for (size_t row = 0; row < ROWS; row++) {
            const uint8_t *cell = cell_at(counter, row, key[row]);
            uint64_t zoom;
            accepted(microscope_cell_zoom(cell, DEPTH, T, C, &zoom), "cell_zoom");
            uint64_t held = zoom + (cell[pixel] == 255 && zoom < top);
            peaks[code] = held > peaks[code] ? held : peaks[code];
        }
    }
}

/* Gives the units that were lost on the way: once that is not 0, figures may be too low. */
static uint64_t count(struct counter *counter, uint64_t peaks[CODE_COUNT]) {
    microscope_change change;
    uint64_t lost = 0;
    for (int event = 0; event < EVENT_COUNT; event++) {
        uint32_t key[ROWS];
        columns_of(CODES[TRACE[event].code], key);
        for (int time = 0; time < TRACE[event].times; time++) {
            accepted(microscope_update_at(&counter->sketch, key, ROWS, TRACE[event].second, counter->grid, GRID_BYTES,
                                          &change),
                     "update_at");
            lost += change.lost;
            raise_peaks(counter, peaks);
        }
    }
    accepted(microscope_advance_to(&counter->sketch, READING_AT, counter->grid, GRID_BYTES, &change), "advance_to");
    raise_peaks(counter, peaks);
    return lost + change.lost;
}

/*
 * How far Over may be from the exact count: (2k - 1) x (c^M - 1), k being the sub-windows it adds up. It holds from a
 * fresh start on, without merges, while M is below the zoom that microscope_base_max_zoom gives.
 */
static uint64_t band(const microscope_sketch *sketch, uint64_t peak) {
    uint64_t n = sub_window(sketch);
    uint64_t k = (n < T ? n : T) + 1;
    uint64_t unit = 1;
    for (uint64_t level = 0; level < peak; level++) {
        unit *= C;
    }
    return (2 * k - 1) * (unit - 1);
}

static void print_figures(const struct counter *counter, const uint64_t peaks[CODE_COUNT]) {
    for (int code = 0; code < CODE_COUNT; code++) {
        uint32_t key[ROWS];
        columns_of(CODES[code], key);
        microscope_figures figures;
        microscope_items items;
        microscope_value mean;
        accepted(microscope_estimate(&counter->sketch, key, ROWS, counter->grid, GRID_BYTES, &figures, &items),
                 "estimate");
        accepted(microscope_mean(&counter->sketch, key, ROWS, counter->grid, GRID_BYTES, &mean), "mean");
        printf("%s  over %4" PRIu64 "  under %4" PRIu64 "  linear %8.3f  a minute %3" PRIu64 "  M %" PRIu64
               "  band %" PRIu64 "\n",
               CODES[code], items.over, items.under, figures.linear, mean.value, peaks[code],
               band(&counter->sketch, peaks[code]));
    }
}

static void write_store(const char *path, const struct counter *counter) {
    static uint8_t store[STORE_BYTES];
    uint64_t index;
    accepted(microscope_save(&counter->sketch, counter->grid, GRID_BYTES, store, STORE_BYTES, &index), "save");
    FILE *file = fopen(path, "wb");
    if (file == NULL || fwrite(store, 1, STORE_BYTES, file) != STORE_BYTES || fclose(file) != 0) {
        perror(path);
        exit(1);
    }
    printf("saved: %d bytes\n", STORE_BYTES);
}

static size_t read_store(const char *path, uint8_t store[STORE_BYTES]) {
    FILE *file = fopen(path, "rb");
    if (file == NULL) {
        perror(path);
        exit(1);
    }
    size_t length = fread(store, 1, STORE_BYTES, file);
    fclose(file);
    return length;
}

static uint64_t load(struct counter *counter, const uint8_t *store, size_t length) {
    uint64_t index;
    return microscope_load(&counter->sketch, &counter->watch, counter->grid, GRID_BYTES, store, length, &index);
}

int main(int argc, char **argv) {
    static struct counter counter, again;
    static uint8_t store[STORE_BYTES];
    uint64_t peaks[CODE_COUNT] = {0};
    if (argc != 2) {
        fprintf(stderr, "faults STORE\n");
        return 1;
    }

    accepted(microscope_new(&counter.sketch, &counter.watch, ROWS, COLS, T, C, MICROSCOPE_TIME, MINUTE, EPOCH, SEED,
                            counter.grid, GRID_BYTES),
             "new");
    uint64_t lost = count(&counter, peaks);
    printf("minute %" PRIu64 "  units lost %" PRIu64 "\n", sub_window(&counter.sketch), lost);
    print_figures(&counter, peaks);

    write_store(argv[1], &counter);
    size_t length = read_store(argv[1], store);
    accepted(load(&again, store, length), "load");
    print_figures(&again, peaks);

    store[700] ^= 1;
    printf("one bit changed: refused by %" PRIu64 "\n", load(&again, store, length));
    return 0;
}
