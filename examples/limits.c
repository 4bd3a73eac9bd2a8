/*
 * Watches fault codes from a small trace, and prints each minute those that newly reached their limit.
 *
 * examples/limits.rs is the same over the Rust wrapper and prints the same bytes.
 */
#include <inttypes.h>
#include <stdio.h>
#include <stdlib.h>

#include "microscope.h"

/* The last five minutes, by sub-windows of a minute; time stamps are in seconds. */
enum { ROWS = 4, COLS = 64, T = 5, C = 2, MINUTE = 60 };
enum { GRID_BYTES = MICROSCOPE_GRID_BYTES(ROWS, COLS, T), STORE_BYTES = MICROSCOPE_STORE_BYTES(ROWS, COLS, T) };
enum { EPOCH = 1000, SEED = 2023 };

static const char *const CODES[] = {"P0301", "P0420", "P0171", "U0100", "C1201"};
enum { CODE_COUNT = sizeof CODES / sizeof CODES[0] };

/* In items inside the window, by the Over figure. */
static const uint64_t LIMITS[CODE_COUNT] = {20, 3, 2, 250, 5};

/* At this second the code came so many times. */
struct event {
    uint64_t second;
    int code;
    int times;
};

/* U0100 comes in two bursts so far apart that the window has lost the first before the second; so does P0171. */
static const struct event TRACE[] = {
    {1003, 0, 4}, {1010, 1, 1}, {1015, 3, 30}, {1042, 0, 9}, {1059, 2, 2},  {1061, 3, 270}, {1075, 0, 12},
    {1099, 4, 1}, {1121, 0, 3}, {1140, 1, 1},  {1184, 1, 1}, {1250, 3, 40}, {1277, 4, 2},   {1490, 3, 251},
    {1545, 2, 2},
};
enum { EVENT_COUNT = sizeof TRACE / sizeof TRACE[0] };

/* The first asking is a minute after the start, the last at this second. */
enum { LAST_ASKING = 1600 };

/* A sketch with all that belongs to it. The two arrays have their size whatever the sketch and the codes. */
struct counter {
    microscope_sketch sketch;
    microscope_watch watch;
    uint8_t grid[GRID_BYTES];
    uint32_t kept_columns[MICROSCOPE_KEPT_COLUMNS];
    uint64_t kept_limits[MICROSCOPE_MOST_CODES];
};

static void accepted(uint64_t number, const char *call) {
    if (number != MICROSCOPE_ACCEPTED) {
        fprintf(stderr, "%s: refused by %" PRIu64 ": %s\n", call, number, microscope_meaning(number));
        exit(1);
    }
}

/* A key is one column a row: an FNV-1a of the row and the code, its high bits folded in. Any good hash will do. */
static void columns_of(const char *code, uint32_t key[ROWS]) {
    for (uint32_t row = 0; row < ROWS; row++) {
        uint64_t hash = (UINT64_C(14695981039346656037) ^ row) * UINT64_C(1099511628211);
        for (const char *at = code; *at != 0; at++) {
            hash = (hash ^ (uint8_t)*at) * UINT64_C(1099511628211);
        }
        key[row] = (uint32_t)(hash ^ hash >> 32) & (COLS - 1);
    }
}

/* The columns of one code stand behind those of another, and so do the limits. */
static void watch_codes(struct counter *counter) {
    uint32_t columns[CODE_COUNT * ROWS];
    for (int code = 0; code < CODE_COUNT; code++) {
        columns_of(CODES[code], columns + code * ROWS);
    }
    accepted(microscope_set_codes(&counter->sketch, &counter->watch, columns, CODE_COUNT * ROWS, LIMITS, CODE_COUNT,
                                  counter->kept_columns, counter->kept_limits),
             "set_codes");
}

static uint64_t over(const struct counter *counter, int code) {
    uint32_t key[ROWS];
    columns_of(CODES[code], key);
    microscope_figures figures;
    microscope_items items;
    accepted(microscope_estimate(&counter->sketch, key, ROWS, counter->grid, GRID_BYTES, &figures, &items), "estimate");
    return items.over;
}

/* Prints the codes that newly reached their limit. */
static void ask(struct counter *counter) {
    uint8_t list[CODE_COUNT];
    microscope_asked asked;
    accepted(microscope_ask(&counter->sketch, &counter->watch, counter->kept_columns, counter->kept_limits,
                            counter->grid, GRID_BYTES, list, sizeof list, &asked),
             "ask");
    printf("%4" PRIu64 " s:", counter->sketch.reading);
    for (size_t at = 0; at < asked.listed; at++) {
        int code = list[at];
        printf(" %s %" PRIu64 " of %" PRIu64, CODES[code], over(counter, code), LIMITS[code]);
    }
    puts(asked.listed == 0 ? " nothing new" : "");
}

/* Asks at every full minute before this second that has not been asked at. */
static void ask_before(struct counter *counter, uint64_t second, uint64_t *next) {
    for (; *next < second; *next += MINUTE) {
        microscope_change change;
        accepted(microscope_advance_to(&counter->sketch, *next, counter->grid, GRID_BYTES, &change), "advance_to");
        ask(counter);
    }
}

static void count(struct counter *counter) {
    uint64_t next = EPOCH + MINUTE;
    for (int event = 0; event < EVENT_COUNT; event++) {
        uint32_t key[ROWS];
        columns_of(CODES[TRACE[event].code], key);
        ask_before(counter, TRACE[event].second, &next);
        for (int time = 0; time < TRACE[event].times; time++) {
            microscope_change change;
            accepted(microscope_update_at(&counter->sketch, key, ROWS, TRACE[event].second, counter->grid, GRID_BYTES,
                                          &change),
                     "update_at");
        }
    }
    ask_before(counter, LAST_ASKING + 1, &next);
}

/* The sketch goes through a store, and the codes do not: a load leaves a watch with none. */
static void reload(struct counter *counter) {
    static uint8_t store[STORE_BYTES];
    uint64_t index;
    accepted(microscope_save(&counter->sketch, counter->grid, GRID_BYTES, store, sizeof store, &index), "save");
    accepted(microscope_load(&counter->sketch, &counter->watch, counter->grid, GRID_BYTES, store, sizeof store, &index),
             "load");
}

/* Too short a list, and too many codes: both leave the codes and the list as they were. */
static void refused(struct counter *counter) {
    enum { ROOM = CODE_COUNT - 1, MANY = MICROSCOPE_MOST_CODES + 1 };
    static const uint32_t columns[MANY * ROWS];
    static const uint64_t limits[MANY];
    uint8_t list[ROOM];
    microscope_asked asked;
    uint64_t number = microscope_ask(&counter->sketch, &counter->watch, counter->kept_columns, counter->kept_limits,
                                     counter->grid, GRID_BYTES, list, ROOM, &asked);
    printf("a list of %d for %d codes: refused by %" PRIu64 "\n", ROOM, CODE_COUNT, number);
    number = microscope_set_codes(&counter->sketch, &counter->watch, columns, MANY * ROWS, limits, MANY,
                                  counter->kept_columns, counter->kept_limits);
    printf("%d codes: refused by %" PRIu64 "\n", MANY, number);
}

int main(void) {
    static struct counter counter;
    accepted(microscope_new(&counter.sketch, &counter.watch, ROWS, COLS, T, C, MICROSCOPE_TIME, MINUTE, EPOCH, SEED,
                            counter.grid, GRID_BYTES),
             "new");
    watch_codes(&counter);
    count(&counter);
    refused(&counter);

    reload(&counter);
    printf("loaded, no codes\n");
    ask(&counter);
    watch_codes(&counter);
    printf("the same codes set anew\n");
    ask(&counter);
    ask(&counter);
    return 0;
}
