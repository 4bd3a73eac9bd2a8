/* A case of tests/pairs.c, and what stands in all that its call is lent. docs/PAIRS.md has the format. */
#ifndef PAIRS_CASE_H
#define PAIRS_CASE_H

#include "tests.h"

enum call {
    WITH_DIMENSIONS, UPDATE, UPDATE_AT, ADVANCE_TO, ESTIMATE, ESTIMATE_WITH, MEAN, BUCKET_CHECK,
    MAX_ZOOM, AUDIT, MERGE, STORE_LENGTH, SAVE, LOAD, SET_CODES, ASK, CALLS
};

/* The most that a case is lent: bytes of a grid, store or list; columns of a key; columns and limits of codes. */
enum { ROOM = 4096, KEY = 4, CODE_COLUMNS = 66 * 128, CODE_LIMITS = 66 };

/* A zoom that no cell has, and what a call that is to write finds in what it is lent: a write shows. */
enum { UNSOUND = 255, MARK = 7 };

/* ---- a case ---- */

/* The words of a case, by the table of docs/PAIRS.md; the library is for machines whose numbers have the low byte first. */
enum {
    THE_CALL = 0, NUMBER = 1, INDEX = 2, SECOND = 3, SKETCH = 4, GRID = 13, GRID_UNSOUND = 14,
    OTHER = 15, OTHER_GRID = 24, OTHER_UNSOUND = 25, WATCH = 15, LENT_COLUMNS = 18, LENT_LIMITS = 19, ALSO_UNSOUND = 20,
    COLUMNS = 26, KEY_COLUMNS = 27, ARGUMENT = 31, COLUMN = 32, STORE = 33, WORDS = 34
};

struct a_case {
    uint64_t words[WORDS];
};

static enum call call_of(const struct a_case *of) {
    return (enum call)of->words[THE_CALL];
}

/* ---- what stands in what a call is lent ---- */

/* With room for the longest of all cases. A list stands in the place of a store. */
struct content {
    microscope_sketch sketch;
    microscope_sketch other;
    microscope_watch watch;
    uint8_t grid[ROOM];
    uint8_t other_grid[ROOM];
    uint8_t store[ROOM];
    uint32_t key[KEY];
    uint32_t columns[CODE_COLUMNS];
    uint64_t limits[CODE_LIMITS];
    uint32_t kept_columns[MICROSCOPE_KEPT_COLUMNS];
    uint64_t kept_limits[MICROSCOPE_MOST_CODES];
};

/* Sketches and watches stand in a case word for word. */
static void write_structs(struct content *content, const struct a_case *of) {
    memcpy(&content->sketch, of->words + SKETCH, sizeof content->sketch);
    memcpy(&content->other, of->words + OTHER, sizeof content->other);
    memcpy(&content->watch, of->words + WATCH, sizeof content->watch);
}

/*
 * The zoom of a cell, 1 + its index (0: none), is made one that no cell has, if it stands in these bytes. The depth is the
 * header's, as t may be one that the call refuses.
 */
static void spoil(uint8_t *grid, uint64_t size, uint64_t cell, uint64_t t) {
    if (cell == 0 || cell > ROOM || t > ROOM) {
        return;
    }
    uint64_t zoom = (cell - 1) * MICROSCOPE_DEPTH(t) + zoom_at(t);
    if (zoom < size) {
        grid[zoom] = UNSOUND;
    }
}

static void write_grids(struct content *content, const struct a_case *of) {
    const uint64_t *words = of->words;
    uint64_t t = words[SKETCH + 2];
    if (call_of(of) == WITH_DIMENSIONS) {
        memset(content->grid, MARK, words[GRID]);
    }
    spoil(content->grid, words[GRID], words[GRID_UNSOUND], t);
    if (call_of(of) == MERGE) {
        spoil(content->other_grid, words[OTHER_GRID], words[OTHER_UNSOUND], words[OTHER + 2]);
    }
    if (call_of(of) == ASK) {
        spoil(content->grid, words[GRID], words[ALSO_UNSOUND], t);
    }
}

static void write_key(struct content *content, const struct a_case *of) {
    for (size_t i = 0; i < KEY; i++) {
        content->key[i] = (uint32_t)of->words[KEY_COLUMNS + i];
    }
}

/* The columns of codes: the key's, one at the place that the case has, and else 0. */
static void write_codes(uint32_t *columns, const struct content *content, const struct a_case *of) {
    memcpy(columns, content->key, of->words[COLUMNS] * sizeof content->key[0]);
    uint64_t place = of->words[ARGUMENT];
    if (place > 0) {
        columns[place - 1] = (uint32_t)of->words[COLUMN];
    }
}

static void mark_columns(struct content *content) {
    for (size_t i = 0; i < MICROSCOPE_KEPT_COLUMNS; i++) {
        content->kept_columns[i] = MARK;
    }
}

static void mark_limits(struct content *content) {
    for (size_t i = 0; i < MICROSCOPE_MOST_CODES; i++) {
        content->kept_limits[i] = MARK;
    }
}

/* All as it is before the call; the bytes of a load's store are there already. */
static void write_content(struct content *content, const struct a_case *of) {
    write_structs(content, of);
    write_grids(content, of);
    write_key(content, of);
    switch (call_of(of)) {
    case SAVE:
        memset(content->store, MARK, of->words[STORE]);
        break;
    case SET_CODES:
        write_codes(content->columns, content, of);
        mark_columns(content);
        mark_limits(content);
        break;
    case ASK:
        memset(content->store, MARK, of->words[STORE]);
        write_codes(content->kept_columns, content, of);
        break;
    default:
        break;
    }
}

#endif
