/* The calls of tests/lost.c on small sketches, whose grids are set by hand. */
#ifndef LOST_SKETCHES_H
#define LOST_SKETCHES_H

#include "lost_cells.h"

/* ---- a call ---- */

enum { UPDATE, UPDATE_AT, ADVANCE_TO, MERGE_SKETCHES, SKETCH_CALLS };

static const char *const sketch_names[SKETCH_CALLS] = {"update", "update_at", "advance_to", "merge"};

struct sketch_call {
    int call;
    uint32_t key[MOST_ROWS];
    uint64_t timestamp;
    size_t bytes;
};

/* As they are given; what is reckoned; and what the library left. */
static struct plane before, other, reckoned_plane, after;

static uint64_t make_sketch_call(const struct sketch_call *of, const uint32_t *key, uint8_t *grid, const uint8_t *merged) {
    microscope_sketch *sketch = &after.sketch;
    switch (of->call) {
    case UPDATE:
        return microscope_update(sketch, key, before.sketch.rows, grid, of->bytes, &told);
    case UPDATE_AT:
        return microscope_update_at(sketch, key, before.sketch.rows, of->timestamp, grid, of->bytes, &told);
    case ADVANCE_TO:
        return microscope_advance_to(sketch, of->timestamp, grid, of->bytes, &told);
    default:
        return microscope_merge(sketch, grid, of->bytes, &other.sketch, merged, of->bytes, &told);
    }
}

static void reckon_sketch(const struct sketch_call *of) {
    begin(before.sketch.state);
    reckoned_plane = before;
    switch (of->call) {
    case UPDATE:
        update(&reckoned_plane, of->key);
        break;
    case UPDATE_AT:
        update_at(&reckoned_plane, of->key, of->timestamp);
        break;
    case ADVANCE_TO:
        advance(&reckoned_plane, of->timestamp);
        break;
    default:
        merge_grids(&reckoned_plane, &other);
        break;
    }
    reckoned_plane.sketch.state = reckoned.state;
}

/* Rows, cols, t, c, kind, length and epoch: the seven words before the reading. */
static bool same_settings(const microscope_sketch *one, const microscope_sketch *another) {
    return same_bytes(one, another, offsetof(microscope_sketch, reading));
}

static void try_sketch_call(const struct sketch_call *of, struct answer right) {
    uint8_t *grid = exact_copy(before.grid, of->bytes), *merged = exact_copy(other.grid, of->bytes);
    uint32_t *key = exact_copy(of->key, before.sketch.rows * sizeof of->key[0]);
    microscope_sketch others = other.sketch;
    after.sketch = before.sketch;
    memset(&told, 165, sizeof told);
    struct answer came = {.number = make_sketch_call(of, key, grid, merged), .bytes = grid};
    came.change = told;
    came.reading = after.sketch.reading;
    came.state = after.sketch.state;
    came.wrote = !same_settings(&after.sketch, &before.sketch) || !same_bytes(&others, &other.sketch, sizeof others) ||
                 !same_bytes(merged, other.grid, of->bytes) || !same_bytes(key, of->key, before.sketch.rows * sizeof of->key[0]);
    shown.name = sketch_names[of->call];
    shown.rows = before.sketch.rows;
    shown.cols = before.sketch.cols;
    shown.n = n_of(&before.sketch);
    shown.by = of->timestamp;
    shown.key = of->call == UPDATE || of->call == UPDATE_AT ? of->key : NULL;
    shown.bytes = before.grid;
    shown.others = of->call == MERGE_SKETCHES ? other.grid : NULL;
    compare(&came, &right, of->bytes, before.sketch.state);
    memcpy(after.grid, grid, of->bytes);
    free(grid);
    free(merged);
    free(key);
}

/* The items of the cells of a key, or of all cells. */
static uint64_t total_of_key(struct plane *plane, const uint32_t *key) {
    uint64_t items = 0;
    for (size_t row = 0; row < plane->sketch.rows; row++) {
        items += total_of(cell_at(plane, row * plane->sketch.cols + key[row]));
    }
    return items;
}

static uint64_t total_of_all(struct plane *plane) {
    uint64_t items = 0;
    for (size_t i = 0; i < cells_of(plane); i++) {
        items += total_of(cell_at(plane, i));
    }
    return items;
}

static bool same_zooms(struct plane *one, struct plane *another) {
    for (size_t i = 0; i < cells_of(one); i++) {
        if (zoom_of(cell_at(one, i)) != zoom_of(cell_at(another, i))) {
            return false;
        }
    }
    return true;
}

static bool any_at_ceiling(struct plane *plane) {
    for (size_t i = 0; i < cells_of(plane); i++) {
        if (zoom_of(cell_at(plane, i)) == max_zoom) {
            return true;
        }
    }
    return false;
}

/* As of one cell. Only a cell at the ceiling loses, so a unit is c^max_zoom items whatever the other cells' zooms are. */
static void sketch_laws(const struct sketch_call *of) {
    uint64_t lost_items = unit(max_zoom) * told.lost;
    bool records = of->call == UPDATE || of->call == UPDATE_AT, merges = of->call == MERGE_SKETCHES;
    if (records && n_of(&after.sketch) == n_of(&before.sketch) && same_zooms(&before, &after)) {
        law(total_of_key(&after, of->key) + lost_items == total_of_key(&before, of->key) + before.sketch.rows);
    }
    if (merges && same_zooms(&before, &other) && same_zooms(&before, &after)) {
        law(total_of_all(&after) + lost_items == total_of_all(&before) + total_of_all(&other));
    }
    if (!any_at_ceiling(merges ? &after : &before)) {
        law(told.lost == 0);
    }
}

/* The next call goes on from what is right. */
static void try_sketch(const struct sketch_call *of) {
    reckon_sketch(of);
    notice(false, before.sketch.rows);
    try_sketch_call(of, (struct answer){.reading = reckoned_plane.sketch.reading,
                                        .state = reckoned.state,
                                        .change = {0, reckoned.draws, reckoned.lost},
                                        .bytes = reckoned_plane.grid});
    sketch_laws(of);
    score.in_rows[reckoned.dropped]++;
    score.several_closed += reckoned.drops_closing > 1;
    score.far_jumps += n_of(&reckoned_plane.sketch) - n_of(&before.sketch) >= t + 2;
    before = reckoned_plane;
}

/* ---- refused calls on a sketch ---- */

/* A cell's zoom becomes one that no cell has. */
static void make_unsound(struct plane *plane, size_t index) {
    cell_at(plane, index)[zoom_at(t)] = (uint8_t)(max_zoom + 1);
}

/* Another c, length or n in the sketch that is merged in. */
static uint64_t spoil_other(uint64_t kind) {
    switch (kind) {
    case 0:
        other.sketch.c = c == 2 ? 3 : 2;
        return MICROSCOPE_SHAPES;
    case 1:
        other.sketch.length++;
        return MICROSCOPE_FRAMES;
    default:
        other.sketch.reading = other.sketch.epoch;
        return n_of(&other.sketch) == n_of(&before.sketch) ? 0 : MICROSCOPE_SUB_WINDOWS;
    }
}

static uint64_t spoil_sketch(struct sketch_call *of, uint64_t *index) {
    bool keyed = of->call == UPDATE || of->call == UPDATE_AT;
    uint64_t row = chosen(before.sketch.rows);
    switch (chosen(5)) {
    case 0:
        before.sketch.state = 0;
        return MICROSCOPE_STATE;
    case 1:
        of->bytes--;
        return MICROSCOPE_BYTES;
    case 2:
        of->key[row] = (uint32_t)before.sketch.cols;
        return keyed ? MICROSCOPE_COLUMNS : 0;
    case 3:
        if (of->call == MERGE_SKETCHES) {
            return spoil_other(chosen(3));
        }
        before.sketch.kind = 1 - before.sketch.kind;
        return MICROSCOPE_CLOCK_KIND;
    default:
        *index = row * before.sketch.cols + of->key[row];
        make_unsound(of->call == MERGE_SKETCHES && chosen(2) == 0 ? &other : &before, *index);
        /* An advance judges the grid only where it crosses. */
        return of->call != ADVANCE_TO || n_of(&reckoned_plane.sketch) != n_of(&before.sketch) ? MICROSCOPE_UNSOUND : 0;
    }
}

/* The same call as it would be refused. What it is given stays what it was. */
static void try_refused(struct sketch_call of) {
    struct plane kept = before, others = other;
    uint64_t index = 0;
    reckon_sketch(&of);
    uint64_t number = spoil_sketch(&of, &index);
    if (number > 0) {
        notice(true, kept.sketch.rows);
        try_sketch_call(&of, (struct answer){.number = number,
                                             .reading = before.sketch.reading,
                                             .state = before.sketch.state,
                                             .change = {index, 0, 0},
                                             .bytes = before.grid});
    }
    before = kept;
    other = others;
}

/* ---- which sketches ---- */

/* Most cells at the ceiling, or none. */
static void some_grid(struct plane *plane, bool below) {
    for (size_t i = 0; i < cells_of(plane); i++) {
        uint64_t zoom = some_zoom();
        some_cell(cell_at(plane, i), below ? max_zoom - 1 : zoom);
    }
}

/* One that is merged in: half of them with the same zooms. */
static void some_other(void) {
    other = before;
    other.sketch.state = some_state();
    bool alike = chosen(2) == 0;
    for (size_t i = 0; i < cells_of(&other); i++) {
        uint64_t zoom = alike ? zoom_of(cell_at(&before, i)) : some_zoom();
        some_cell(cell_at(&other, i), zoom);
    }
}

/* Where it stands the clock is set by hand, as the grid is: at its start, further on, or close to its end. */
static void some_sketch(uint64_t kind) {
    static const uint8_t windows[] = {1, 2, 3, 12};
    microscope_watch watch;
    uint64_t window = windows[chosen(sizeof windows)];
    uint64_t rows = 1 + chosen(MOST_ROWS), cols = UINT64_C(2) << chosen(2), length = 1 + chosen(3), epoch = chosen(5);
    settle(window, some_base());
    memset(&before, 0, sizeof before);
    microscope_new(&before.sketch, &watch, rows, cols, t, c, kind, length, epoch, 1, before.grid, rows * cols * depth());
    uint64_t place = chosen(1000);
    before.sketch.reading = chosen(4) == 0 ? UINT64_MAX - place % 50 : place;
    before.sketch.state = some_state();
    some_grid(&before, chosen(5) == 0);
}

/* Older, the same, within the sub-window, by some sub-windows, far; never past the last of all times. */
static uint64_t some_timestamp(void) {
    uint64_t now = before.sketch.reading, left_over = UINT64_MAX - now, kind = chosen(6);
    uint64_t by = kind == 0 ? 0 : kind < 5 ? chosen((t + 3) * before.sketch.length) : chance();
    if (kind == 1) {
        return now < by ? 0 : now - by;
    }
    return now + (by < left_over ? by : left_over);
}

/* At the ceiling and full to the brim: an item, a closed shutter that rounds up and a merge each lose. */
static void brim(uint8_t *cell) {
    fill(cell, max_zoom, unit(max_zoom) - 1, FULL);
}

/* Between calls: cells as they are, an item short of a unit, or brimming. */
static void refill(void) {
    for (size_t i = 0; i < cells_of(&before); i++) {
        uint8_t *cell = cell_at(&before, i);
        uint64_t kind = chosen(4);
        if (kind == 0) {
            set_shutter(cell, unit(zoom_of(cell)) - 1);
        } else if (kind == 1 && any_at_ceiling(&before)) {
            brim(cell);
        }
    }
}

static void print_sketches(const char *what) {
    print_score(what);
    printf("  an item lost in 1 row: %u, in 2: %u, in 3: %u; a crossing in several cells: %u; far jumps: %u\n", score.in_rows[1],
           score.in_rows[2], score.in_rows[3], score.several_closed, score.far_jumps);
    next_part();
}

/* Three rows of two cells at the ceiling. A choice of them brims, cell i by the bit of 2^i; the others can take one unit more. */
static void choice_sketch(uint64_t kind, uint64_t length, unsigned brims) {
    microscope_watch watch;
    memset(&before, 0, sizeof before);
    microscope_new(&before.sketch, &watch, 3, 2, t, c, kind, length, 0, 1, before.grid, 6 * depth());
    before.sketch.state = some_state();
    for (size_t i = 0; i < 6; i++) {
        brim(cell_at(&before, i));
        if ((brims >> i & 1) == 0) {
            cell_at(&before, i)[0] = FULL - 1;
        }
    }
    other = before;
}

/* An item within sub-window 0, and one that ends it; the same by time; time alone, by one and far; a merge with a copy. */
static void each_choice(unsigned brims) {
    static const struct {
        int call;
        uint64_t kind, length, timestamp;
    } calls[] = {
        {UPDATE, MICROSCOPE_ITEMS, 9, 0},        {UPDATE, MICROSCOPE_ITEMS, 1, 0},
        {UPDATE_AT, MICROSCOPE_TIME, 1, 0},      {UPDATE_AT, MICROSCOPE_TIME, 1, 1},
        {ADVANCE_TO, MICROSCOPE_TIME, 1, 1},     {ADVANCE_TO, MICROSCOPE_TIME, 1, 9},
        {MERGE_SKETCHES, MICROSCOPE_TIME, 1, 0},
    };
    for (size_t i = 0; i < sizeof calls / sizeof calls[0]; i++) {
        choice_sketch(calls[i].kind, calls[i].length, brims);
        try_sketch(&(struct sketch_call){calls[i].call, {0, 1, 0}, calls[i].timestamp, grid_bytes(&before)});
    }
}

static void every_choice(void) {
    for (uint64_t base = 2; base <= 256; base++) {
        settle(1, base);
        for (unsigned brims = 0; brims < 64; brims++) {
            each_choice(brims);
        }
    }
    print_sketches("sketches, every base and choice of brimming cells");
}

/* Six calls one after another on each sketch; beside each of them it is tried once with a cause to refuse it. */
static void sketches(int call, unsigned times) {
    for (; times > 0; times--) {
        some_sketch(call == UPDATE || (call == MERGE_SKETCHES && chosen(2) == 0) ? MICROSCOPE_ITEMS : MICROSCOPE_TIME);
        for (unsigned i = 0; i < 6; i++) {
            struct sketch_call of = {.call = call, .timestamp = some_timestamp(), .bytes = grid_bytes(&before)};
            for (size_t row = 0; row < MOST_ROWS; row++) {
                of.key[row] = (uint32_t)chosen(before.sketch.cols);
            }
            if (call == MERGE_SKETCHES) {
                some_other();
            }
            try_refused(of);
            try_sketch(&of);
            refill();
        }
    }
}

#endif
