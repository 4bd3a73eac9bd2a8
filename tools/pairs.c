// Writes the cases of tests/pairs.data to standard output (docs/PAIRS.md). Written from document 01's words
// ("Turning a call back", "Audit and block store") and document 02's T-01; nothing here comes from our own code.
//
// A good call is spoiled once for each cause of a case. The causes of a call stand in a list, in the order of the table, where
// 19 and 20 stand after 7 and before 14 (of a load: in its own order), so the answer is the number of the one that stands
// first. No test of a call finds it.
#include <stdbool.h>
#include <stdint.h>
#include <stdio.h>
#include <stdlib.h>
#include <string.h>

enum call {
    WITH_DIMENSIONS, UPDATE, UPDATE_AT, ADVANCE_TO, ESTIMATE, ESTIMATE_WITH, MEAN,
    BUCKET_CHECK, MAX_ZOOM, AUDIT, MERGE, STORE_LENGTH, SAVE, LOAD, SET_CODES, ASK
};

enum { WORDS = 34, ROOM = 4096, BLOCK = 512, PAYLOAD = 504, MOST_COLUMNS = 4, MOST_CODES = 64 };

static const uint64_t longest = UINT64_C(1) << 53;

// Fractions, by the bits of an f64: 1.5, the next above 1, -0.1, a NaN; and in range 0, -0.0, 0.5 and 1.
static const uint64_t above = UINT64_C(0x3FF8000000000000), just_above = UINT64_C(0x3FF0000000000001),
    below = UINT64_C(0xBFB999999999999A), not_a_number = UINT64_C(0x7FF8000000000000), zero = 0,
    minus_zero = UINT64_C(0x8000000000000000), half = UINT64_C(0x3FE0000000000000), one = UINT64_C(0x3FF0000000000000);

struct sketch {
    uint64_t rows, cols, t, c, kind, length, epoch, reading, state;
};

// Which cell is unsound: the key's in its first or last row, the grid's first or last, or the second of the second row.
enum place { NO_CELL, KEY_FIRST, KEY_LAST, FIRST_CELL, LAST_CELL, ROW_1_COL_1 };

// A sketch, and how its grid is spoiled.
struct side {
    struct sketch sketch;
    int off; // so many bytes more than rows * cols * depth
    enum place unsound;
};

// A call: `first` alone but for a merge, where it receives, and an asking, whose grid may have an unsound cell by `second` too.
struct trial {
    enum call call;
    struct side first, second;
    bool crosses;    // the clock goes on into a later sub-window
    bool n_differs;  // merge
    int more_columns; // the key has so many columns more than rows
    bool wide_first, wide_last; // the column of that row is cols
    bool old;        // n >= t
    uint64_t fraction; // its bits
    uint64_t seed;   // with_dimensions
    uint64_t time;   // 0: one after the reading, or where the clock crosses
    bool row_past, row_most, col_past; // bucket_check
    int store_off;   // save: so many bytes more than the exact length
    bool no_store;   // save: an empty one
    // load
    uint32_t form;
    int more_blocks;
    int zero_at;     // a byte of the header's payload that must be 0 and is not; 0: none
    bool fill_first, fill_last;
    bool sum_first, sum_last, number_first, number_last;
    int more_bytes;  // behind the blocks
    int cut_to;      // -1: whole
    // set_codes, ask
    uint64_t codes;  // so many are given, or kept
    bool wide_code;  // the last column of the last code is cols
    bool wide_behind; // ask: the column behind the last code's is cols
    int more_codes;  // set_codes: there are columns for so many codes more
    bool no_limits;  // set_codes: columns alone
    int kept_rows;   // ask: the codes were set for so many rows more
    int list_off;    // ask: the list has so many bytes more than there are codes
    bool no_list;    // ask: an empty one
};

// THE SPOILING: `s` is the sketch that is spoiled.
typedef void spoil(struct trial *c, struct side *s);

#define SPOIL(name, what) \
    static void name(struct trial *c, struct side *s) { (void)c; (void)s; what; }

SPOIL(t_0, s->sketch.t = 0)
SPOIL(t_more, s->sketch.t = 4097)
SPOIL(c_1, s->sketch.c = 1)
SPOIL(c_more, s->sketch.c = 257)
SPOIL(length_0, s->sketch.length = 0)
SPOIL(length_more, s->sketch.length = longest + 1)
SPOIL(rows_0, s->sketch.rows = 0)
SPOIL(rows_most, s->sketch.rows = UINT64_C(1) << 63) // times cols is 2^64 or more
SPOIL(cols_1, s->sketch.cols = 1)
SPOIL(cols_3, s->sketch.cols = 3)
SPOIL(cols_more, s->sketch.cols = 131072)
SPOIL(state_0, s->sketch.state = 0)
SPOIL(grid_short, s->off = -1)
SPOIL(grid_long, s->off = 1)
SPOIL(column_first, c->wide_first = true)
SPOIL(column_last, c->wide_last = true)
SPOIL(key_long, c->more_columns = 1)
SPOIL(key_short, c->more_columns = -1)
SPOIL(row_past, c->row_past = true)
SPOIL(row_most, c->row_most = true)
SPOIL(col_past, c->col_past = true)
SPOIL(other_clock, s->sketch.kind = 1 - s->sketch.kind)
SPOIL(rows_differ, s->sketch.rows -= 1)
SPOIL(cols_differ, s->sketch.cols *= 2)
SPOIL(t_differs, s->sketch.t += 1)
SPOIL(c_differs, s->sketch.c += 1)
SPOIL(length_differs, s->sketch.length += 1)
SPOIL(epoch_differs, s->sketch.epoch += 4)
SPOIL(n_differs, c->n_differs = true)
SPOIL(fraction_above, c->old = true; c->fraction = above)
SPOIL(fraction_just_above, c->old = true; c->fraction = just_above)
SPOIL(fraction_below, c->old = true; c->fraction = below)
SPOIL(fraction_nan, c->old = true; c->fraction = not_a_number)
SPOIL(unsound_key_first, s->unsound = KEY_FIRST)
SPOIL(unsound_key_last, s->unsound = KEY_LAST)
SPOIL(unsound_first, s->unsound = FIRST_CELL)
SPOIL(unsound_last, s->unsound = LAST_CELL)
SPOIL(unsound_receiving_first, c->first.unsound = FIRST_CELL)
SPOIL(unsound_receiving_last, c->first.unsound = LAST_CELL)
SPOIL(unsound_merged_first, c->second.unsound = FIRST_CELL)
SPOIL(unsound_merged_last, c->second.unsound = LAST_CELL)
SPOIL(unsound_both, c->first.unsound = LAST_CELL; c->second.unsound = FIRST_CELL)
SPOIL(unsound_both_ways, c->first.unsound = FIRST_CELL; c->second.unsound = LAST_CELL)
SPOIL(store_byte_short, c->store_off = -1)
SPOIL(store_byte_long, c->store_off = 1)
SPOIL(store_block_short, c->store_off = -BLOCK)
SPOIL(store_block_long, c->store_off = BLOCK)
SPOIL(store_empty, c->no_store = true)
SPOIL(load_byte_short, c->more_bytes = -1)
SPOIL(load_byte_long, c->more_bytes = 1)
SPOIL(load_511, c->cut_to = 511)
SPOIL(load_1, c->cut_to = 1)
SPOIL(load_empty, c->cut_to = 0)
SPOIL(sum_first, c->sum_first = true)
SPOIL(sum_last, c->sum_last = true)
SPOIL(number_first, c->number_first = true)
SPOIL(number_last, c->number_last = true)
SPOIL(form_0, c->form = 0)
SPOIL(form_2, c->form = 2)
SPOIL(kind_2, s->sketch.kind = 2)
SPOIL(zero_first, c->zero_at = 56)
SPOIL(zero_last, c->zero_at = PAYLOAD - 1)
SPOIL(counted_epoch, s->sketch.kind = 0; s->sketch.epoch = 1)
SPOIL(block_more, c->more_blocks = 1)
SPOIL(block_fewer, c->more_blocks = -1)
SPOIL(fill_first, c->fill_first = true)
SPOIL(fill_last, c->fill_last = true)
SPOIL(code_wide, c->wide_code = true)
SPOIL(code_more, c->more_codes = 1)
SPOIL(code_fewer, c->more_codes = -1)
SPOIL(no_limits, c->no_limits = true)
SPOIL(kept_for_more, c->kept_rows = 1)
SPOIL(kept_for_fewer, c->kept_rows = -1)
SPOIL(codes_65, c->codes = MOST_CODES + 1)
SPOIL(list_short, c->list_off = -1)
SPOIL(list_empty, c->no_list = true)
// two codes' cells: a later one's stands before the first one's in the grid, or behind it
SPOIL(unsound_before, s->unsound = KEY_FIRST; c->second.unsound = FIRST_CELL)
SPOIL(unsound_behind, s->unsound = KEY_FIRST; c->second.unsound = LAST_CELL)

struct cause {
    int number;
    spoil *spoil;
};

// THE ORDER: each list has the table's. Causes of one number that stand together are several ways to it; 0 ends a list.
#define SETTINGS \
    {1, t_0}, {1, t_more}, {2, c_1}, {2, c_more}, {3, length_0}, {3, length_more}, {4, rows_0}, {4, rows_most}, \
    {4, cols_1}, {4, cols_3}, {4, cols_more}
#define STATE {5, state_0}
#define GRID {6, grid_short}, {6, grid_long}
#define KEY {7, column_first}, {7, column_last}, {7, key_long}, {7, key_short}
#define KEY_CELLS {14, unsound_key_first}, {14, unsound_key_last}
#define ALL_CELLS {14, unsound_first}, {14, unsound_last}
#define END {0, NULL}

static const struct cause of_start[] = {SETTINGS, GRID, END};
static const struct cause of_item[] = {SETTINGS, STATE, GRID, KEY, {8, other_clock}, KEY_CELLS, END};
static const struct cause of_crossing_item[] = {SETTINGS, STATE, GRID, KEY, {8, other_clock}, KEY_CELLS, ALL_CELLS, END};
static const struct cause of_advance[] = {SETTINGS, STATE, GRID, {8, other_clock}, ALL_CELLS, END};
static const struct cause of_reading[] = {SETTINGS, STATE, GRID, KEY, KEY_CELLS, END};
static const struct cause of_reading_with[] = {
    SETTINGS, STATE, GRID, KEY, {13, fraction_above}, {13, fraction_just_above}, {13, fraction_below}, {13, fraction_nan},
    KEY_CELLS, END};
static const struct cause of_bucket[] = {SETTINGS, STATE, GRID, {7, row_past}, {7, row_most}, {7, col_past}, END};
static const struct cause of_highest[] = {SETTINGS, STATE, GRID, ALL_CELLS, END};
static const struct cause of_audit[] = {SETTINGS, STATE, GRID, END};
static const struct cause of_length[] = {SETTINGS, STATE, END};
static const struct cause of_save[] = {
    SETTINGS, STATE, GRID, ALL_CELLS, {16, store_byte_short}, {16, store_byte_long}, {16, store_block_short},
    {16, store_block_long}, {16, store_empty}, END};

// A merge: the first six numbers on either side, then these.
static const struct cause of_either[] = {SETTINGS, STATE, GRID, END};
static const struct cause of_both[] = {
    {10, rows_differ}, {10, cols_differ}, {10, t_differs}, {10, c_differs},
    {11, other_clock}, {11, length_differs}, {11, epoch_differs}, {12, n_differs},
    {14, unsound_receiving_first}, {14, unsound_receiving_last}, {14, unsound_merged_first}, {14, unsound_merged_last},
    {14, unsound_both}, {14, unsound_both_ways}, END};

// A load's own order: 16 17 18 1 2 3 4 5 16 18 6 14.
static const struct cause of_load[] = {
    {16, load_byte_short}, {16, load_byte_long},
    {17, sum_first}, {17, sum_last}, {17, number_first}, {17, number_last},
    {18, form_0}, {18, form_2}, {18, kind_2}, {18, zero_first}, {18, zero_last}, {18, counted_epoch},
    {1, t_0}, {1, t_more}, {2, c_1}, {2, c_more}, {3, length_0}, {3, length_more},
    {4, rows_0}, {4, cols_1}, {4, cols_3}, {4, cols_more}, {5, state_0},
    {16, block_more}, {16, block_fewer}, {18, fill_first}, {18, fill_last},
    {6, grid_short}, {6, grid_long}, {14, unsound_first}, {14, unsound_last}, END};

// Document 02, T-01: 19 and 20 stand after 7 and before 14. A setting is lent no grid, and judges no cell.
static const struct cause of_setting[] = {
    SETTINGS, STATE, KEY, {7, code_wide}, {7, code_more}, {7, code_fewer}, {7, no_limits}, {19, codes_65}, END};
static const struct cause of_asking[] = {
    SETTINGS, STATE, GRID, {7, kept_for_more}, {7, kept_for_fewer}, {7, column_first}, {7, column_last}, {7, code_wide},
    {19, codes_65}, {20, list_short}, {20, list_empty}, KEY_CELLS, ALL_CELLS, {14, unsound_before}, {14, unsound_behind}, END};

// THE GOOD CALLS
static const struct sketch counting = {2, 4, 1, 2, 0, 4, 0, 5, 0x0123456789ABCDEF};
static const struct sketch timed = {3, 2, 2, 3, 1, 4, 100, 105, 77};
// A grid of 512 bytes, so three blocks.
static const struct sketch stored = {1, 64, 1, 2, 0, 4, 0, 5, 11};

static struct trial good(enum call call, struct sketch sketch)
{
    struct trial c = {.call = call, .fraction = half, .seed = 1, .form = 1, .cut_to = -1, .codes = 3};
    c.first.sketch = sketch;
    c.second.sketch = sketch;
    c.second.sketch.state = 5;
    return c;
}

// WHAT FOLLOWS FROM A SKETCH

// Document 01's depth, here once more: the library is held to its words, so nothing is asked of the library.
static uint64_t depth_of(const struct sketch *s)
{
    return (s->t + 7 + 3) / 4 * 4;
}

// Whether its grid is too large for a case: it is then lent 64 bytes, so 6 applies as well.
static bool large(const struct sketch *s)
{
    return s->rows > ROOM || s->cols > ROOM || s->rows * s->cols * depth_of(s) > ROOM - 1;
}

static uint64_t grid_of(const struct sketch *s)
{
    return large(s) ? 64 : s->rows * s->cols * depth_of(s);
}

static uint64_t blocks_of(const struct sketch *s)
{
    return 1 + (grid_of(s) + PAYLOAD - 1) / PAYLOAD;
}

struct key {
    uint64_t count, column[MOST_COLUMNS];
};

// One column a row (the same two for a sketch of too many rows), then spoiled. False if there is nothing to spoil.
static bool key_of(const struct trial *c, struct key *key)
{
    const struct sketch *s = &c->first.sketch;
    uint64_t rows = s->rows < MOST_COLUMNS ? s->rows : 2;
    *key = (struct key){.count = rows};
    key->column[0] = rows > 0 && s->cols > 1;
    if (rows == 0 && (c->wide_first || c->wide_last || c->more_columns < 0))
        return false;
    if (c->wide_first)
        key->column[0] = s->cols;
    if (c->wide_last)
        key->column[rows - 1] = s->cols;
    key->count = rows + (uint64_t)c->more_columns;
    return true;
}

// 1 + the index of the unsound cell, 0 if all are sound. False if there is no such cell.
static bool unsound_of(const struct side *side, const struct key *key, uint64_t *cell)
{
    const struct sketch *s = &side->sketch;
    uint64_t index = 0, last = s->rows - 1;
    *cell = 0;
    if (side->unsound == NO_CELL)
        return true;
    if (s->rows == 0)
        return false;
    if (large(s) && (side->unsound == KEY_LAST || side->unsound == LAST_CELL))
        return false;
    if (side->unsound == KEY_FIRST) {
        if (key->count == 0 || key->column[0] >= s->cols)
            return false;
        index = key->column[0];
    }
    if (side->unsound == KEY_LAST) {
        if (key->count <= last || key->column[last] >= s->cols)
            return false;
        index = last * s->cols + key->column[last];
    }
    if (side->unsound == LAST_CELL)
        index = s->rows * s->cols - 1;
    if (side->unsound == ROW_1_COL_1)
        index = s->cols + 1;
    *cell = index + 1;
    return index * depth_of(s) + s->t + 2 < grid_of(s);
}

struct codes {
    uint64_t columns, limits, wide_at, wide; // so many are lent; one of the columns
    uint64_t kept, rows, room;               // asking: so many are kept, for so many rows; the bytes of the list
};

// The first code is the key. The columns of the others are 0, but for the last one of the last code, which is the last of its
// row: so the grid's first cell is a later code's, and its last the last one's. False if there is nothing to spoil.
static bool codes_of(const struct trial *c, struct codes *codes)
{
    const struct sketch *s = &c->first.sketch;
    // the same two for a sketch of too many rows
    uint64_t rows = s->rows <= 129 ? s->rows : 2;
    uint64_t looked_at = c->call == ASK && c->codes > MOST_CODES ? MOST_CODES : c->codes;
    bool last_unsound = c->first.unsound == LAST_CELL || c->second.unsound == LAST_CELL;
    if (rows == 0 && (c->wide_code || c->more_codes != 0 || c->no_limits || c->kept_rows < 0))
        return false;
    // no limits are not too many, and a column past the row has no cell
    if ((c->no_limits && c->codes > MOST_CODES) || (c->wide_code && last_unsound))
        return false;
    codes->columns = (c->codes + (uint64_t)c->more_codes) * rows + (uint64_t)c->more_columns;
    codes->limits = c->no_limits ? 0 : c->codes;
    codes->wide_at = looked_at * rows + c->wide_behind;
    codes->wide = c->wide_code || c->wide_behind ? s->cols : s->cols - 1;
    codes->kept = c->codes;
    codes->rows = s->rows + (uint64_t)c->kept_rows;
    // more codes than any list has bytes are lent what the 65 are
    codes->room = (c->codes > MOST_CODES ? MOST_CODES + 1 : c->codes) + (uint64_t)c->list_off;
    if (c->no_list)
        codes->room = 0;
    return true;
}

// The clock is set to what the call needs of it. False if it cannot be: a sub-window of length 0 has no number.
static bool set_clocks(struct trial *c)
{
    struct sketch *s = &c->first.sketch, *o = &c->second.sketch;
    bool numbered = s->length > 0;
    // a clock of items has no epoch
    if (s->kind == 0 && c->call != LOAD) {
        s->reading -= s->epoch;
        s->epoch = 0;
    }
    if (o->kind == 0)
        o->epoch = 0;
    if (c->time == 0)
        c->time = s->reading + 1;
    if (c->call == MERGE) {
        s->reading = s->epoch + 2 * s->length + 1;
        o->reading = o->epoch + (c->n_differs ? 3 : 2) * o->length;
        return !c->n_differs || (numbered && o->length > 0);
    }
    if (c->old) {
        s->reading = s->epoch + s->length * (s->t + 1);
        return numbered;
    }
    if (!c->crosses)
        return true;
    // a call for the other kind of clock crosses nothing
    bool whole = c->first.unsound == FIRST_CELL || c->first.unsound == LAST_CELL;
    if (!numbered || s->kind != (c->call != UPDATE))
        return !whole;
    if (c->call == UPDATE)
        s->reading = 2 * s->length - 1;
    else
        c->time = s->epoch + 2 * s->length;
    return true;
}

// THE STORE OF A LOAD, by document 01's "Audit and block store"
static void put(uint8_t *at, uint64_t value, int bytes)
{
    for (int i = 0; i < bytes; i++)
        at[i] = (uint8_t)(value >> 8 * i);
}

static void seal(uint8_t *block, uint64_t number)
{
    uint64_t sum = 0;
    put(block, number, 4);
    for (uint64_t i = 0; i < 508; i++)
        sum += block[i] * (i + 1);
    put(block + 508, sum, 4);
}

static uint8_t *stored_byte(uint8_t *store, uint64_t at)
{
    return store + BLOCK * (1 + at / PAYLOAD) + 4 + at % PAYLOAD;
}

static void put_header(uint8_t *payload, const struct trial *c)
{
    const struct sketch *s = &c->first.sketch;
    put(payload, c->form, 4);
    put(payload + 4, s->rows, 4);
    put(payload + 8, s->cols, 4);
    put(payload + 12, s->t, 4);
    put(payload + 16, s->c, 4);
    put(payload + 20, s->kind, 4);
    put(payload + 24, s->length, 8);
    put(payload + 32, s->epoch, 8);
    put(payload + 40, s->reading, 8);
    put(payload + 48, s->state, 8);
    if (c->zero_at > 0)
        payload[c->zero_at] = 1;
}

// Pixel 0 of each cell is not 0, so that a grid that is written shows.
static void put_cells(uint8_t *store, const struct sketch *s, uint64_t unsound)
{
    uint64_t depth = depth_of(s);
    for (uint64_t at = 0; at + depth <= grid_of(s); at += depth)
        *stored_byte(store, at) = (uint8_t)(1 + at / depth);
    if (unsound > 0)
        *stored_byte(store, (unsound - 1) * depth + s->t + 2) = 255;
}

// The length of the store; 0 and false if there is nothing to spoil.
static bool store_of(const struct trial *c, uint64_t unsound, uint8_t *store, uint64_t *length)
{
    const struct sketch *s = &c->first.sketch;
    uint64_t grid = grid_of(s), exact = blocks_of(s), blocks = exact + (uint64_t)c->more_blocks;
    uint64_t fill = (exact - 1) * PAYLOAD;
    bool cut = c->more_bytes < 0;
    memset(store, 0, 2 * ROOM);
    if (blocks == 0)
        return false;
    put_header(store + 4, c);
    put_cells(store, s, unsound);
    if (c->fill_first || c->fill_last) {
        // the fill's block is there, whole
        if (large(s) || grid == fill || c->more_blocks < 0 || cut)
            return false;
        *stored_byte(store, c->fill_first ? grid : fill - 1) = 1;
    }
    // the unsound cell's block is there, whole
    if (unsound > 0 && (unsound * depth_of(s) - 1) / PAYLOAD + 1 + cut >= blocks)
        return false;
    for (uint64_t i = 0; i < blocks; i++)
        seal(store + BLOCK * i, i);
    // block 0 is whole
    if (cut && blocks == 1)
        return false;
    uint8_t *last = store + BLOCK * (blocks - 1 - cut);
    if (c->sum_first)
        store[508] += 1;
    if (c->sum_last)
        last[511] += 1;
    if (c->number_first)
        seal(store, 1);
    if (c->number_last)
        seal(last, blocks);
    *length = BLOCK * blocks + (uint64_t)c->more_bytes;
    if (c->cut_to >= 0)
        *length = (uint64_t)c->cut_to;
    return *length <= ROOM;
}

// A CASE IS WRITTEN: number, the index beside 14, the other number of the pair.
static void put_sketch(uint64_t *words, const struct sketch *s)
{
    uint64_t all[] = {s->rows, s->cols, s->t, s->c, s->kind, s->length, s->epoch, s->reading, s->state};
    memcpy(words, all, sizeof all);
}

static void write_case(const uint64_t *words, const uint8_t *store, uint64_t length)
{
    uint8_t out[WORDS * 8];
    for (int i = 0; i < WORDS; i++)
        put(out + 8 * i, words[i], 8);
    if (fwrite(out, 1, sizeof out, stdout) != sizeof out || fwrite(store, 1, length, stdout) != length)
        exit(1);
}

static bool has_codes(enum call call)
{
    return call == SET_CODES || call == ASK;
}

static bool has_key(enum call call)
{
    return call == UPDATE || call == UPDATE_AT || call == ESTIMATE || call == ESTIMATE_WITH || call == MEAN || has_codes(call);
}

static bool has_grid(enum call call)
{
    return call != STORE_LENGTH && call != SET_CODES;
}

static void put_bucket(uint64_t *words, const struct trial *c)
{
    const struct sketch *s = &c->first.sketch;
    words[31] = c->row_most ? UINT64_MAX : c->row_past || s->rows == 0 ? s->rows : s->rows - 1;
    words[32] = c->col_past ? s->cols : s->cols > 1;
}

// What a setting finds as kept before it does not judge.
static void put_codes(uint64_t *words, const struct trial *c, const struct codes *codes, uint64_t also_unsound)
{
    bool asks = c->call == ASK;
    words[15] = asks ? codes->kept : UINT64_MAX;
    words[16] = asks ? codes->rows : 5;
    words[17] = 2;
    words[18] = asks ? 0 : codes->columns;
    words[19] = asks ? 0 : codes->limits;
    words[20] = also_unsound;
    words[31] = codes->wide_at;
    words[32] = codes->wide;
    words[33] = asks ? codes->room : 0;
}

// The argument that word 31 holds.
static uint64_t argument_of(const struct trial *c)
{
    switch (c->call) {
    case WITH_DIMENSIONS: return c->seed;
    case UPDATE_AT: case ADVANCE_TO: return c->time;
    case ESTIMATE_WITH: return c->fraction;
    default: return 0;
    }
}

// The bytes of a lent grid. False if there are none to leave out.
static bool lent_of(const struct side *side, uint64_t *bytes)
{
    *bytes = grid_of(&side->sketch) + (uint64_t)side->off;
    return side->off >= 0 || grid_of(&side->sketch) > 0;
}

// The index beside 14, of cells that are 1 + their index or 0 for none: of a merge the receiving grid's, of an asking the
// smallest.
static uint64_t index_of(enum call call, uint64_t first, uint64_t second)
{
    if (first == 0 || (call == ASK && second > 0 && second < first))
        return second - 1;
    return first - 1;
}

// Nothing is written if the causes cannot hold at once.
static void write_trial(struct trial c, int number, int other)
{
    static uint8_t store[2 * ROOM];
    uint64_t words[WORDS] = {0}, cell = 0, merged = 0, lent = 0, merged_lent = 0, length = 0;
    struct key key = {0};
    struct codes codes = {0};
    if (!set_clocks(&c) || (has_key(c.call) && !key_of(&c, &key)) || (has_codes(c.call) && !codes_of(&c, &codes)))
        return;
    if (c.call == ASK)
        c.second.sketch = c.first.sketch;
    if (!unsound_of(&c.first, &key, &cell) || !lent_of(&c.first, &lent))
        return;
    if (c.call == MERGE && (!unsound_of(&c.second, &key, &merged) || !lent_of(&c.second, &merged_lent)))
        return;
    if (c.call == ASK && !unsound_of(&c.second, &key, &merged))
        return;
    if (c.call == LOAD && !store_of(&c, cell, store, &length))
        return;
    words[0] = c.call;
    words[1] = (uint64_t)number;
    if (number == 14)
        words[2] = index_of(c.call, cell, merged);
    if (number == 0 && c.call == AUDIT)
        words[2] = cell;
    words[3] = (uint64_t)other;
    put_sketch(words + 4, &c.first.sketch);
    words[13] = has_grid(c.call) ? lent : 0;
    words[14] = c.call == LOAD ? 0 : cell; // a load's stands in the store
    if (c.call == MERGE) {
        put_sketch(words + 15, &c.second.sketch);
        words[24] = merged_lent;
        words[25] = merged;
    }
    words[26] = key.count;
    memcpy(words + 27, key.column, sizeof key.column);
    words[31] = argument_of(&c);
    if (c.call == BUCKET_CHECK)
        put_bucket(words, &c);
    if (has_codes(c.call))
        put_codes(words, &c, &codes, merged);
    if (c.call == SAVE && !c.no_store)
        words[33] = BLOCK * blocks_of(&c.first.sketch) + (uint64_t)c.store_off;
    if (c.call == LOAD)
        words[33] = length;
    write_case(words, store, length);
}

// THE PAIRS OF A CALL ON ONE SKETCH
// Of one cause alone the other number is that of the grid where it is too large for a case.
static int alone(const struct trial *c, int number)
{
    if (number >= 6 || !has_grid(c->call) || !large(&c->first.sketch))
        return 0;
    return c->call == LOAD ? 16 : 6;
}

// The good call, each cause alone, each pair; `only` pairs with this number, if it is not 0.
static void pairs(struct trial base, const struct cause *causes, int only)
{
    write_trial(base, 0, 0);
    for (const struct cause *a = causes; a->number > 0; a++) {
        struct trial c = base;
        a->spoil(&c, &c.first);
        if (only == 0 || a->number == only)
            write_trial(c, a->number, alone(&c, a->number));
        for (const struct cause *b = a + 1; b->number > 0; b++) {
            struct trial both = c;
            b->spoil(&both, &both.first);
            if (b->number != a->number && (only == 0 || b->number == only))
                write_trial(both, a->number, b->number);
        }
    }
}

static struct trial crossing(struct trial c)
{
    c.crosses = true;
    return c;
}

// A MERGE
enum sides { IN_FIRST = 1, IN_SECOND = 2, IN_BOTH = 3 };

static struct trial spoiled(struct trial c, const struct cause *cause, enum sides sides)
{
    if (sides & IN_FIRST)
        cause->spoil(&c, &c.first);
    if (sides & IN_SECOND)
        cause->spoil(&c, &c.second);
    return c;
}

// Out of range by the same value on both sides, a setting no longer differs.
static bool evened_out(const struct cause *in_both, const struct cause *differs)
{
    spoil *x = in_both->spoil, *d = differs->spoil;
    return (d == rows_differ && (x == rows_0 || x == rows_most))
        || (d == cols_differ && (x == cols_1 || x == cols_3 || x == cols_more))
        || (d == t_differs && in_both->number == 1) || (d == c_differs && in_both->number == 2)
        || (d == length_differs && in_both->number == 3);
}

// Whether a clock of items has what a cause is about.
static bool applies(const struct trial *base, const struct cause *cause)
{
    return cause->spoil != epoch_differs || base->first.sketch.kind == 1;
}

// Both on one side, one on each, or both on both (then nothing differs); also two ways to one number, one on each side.
static void either_with_either(struct trial base, const struct cause *a)
{
    for (const struct cause *b = a + 1; b->number > 0; b++) {
        for (int i = IN_FIRST; i <= IN_SECOND; i++)
            for (int j = IN_FIRST; j <= IN_SECOND; j++)
                if (a->number != b->number || i != j)
                    write_trial(spoiled(spoiled(base, a, i), b, j), a->number, b->number);
        if (a->number != b->number)
            write_trial(spoiled(spoiled(base, a, IN_BOTH), b, IN_BOTH), a->number, b->number);
    }
}

// On one side alone settings that are out of range differ from the other's: 10 or, of the length, 11.
static void either_alone(struct trial base, const struct cause *a)
{
    int differs = a->number == 3 ? 11 : a->number < 5 ? 10 : 0;
    struct trial both = spoiled(base, a, IN_BOTH);
    write_trial(spoiled(base, a, IN_FIRST), a->number, differs);
    write_trial(spoiled(base, a, IN_SECOND), a->number, differs);
    write_trial(both, a->number, alone(&both, a->number));
}

static void either_with_both(struct trial base, const struct cause *a)
{
    for (const struct cause *b = of_both; b->number > 0; b++)
        for (int sides = IN_FIRST; sides <= IN_BOTH; sides++)
            if (applies(&base, b) && !(sides == IN_BOTH && evened_out(a, b)))
                write_trial(spoiled(spoiled(base, b, IN_SECOND), a, sides), a->number, b->number);
}

static void both_with_both(struct trial base, const struct cause *a)
{
    struct trial c = spoiled(base, a, IN_SECOND);
    write_trial(c, a->number, 0);
    for (const struct cause *b = a + 1; b->number > 0; b++)
        if (b->number != a->number && applies(&base, b))
            write_trial(spoiled(c, b, IN_SECOND), a->number, b->number);
}

static void merges(struct sketch sketch)
{
    struct trial base = good(MERGE, sketch);
    write_trial(base, 0, 0);
    for (const struct cause *a = of_either; a->number > 0; a++) {
        either_alone(base, a);
        // of the numbers up to 6 none is about the kind of clock
        if (sketch.kind == 0)
            either_with_either(base, a);
        either_with_both(base, a);
    }
    for (const struct cause *a = of_both; a->number > 0; a++)
        if (applies(&base, a))
            both_with_both(base, a);
    // all that differ at once, and unsound cells
    struct trial all = base;
    n_differs(&all, &all.second);
    unsound_both(&all, &all.second);
    length_differs(&all, &all.second);
    write_trial(all, 11, 12);
    rows_differ(&all, &all.second);
    write_trial(all, 10, 11);
}

// AT THE EDGES OF THE TABLE
static struct sketch with(struct sketch s, uint64_t rows, uint64_t cols, uint64_t t)
{
    s.rows = rows;
    s.cols = cols;
    s.t = t;
    return s;
}

static struct sketch lasting(struct sketch s, uint64_t length)
{
    s.length = length;
    return s;
}

// The last settings that are in range, and where a grid would be too large the 6 of the one that is lent.
static void settings_edges(enum call call, struct sketch s)
{
    int large_grid = !has_grid(call) ? 0 : call == LOAD ? 16 : 6;
    struct sketch widest = s;
    widest.c = 256;
    write_trial(good(call, widest), 0, 0);
    write_trial(good(call, lasting(s, 2)), 0, 0);
    write_trial(good(call, lasting(s, longest)), 0, 0);
    write_trial(good(call, with(s, 1, 2, 1)), 0, 0);
    write_trial(good(call, with(s, 1, 2, 4096)), large_grid, 0);
    write_trial(good(call, with(s, 2, 65536, 1)), large_grid, 0);
}

// rows * log2(cols) is 128, and just above it; no key of a case has so many columns, but codes have.
static void rows_edges(enum call call, struct sketch s)
{
    write_trial(good(call, with(s, 128, 2, 1)), 0, 0);
    write_trial(good(call, with(s, 64, 4, 1)), 0, 0);
    write_trial(good(call, with(s, 129, 2, 1)), 4, 0);
    write_trial(good(call, with(s, 65, 4, 1)), 4, 0);
    write_trial(good(call, with(s, 43, 8, 1)), 4, 0);
}

static void unsound_at(struct trial c, enum place place, int number)
{
    c.first.unsound = place;
    write_trial(c, number, 0);
}

// An unsound cell outside the key.
static void outside(struct trial c, int number)
{
    unsound_at(c, FIRST_CELL, number);
    unsound_at(c, LAST_CELL, number);
}

static struct trial at(struct trial c, uint64_t reading, uint64_t time)
{
    c.first.sketch.reading = reading;
    c.time = time;
    return c;
}

static struct trial by(struct trial c, bool old, uint64_t fraction)
{
    c.old = old;
    c.fraction = fraction;
    return c;
}

static struct trial seeded(uint64_t seed)
{
    struct trial c = good(WITH_DIMENSIONS, counting);
    c.seed = seed;
    return c;
}

// CALL BY CALL
static void fresh_starts(void)
{
    pairs(good(WITH_DIMENSIONS, counting), of_start, 0);
    pairs(good(WITH_DIMENSIONS, timed), of_start, 0);
    settings_edges(WITH_DIMENSIONS, counting);
    rows_edges(WITH_DIMENSIONS, timed);
    write_trial(seeded(0), 0, 0);
    write_trial(seeded(UINT64_MAX), 0, 0);
}

static void items(void)
{
    pairs(good(UPDATE, counting), of_item, 0);
    pairs(crossing(good(UPDATE, counting)), of_crossing_item, 14);
    settings_edges(UPDATE, counting);
    outside(good(UPDATE, counting), 0);
    outside(at(good(UPDATE, counting), UINT64_MAX, 0), 0); // seen stays, and n with it
    pairs(good(UPDATE_AT, timed), of_item, 0);
    pairs(crossing(good(UPDATE_AT, timed)), of_crossing_item, 14);
    settings_edges(UPDATE_AT, timed);
    outside(good(UPDATE_AT, timed), 0);
    outside(at(good(UPDATE_AT, timed), 105, 1), 0);   // an older reading leaves now
    outside(at(good(UPDATE_AT, timed), 50, 103), 0);  // before the epoch n is 0
    outside(at(good(UPDATE_AT, timed), 50, 104), 14);
}

static void advances(void)
{
    write_trial(good(ADVANCE_TO, timed), 0, 0);
    pairs(crossing(good(ADVANCE_TO, timed)), of_advance, 0);
    settings_edges(ADVANCE_TO, timed);
    rows_edges(ADVANCE_TO, timed);
    outside(good(ADVANCE_TO, timed), 0);
    outside(at(good(ADVANCE_TO, timed), 105, 1), 0);
    outside(at(good(ADVANCE_TO, timed), 50, 103), 0);
    outside(at(good(ADVANCE_TO, timed), 50, 104), 14);
    outside(at(good(ADVANCE_TO, timed), 105, UINT64_MAX), 14);
    outside(good(ADVANCE_TO, counting), 8); // nothing is crossed, so no cell is judged
}

static void readings(enum call call, const struct cause *causes)
{
    pairs(good(call, counting), causes, 0);
    pairs(good(call, timed), causes, 0);
    settings_edges(call, counting);
    outside(good(call, counting), 0);
    outside(good(call, timed), 0);
}

static void fractions(void)
{
    struct trial c = good(ESTIMATE_WITH, timed);
    write_trial(by(c, true, zero), 0, 0);
    write_trial(by(c, true, minus_zero), 0, 0);
    write_trial(by(c, true, one), 0, 0);
    // n is 1 and t is 2
    write_trial(by(c, false, not_a_number), 0, 0);
    write_trial(by(c, false, above), 0, 0);
    write_trial(by(c, false, below), 0, 0);
    unsound_at(by(c, false, not_a_number), KEY_FIRST, 14);
    outside(by(c, true, not_a_number), 13);
}

static void looks(enum call call, const struct cause *causes)
{
    pairs(good(call, counting), causes, 0);
    pairs(good(call, timed), causes, 0);
    settings_edges(call, counting);
    rows_edges(call, timed);
}

static void lengths(void)
{
    looks(STORE_LENGTH, of_length);
    write_trial(good(STORE_LENGTH, with(counting, 128, 2, 4096)), 0, 0);
    write_trial(good(STORE_LENGTH, with(counting, 8, 65536, 4096)), 0, 0);
    write_trial(good(STORE_LENGTH, with(counting, 9, 65536, 4096)), 4, 0);
}

static void load_alone(struct sketch sketch, spoil *way)
{
    struct trial c = good(LOAD, sketch);
    way(&c, &c.first);
    write_trial(c, 16, 0);
}

static void loads(void)
{
    pairs(good(LOAD, stored), of_load, 0);
    load_alone(stored, load_empty);
    load_alone(stored, load_1);
    load_alone(stored, load_511);
    for (const struct cause *a = of_load; a->number > 0; a++) {
        struct trial c = good(LOAD, timed);
        a->spoil(&c, &c.first);
        write_trial(c, a->number, alone(&c, a->number));
    }
    write_trial(good(LOAD, timed), 0, 0);
    settings_edges(LOAD, timed);
    rows_edges(LOAD, counting);
}

// So many codes, and beside them one way to spoil the call.
static void coded(enum call call, struct sketch sketch, uint64_t count, spoil *way, int number, int other)
{
    struct trial c = good(call, sketch);
    c.codes = count;
    if (way != NULL)
        way(&c, &c.first);
    write_trial(c, number, other);
}

SPOIL(no_columns, c->more_codes = -3)
SPOIL(wide_behind, c->wide_behind = true)
SPOIL(list_long, c->list_off = 5)

// As many codes as are allowed, of as many rows: every place that there is for kept columns.
static void full_lists(enum call call)
{
    struct sketch tall = with(counting, 128, 2, 1);
    coded(call, tall, 64, NULL, 0, 0);
    coded(call, tall, 65, NULL, 19, 0);
    coded(call, tall, 64, code_wide, 7, 0);
    coded(call, tall, 65, code_wide, 7, 19);
}

static void settings_of_codes(void)
{
    looks(SET_CODES, of_setting);
    coded(SET_CODES, counting, 0, NULL, 0, 0);
    coded(SET_CODES, counting, 0, key_long, 7, 0);
    coded(SET_CODES, counting, 1, NULL, 0, 0);
    coded(SET_CODES, counting, 3, no_columns, 7, 0);
    coded(SET_CODES, timed, 64, NULL, 0, 0);
    coded(SET_CODES, timed, 66, NULL, 19, 0);
    full_lists(SET_CODES);
}

// Without codes nothing is 7 and no cell is judged.
static void askings_for_nothing(void)
{
    coded(ASK, counting, 0, NULL, 0, 0);
    coded(ASK, counting, 0, kept_for_more, 0, 0);
    coded(ASK, counting, 0, column_first, 0, 0);
    coded(ASK, counting, 0, unsound_first, 0, 0);
    coded(ASK, counting, 0, unsound_last, 0, 0);
    coded(ASK, counting, 0, list_long, 0, 0);
}

static void askings(void)
{
    looks(ASK, of_asking);
    askings_for_nothing();
    coded(ASK, counting, 1, unsound_first, 0, 0); // of the second code
    coded(ASK, counting, 2, unsound_before, 14, 0);
    unsound_at(good(ASK, counting), ROW_1_COL_1, 0); // of no code
    unsound_at(good(ASK, timed), ROW_1_COL_1, 0);
    coded(ASK, timed, 3, wide_behind, 0, 0);
    coded(ASK, timed, 3, list_long, 0, 0);
    coded(ASK, timed, 64, NULL, 0, 0);
    coded(ASK, timed, 64, list_short, 20, 0);
    coded(ASK, timed, 65, wide_behind, 19, 0); // only the first 64 are looked at
    // no list has so many bytes
    coded(ASK, timed, UINT64_MAX, NULL, 19, 20);
    coded(ASK, timed, UINT64_MAX, code_wide, 7, 19);
    full_lists(ASK);
}

int main(void)
{
    fresh_starts();
    items();
    advances();
    readings(ESTIMATE, of_reading);
    readings(ESTIMATE_WITH, of_reading_with);
    fractions();
    readings(MEAN, of_reading);
    looks(BUCKET_CHECK, of_bucket);
    outside(good(BUCKET_CHECK, counting), 0);
    looks(MAX_ZOOM, of_highest);
    looks(AUDIT, of_audit);
    outside(good(AUDIT, counting), 0);
    outside(good(AUDIT, timed), 0);
    merges(counting);
    merges(timed);
    settings_edges(MERGE, counting);
    rows_edges(MERGE, timed);
    lengths();
    looks(SAVE, of_save);
    loads();
    settings_of_codes();
    askings();
    return fflush(stdout) == 0 ? 0 : 1;
}
