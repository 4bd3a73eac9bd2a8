/*
 * Document 02, T-09: the index with an unsound cell is the smallest, in grid order, among the cells judged, in the audit and
 * with 14; in a merge the receiving grid is searched before the other. Two rows of two cells: every choice of unsound cells,
 * every key, and for a merge every choice in both grids, in each call that judges more than one cell. What is expected is
 * reckoned here from the documents' words. named.out has what this must print.
 */
#include "tests.h"

enum { T = 1, ROWS = 2, COLS = 2, CELLS = ROWS * COLS, DEPTH = MICROSCOPE_DEPTH(T) };
enum { GRID = MICROSCOPE_GRID_BYTES(ROWS, COLS, T), STORE = MICROSCOPE_STORE_BYTES(ROWS, COLS, T) };

/* A block of a store: its number, what it carries, the sum of both. */
enum { BLOCK = 512, CARRIED_AT = 4, SUM_AT = 508 };

/* Cells are told as bits: cell i is 1 << i. */
enum { NO_CELL = 0, ALL_CELLS = (1 << CELLS) - 1 };

/* ---- what a call is given, and what it answers ---- */

static struct given {
    unsigned unsound, others;
    uint32_t key[ROWS];
} given;

static struct answer {
    uint64_t number, index;
} answer;

static microscope_sketch sketch;
static microscope_watch watch;
static microscope_change change;
static microscope_figures figures;
static microscope_items items;
static microscope_value value;
static uint8_t grid[GRID], store[STORE];

static void spoil(uint8_t *cells, unsigned unsound) {
    for (size_t i = 0; i < CELLS; i++) {
        if (unsound >> i & 1) {
            cells[i * DEPTH + zoom_at(T)] = 255;
        }
    }
}

static void start(uint64_t kind, uint64_t length) {
    microscope_new(&sketch, &watch, ROWS, COLS, T, 2, kind, length, 0, 1, grid, GRID);
    spoil(grid, given.unsound);
}

static void told(uint64_t number, uint64_t index) {
    answer = (struct answer){number, index};
}

/* ---- the calls ---- */

static void item(uint64_t length) {
    start(MICROSCOPE_ITEMS, length);
    uint64_t number = microscope_update(&sketch, given.key, ROWS, grid, GRID, &change);
    told(number, change.index);
}
static void update(void) {
    item(10);
}
static void update_crosses(void) {
    item(1);
}

static void item_at(uint64_t time) {
    start(MICROSCOPE_TIME, 10);
    uint64_t number = microscope_update_at(&sketch, given.key, ROWS, time, grid, GRID, &change);
    told(number, change.index);
}
static void update_at(void) {
    item_at(9);
}
static void update_at_crosses(void) {
    item_at(10);
}

static void time_passes(uint64_t time) {
    start(MICROSCOPE_TIME, 10);
    uint64_t number = microscope_advance_to(&sketch, time, grid, GRID, &change);
    told(number, change.index);
}
static void advance_to(void) {
    time_passes(9);
}
static void advance_to_crosses(void) {
    time_passes(10);
}

static void estimate(void) {
    start(MICROSCOPE_ITEMS, 10);
    uint64_t number = microscope_estimate(&sketch, given.key, ROWS, grid, GRID, &figures, &items);
    told(number, items.index);
}
static void estimate_with(void) {
    start(MICROSCOPE_ITEMS, 10);
    uint64_t number = microscope_estimate_with(&sketch, given.key, ROWS, 0.5, grid, GRID, &figures, &items);
    told(number, items.index);
}
static void mean(void) {
    start(MICROSCOPE_ITEMS, 10);
    uint64_t number = microscope_mean(&sketch, given.key, ROWS, grid, GRID, &value);
    told(number, value.index);
}
static void max_zoom(void) {
    start(MICROSCOPE_ITEMS, 10);
    uint64_t number = microscope_max_zoom(&sketch, grid, GRID, &value);
    told(number, value.index);
}

/* An audit reports as its result what the others are refused by. */
static void audit(void) {
    microscope_found found;
    start(MICROSCOPE_ITEMS, 10);
    uint64_t number = microscope_audit(&sketch, grid, GRID, &found);
    told(number == MICROSCOPE_ACCEPTED && found.unsound == 1 ? MICROSCOPE_UNSOUND : number, found.index);
}

static void save(void) {
    uint64_t index;
    start(MICROSCOPE_ITEMS, 10);
    uint64_t number = microscope_save(&sketch, grid, GRID, store, STORE, &index);
    told(number, index);
}

/* The stored cells are judged, and not those of the grid that is lent: here all of them are unsound. */
static void load(void) {
    uint64_t index;
    microscope_new(&sketch, &watch, ROWS, COLS, T, 2, MICROSCOPE_ITEMS, 10, 0, 1, grid, GRID);
    microscope_save(&sketch, grid, GRID, store, STORE, &index);
    uint8_t *block = store + BLOCK;
    spoil(block + CARRIED_AT, given.unsound);
    uint64_t sum = weighed(block, SUM_AT);
    for (size_t i = 0; i < 4; i++) {
        block[SUM_AT + i] = (uint8_t)(sum >> 8 * i);
    }
    spoil(grid, ALL_CELLS);
    uint64_t number = microscope_load(&sketch, &watch, grid, GRID, store, STORE, &index);
    told(number, index);
}

static void merge(void) {
    microscope_sketch other;
    uint8_t other_grid[GRID];
    microscope_new(&other, &watch, ROWS, COLS, T, 2, MICROSCOPE_ITEMS, 10, 0, 1, other_grid, GRID);
    spoil(other_grid, given.others);
    start(MICROSCOPE_ITEMS, 10);
    uint64_t number = microscope_merge(&sketch, grid, GRID, &other, other_grid, GRID, &change);
    told(number, change.index);
}

/* Two codes, of which the second has the columns of the first the other way round. */
static void ask(void) {
    static uint32_t columns[MICROSCOPE_KEPT_COLUMNS];
    static uint64_t limits[MICROSCOPE_MOST_CODES];
    const uint32_t codes[2 * ROWS] = {given.key[0], given.key[1], given.key[1], given.key[0]};
    const uint64_t most[2] = {9, 9};
    uint8_t list[2];
    microscope_asked asked;
    start(MICROSCOPE_ITEMS, 10);
    microscope_set_codes(&sketch, &watch, codes, 2 * ROWS, most, 2, columns, limits);
    uint64_t number = microscope_ask(&sketch, &watch, columns, limits, grid, GRID, list, 2, &asked);
    told(number, asked.index);
}

/* ---- the cells that each judges: document 01, behind the table; T-01 for an asking ---- */

/* Cells stand by row, then column. */
static unsigned cell(uint32_t row, uint32_t column) {
    return 1u << (row * COLS + column);
}

static unsigned none(void) {
    return NO_CELL;
}
static unsigned all(void) {
    return ALL_CELLS;
}
static unsigned keys(void) {
    return cell(0, given.key[0]) | cell(1, given.key[1]);
}
static unsigned codes(void) {
    return keys() | cell(0, given.key[1]) | cell(1, given.key[0]);
}

static const struct call {
    const char *name;
    void (*make)(void);
    unsigned (*judges)(void);
} calls[] = {
    {"update", update, keys},
    {"update that crosses", update_crosses, all},
    {"update_at", update_at, keys},
    {"update_at that crosses", update_at_crosses, all},
    {"advance_to", advance_to, none},
    {"advance_to that crosses", advance_to_crosses, all},
    {"estimate", estimate, keys},
    {"estimate_with", estimate_with, keys},
    {"mean", mean, keys},
    {"max_zoom", max_zoom, all},
    {"audit", audit, all},
    {"save", save, all},
    {"load", load, all},
    {"merge", merge, all},
    {"ask", ask, codes},
};

/* ---- what is expected ---- */

static struct answer smallest(unsigned unsound) {
    uint64_t index = 0;
    if (unsound == NO_CELL) {
        return (struct answer){MICROSCOPE_ACCEPTED, 0};
    }
    while (!(unsound >> index & 1)) {
        index++;
    }
    return (struct answer){MICROSCOPE_UNSOUND, index};
}

/* The receiving grid is searched before the other, which only a merge has. */
static struct answer expected(unsigned judged) {
    unsigned mine = given.unsound & judged;
    return smallest(mine != NO_CELL ? mine : given.others);
}

/* ---- all of them ---- */

struct score {
    unsigned calls, unsound, right;
};

static void compare(const struct call *call, struct score *score) {
    struct answer right = expected(call->judges());
    call->make();
    score->calls++;
    score->unsound += right.number == MICROSCOPE_UNSOUND;
    if (answer.number == right.number && answer.index == right.index) {
        score->right++;
    } else {
        printf("%s: unsound cells %u, other grid's %u, key %" PRIu32 " %" PRIu32 ": ", call->name, given.unsound,
               given.others, given.key[0], given.key[1]);
        print_verdict(answer.number, answer.index, " at ");
        printf(", EXPECTED ");
        print_verdict(right.number, right.index, " at ");
        printf("\n");
    }
}

static void every_key(const struct call *call, struct score *score) {
    for (uint32_t key = 0; key < COLS * COLS; key++) {
        given.key[0] = key / COLS;
        given.key[1] = key % COLS;
        compare(call, score);
    }
}

static void every_grid(const struct call *call) {
    struct score score = {0, 0, 0};
    unsigned most = call->make == merge ? ALL_CELLS : NO_CELL;
    for (given.unsound = NO_CELL; given.unsound <= ALL_CELLS; given.unsound++) {
        for (given.others = NO_CELL; given.others <= most; given.others++) {
            every_key(call, &score);
        }
    }
    printf("%s: %u calls, %u of them with an unsound cell judged; as reckoned: %u\n", call->name, score.calls, score.unsound,
           score.right);
}

int main(void) {
    for (size_t i = 0; i < sizeof calls / sizeof calls[0]; i++) {
        every_grid(&calls[i]);
    }
    return 0;
}
