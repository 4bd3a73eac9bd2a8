/*
 * Document 02, T-08: "Under divided by the lesser of n + 1 and t, rounded down", reckoned here from its words alone, beside a
 * tally of the items of each sub-window and without a division. A key of two rows, and a stranger that shares its cell in one
 * of them, so that the key's own items are its Under; few enough that no cell zooms. Beside what was right stands how many of
 * these means each mistake would have got wrong. means.out has what this must print.
 */
#include "tests.h"

enum { ROWS = 2, COLS = 4, MOST_T = 4096, MOST_SUB_WINDOWS = 4 * MOST_T };

static const uint32_t key[ROWS] = {1, 2}, stranger[ROWS] = {1, 3};

/* The last number of all: a clock can read it, and at length 1 it is an n. */
static const uint64_t LAST = UINT64_MAX;

static microscope_sketch sketch;
static microscope_watch watch;
static microscope_change change;
static uint8_t grid[MICROSCOPE_GRID_BYTES(ROWS, COLS, MOST_T)];
static size_t grid_bytes;

/* ---- the tally: the sub-windows in which the key's items came, in their order ---- */

static struct {
    uint64_t sub_window, items;
} tally[MOST_SUB_WINDOWS];
static size_t tallied;

static void count(uint64_t n) {
    if (tallied == 0 || tally[tallied - 1].sub_window != n) {
        tally[tallied].sub_window = n;
        tally[tallied].items = 0;
        tallied++;
    }
    tally[tallied - 1].items++;
}

/* The items of n and of so many sub-windows before it. */
static uint64_t items_since(uint64_t n, uint64_t before) {
    uint64_t items = 0;
    for (size_t i = 0; i < tallied; i++) {
        if (n - tally[i].sub_window <= before) {
            items += tally[i].items;
        }
    }
    return items;
}

/* ---- what is expected ---- */

/* So many for each that what is left is not one more for each. */
static uint64_t shared(uint64_t items, uint64_t parts) {
    uint64_t each = 0;
    while (items >= parts) {
        items -= parts;
        each++;
    }
    return each;
}

/* The sub-windows begun, counted back from the present one: no more than t, and none before the first. */
static uint64_t begun(uint64_t n) {
    uint64_t back = 0;
    while (back < sketch.t && back <= n) {
        back++;
    }
    return back;
}

static uint64_t reckoned(uint64_t n) {
    return shared(items_since(n, sketch.t - 1), begun(n));
}

/* ---- the mistakes: by t, as before T-08; by n; by n + 1 without the lesser; of Over; rounded up ---- */

enum { BY_T, BY_N, BY_N_PLUS_1, OF_OVER, ROUNDED_UP, MISTAKES };

static uint64_t lesser(uint64_t a, uint64_t b) {
    return a < b ? a : b;
}

static uint64_t mistaken(int mistake, uint64_t n) {
    uint64_t under = items_since(n, sketch.t - 1);
    switch (mistake) {
    case BY_T:
        return under / sketch.t;
    case BY_N:
        return n == 0 ? 0 : under / lesser(n, sketch.t);
    case BY_N_PLUS_1:
        return n == LAST ? 0 : under / (n + 1);
    case OF_OVER:
        return items_since(n, sketch.t) / begun(n);
    default:
        return (under + begun(n) - 1) / begun(n);
    }
}

/* ---- a mean is read ---- */

static struct {
    unsigned means, right, noticed[MISTAKES];
} score;

static void compare(uint64_t n) {
    microscope_value mean;
    uint64_t number = microscope_mean(&sketch, key, ROWS, grid, grid_bytes, &mean);
    uint64_t right = reckoned(n);
    score.means++;
    if (number == MICROSCOPE_ACCEPTED && mean.value == right) {
        score.right++;
    } else {
        printf("t = %" PRIu64 ", n = %" PRIu64 ": ", sketch.t, n);
        print_verdict(number, mean.index, " at ");
        printf(" %" PRIu64 ", EXPECTED %" PRIu64 "\n", mean.value, right);
    }
    for (int mistake = 0; mistake < MISTAKES; mistake++) {
        score.noticed[mistake] += mistaken(mistake, n) != right;
    }
}

static void print_score(const char *what) {
    printf("%s: %u means; as reckoned: %u; wrong would be, by t: %u, by n: %u, by n + 1: %u, of Over: %u, rounded up: %u\n", what,
           score.means, score.right, score.noticed[BY_T], score.noticed[BY_N], score.noticed[BY_N_PLUS_1],
           score.noticed[OF_OVER], score.noticed[ROUNDED_UP]);
    memset(&score, 0, sizeof score);
}

/* ---- the calls ---- */

static void start(uint64_t t, uint64_t kind, uint64_t length) {
    grid_bytes = MICROSCOPE_GRID_BYTES(ROWS, COLS, t);
    tallied = 0;
    microscope_new(&sketch, &watch, ROWS, COLS, t, 2, kind, length, 0, 1, grid, grid_bytes);
}

/* A linear congruence (Knuth's of MMIX): the same numbers in every run. */
static uint64_t chosen(uint64_t below) {
    static uint64_t state = 8;
    state = state * 6364136223846793005u + 1442695040888963407u;
    return (state >> 33) % below;
}

/* On a clock of time whose sub-windows are 1 long, so that a time is an n. */
static void at(uint64_t n, uint64_t items, uint64_t strangers) {
    for (; items > 0; items--) {
        microscope_update_at(&sketch, key, ROWS, n, grid, grid_bytes, &change);
        count(n);
        compare(n);
    }
    for (; strangers > 0; strangers--) {
        microscope_update_at(&sketch, stranger, ROWS, n, grid, grid_bytes, &change);
    }
    microscope_advance_to(&sketch, n, grid, grid_bytes, &change);
    compare(n);
}

/* The two are chosen one after the other: between arguments of one call C has no order. */
static void some_at(uint64_t n) {
    uint64_t items = chosen(10);
    uint64_t strangers = chosen(10);
    at(n, items, strangers);
}

/* Each n, past the second window's end. */
static void each_n(uint64_t t) {
    start(t, MICROSCOPE_TIME, 1);
    for (uint64_t n = 0; n <= 2 * t + 2; n++) {
        some_at(n);
    }
}

static void jumps(uint64_t t) {
    start(t, MICROSCOPE_TIME, 1);
    for (uint64_t n = 0; n <= 20 * t; n += 1 + chosen(t + 2)) {
        some_at(n);
    }
}

/* On a clock of items: n grows with each `length` of them, the stranger's too. */
static void by_items(uint64_t t, uint64_t length) {
    start(t, MICROSCOPE_ITEMS, length);
    for (uint64_t seen = 0; seen < (2 * t + 2) * length; seen++) {
        bool own = chosen(2) == 0;
        compare(seen / length);
        if (own) {
            count(seen / length);
        }
        microscope_update(&sketch, own ? key : stranger, ROWS, grid, grid_bytes, &change);
    }
}

/* The last n, and those before it: n + 1 has no place in 64 bits there. */
static void last_n(uint64_t t) {
    start(t, MICROSCOPE_TIME, 1);
    for (uint64_t before = t + 2; before > 0; before--) {
        some_at(LAST - before);
    }
    at(LAST, 9, 0);
}

/* The longest window: its first n, those about its end, and the last n. */
static void longest(void) {
    start(MOST_T, MICROSCOPE_TIME, 1);
    at(0, 200, 0);
    for (uint64_t n = MOST_T - 100; n <= MOST_T + 1; n++) {
        at(n, 200, 0);
    }
    at(LAST, 200, 0);
}

static uint64_t mean_now(void) {
    microscope_value mean;
    microscope_mean(&sketch, key, ROWS, grid, grid_bytes, &mean);
    return mean.value;
}

int main(void) {
    static const uint64_t ts[] = {1, 2, 3, 5, 12, 31};

    start(12, MICROSCOPE_TIME, 1);
    microscope_update_at(&sketch, key, ROWS, 0, grid, grid_bytes, &change);
    printf("one item at n = 0 with t = 12: %" PRIu64 "\n", mean_now());

    for (size_t i = 0; i < sizeof ts / sizeof ts[0]; i++) {
        each_n(ts[i]);
    }
    print_score("each n");
    for (size_t i = 0; i < sizeof ts / sizeof ts[0]; i++) {
        jumps(ts[i]);
    }
    print_score("jumps");
    for (size_t i = 0; i < sizeof ts / sizeof ts[0]; i++) {
        by_items(ts[i], 1);
        by_items(ts[i], 7);
    }
    print_score("clocks of items");
    for (size_t i = 0; i < sizeof ts / sizeof ts[0]; i++) {
        last_n(ts[i]);
    }
    print_score("the last n of all");
    longest();
    print_score("t = 4096");
    return 0;
}
