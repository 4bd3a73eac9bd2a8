/*
 * Document 02, T-03: the card of zoom ceilings, beside document 01's words for the ceiling, "the largest z with c^z <= 2^32 - 1",
 * which is how often 2^32 - 1 can be divided by c: reckoned here by that alone, with no power. Every base is asked for, and
 * what the library gives is printed as the card has it. At every base and zoom each call that goes by the ceiling is made.
 * Beside what was right stands how many bases each mistake would have got wrong. ceilings.out has what this must print.
 */
#include "tests.h"

enum { T = 1, DEPTH = MICROSCOPE_DEPTH(T), FIRST = 2, LAST = 256, FULL = 255 };

/* ---- the ceiling, reckoned ---- */

/* The largest z with c^z at most `most`. */
static uint64_t divisions(uint64_t most, uint64_t c) {
    uint64_t z = 0;
    while (most >= c) {
        most /= c;
        z++;
    }
    return z;
}

static uint64_t ceiling(uint64_t c) {
    return divisions(UINT32_MAX, c);
}

/* ---- what the library gives ---- */

static uint64_t given(uint64_t c) {
    uint64_t zoom = UINT64_MAX;
    uint64_t number = microscope_base_max_zoom(c, &zoom);
    if (number != MICROSCOPE_ACCEPTED) {
        printf("base %" PRIu64 " refused by %" PRIu64 "\n", c, number);
    }
    return zoom;
}

/* In the card's words, a line for all bases in a row that give the same. */
static void card(void) {
    for (uint64_t first = FIRST, next; first <= LAST; first = next) {
        uint64_t zoom = given(first);
        for (next = first + 1; next <= LAST && given(next) == zoom;) {
            next++;
        }
        if (next == first + 1) {
            printf("%" PRIu64 " gives %" PRIu64 "\n", first, zoom);
        } else {
            printf("%" PRIu64 " to %" PRIu64 " give %" PRIu64 "\n", first, next - 1, zoom);
        }
    }
}

static void no_bases(void) {
    static const uint64_t others[] = {0, 1, 257, 258, 65538, (UINT64_C(1) << 32) + 2, UINT64_MAX};
    for (size_t i = 0; i < sizeof others / sizeof *others; i++) {
        uint64_t zoom = UINT64_MAX;
        uint64_t number = microscope_base_max_zoom(others[i], &zoom);
        printf("%" PRIu64 ": ", others[i]);
        print_verdict(number, 0, "");
        printf(", zoom %" PRIu64 "\n", zoom);
    }
}

static void mistakes(void) {
    static const struct {
        const char *name;
        uint64_t most;
    } wrong[] = {{"to 2^32", UINT64_C(1) << 32}, {"to 2^31 - 1", INT32_MAX}};
    int as_reckoned = 0, otherwise[2] = {0};
    for (uint64_t c = FIRST; c <= LAST; c++) {
        as_reckoned += given(c) == ceiling(c);
        for (int i = 0; i < 2; i++) {
            otherwise[i] += divisions(wrong[i].most, c) != ceiling(c);
        }
    }
    printf("%d bases as reckoned", as_reckoned);
    for (int i = 0; i < 2; i++) {
        printf("; %s, wrong would be %d", wrong[i].name, otherwise[i]);
    }
    printf("\n");
}

/* ---- the calls that go by the ceiling ---- */

/* A full pixel, which is that of sub-window 0, and two with 1, which no base divides: a raise draws. */
static void full_cell(uint8_t cell[DEPTH], uint64_t zoom, uint64_t shutter) {
    memset(cell, 0, DEPTH);
    cell[0] = FULL;
    cell[1] = cell[2] = 1;
    cell[zoom_at(T)] = (uint8_t)zoom;
    for (int i = 0; i < 4; i++) {
        cell[shutter_at(T) + i] = (uint8_t)(shutter >> 8 * i);
    }
}

/* c^zoom - 1 items, one short of a unit. */
static uint64_t one_short(uint64_t c, uint64_t zoom) {
    uint64_t unit = 1;
    while (zoom-- > 0) {
        unit *= c;
    }
    return unit - 1;
}

/* What a call must do: 14 above the ceiling; at it drop the unit, or cut the sum, and say so; below it raise the zoom. */
enum { JUDGED, INSERTED, CLOSED, MERGED, CALLS };
static const char *const names[CALLS] = {"judged", "inserted", "closed", "merged"};

static bool judged(uint64_t c, uint64_t zoom) {
    uint8_t cell[DEPTH];
    full_cell(cell, zoom, 0);
    uint64_t number = microscope_cell_check(cell, DEPTH, T, c);
    return number == (zoom <= ceiling(c) ? MICROSCOPE_ACCEPTED : MICROSCOPE_UNSOUND);
}

static bool inserted(uint64_t c, uint64_t zoom) {
    uint8_t cell[DEPTH];
    uint64_t state = 1;
    microscope_change change;
    full_cell(cell, zoom, one_short(c, zoom));
    uint64_t number = microscope_cell_insert(cell, DEPTH, T, c, 0, &state, &change);
    bool raised = zoom < ceiling(c);
    return number == MICROSCOPE_ACCEPTED && cell[zoom_at(T)] == zoom + raised && (change.draws > 0) == raised &&
           (cell[0] == FULL) == !raised && change.lost == !raised;
}

/* Closing makes one draw, and gives a unit for most states; only a raise makes more, and only at the ceiling is it lost. */
static bool closed(uint64_t c, uint64_t zoom) {
    bool raised = false, lost = false;
    for (uint64_t seed = 1; seed <= 64; seed++) {
        uint8_t cell[DEPTH];
        uint64_t state = microscope_rounding_new(seed);
        microscope_change change;
        full_cell(cell, zoom, one_short(c, zoom));
        if (microscope_cell_enter_sub_window(cell, DEPTH, T, c, 1, 1, &state, &change) != MICROSCOPE_ACCEPTED) {
            return false;
        }
        raised = raised || change.draws > 1;
        lost = lost || change.lost == 1;
    }
    /* At zoom 0 there is nothing to close. */
    return raised == (zoom > 0 && zoom < ceiling(c)) && lost == (zoom == ceiling(c));
}

static bool merged(uint64_t c, uint64_t zoom) {
    uint8_t dst[DEPTH], src[DEPTH];
    uint64_t state = 1;
    microscope_change change;
    full_cell(dst, zoom, 0);
    full_cell(src, zoom, 0);
    uint64_t number = microscope_cell_merge(dst, DEPTH, src, DEPTH, T, c, 0, &state, &change);
    bool raised = zoom < ceiling(c);
    /* 2 x 255 by 2 is still 255. Of 510 at the ceiling 255 units are cut. */
    return number == MICROSCOPE_ACCEPTED && dst[zoom_at(T)] == zoom + raised && (dst[0] == FULL) == (!raised || c == 2) &&
           change.lost == (raised ? 0 : FULL);
}

static void every_call(void) {
    int cells = 0, right[CALLS] = {0};
    for (uint64_t c = FIRST; c <= LAST; c++) {
        for (uint64_t zoom = 0; zoom <= UINT8_MAX; zoom++) {
            right[JUDGED] += judged(c, zoom);
            if (zoom > ceiling(c)) {
                continue;
            }
            cells++;
            right[INSERTED] += inserted(c, zoom);
            right[CLOSED] += closed(c, zoom);
            right[MERGED] += merged(c, zoom);
        }
    }
    printf("%d cells of every base and zoom, %d of them up to the ceiling; as reckoned:", 255 * 256, cells);
    for (int call = 0; call < CALLS; call++) {
        printf(" %s %d", names[call], right[call]);
    }
    printf("\n");
}

int main(void) {
    card();
    no_bases();
    mistakes();
    every_call();
    return 0;
}
