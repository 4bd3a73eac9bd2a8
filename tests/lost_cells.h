/* The calls of tests/lost.c on one cell. */
#ifndef LOST_CELLS_H
#define LOST_CELLS_H

#include "lost_score.h"

/* ---- a call ---- */

enum { INSERT, ENTER, MERGE, CELL_CALLS };

static const char *const cell_names[CELL_CALLS] = {"cell_insert", "cell_enter_sub_window", "cell_merge"};

/* What a call is handed; `crossed` is for ENTER only. */
struct cell_call {
    int call;
    uint64_t t, c, n, crossed, state;
    size_t bytes, src_bytes;
};

/* The cell and the one that is merged in, as they are given; what is reckoned, and what the library left and told. */
static uint8_t given[MOST_DEPTH], src[MOST_DEPTH], expected[MOST_DEPTH], left[MOST_DEPTH];
static microscope_change told;

static struct cell_call call_of(int call, uint64_t n, uint64_t crossed, uint64_t state) {
    return (struct cell_call){call, t, c, n, crossed, state, depth(), depth()};
}

static uint64_t make_cell_call(const struct cell_call *of, uint8_t *cell, const uint8_t *merged, uint64_t *state) {
    switch (of->call) {
    case INSERT:
        return microscope_cell_insert(cell, of->bytes, of->t, of->c, of->n, state, &told);
    case ENTER:
        return microscope_cell_enter_sub_window(cell, of->bytes, of->t, of->c, of->n, of->crossed, state, &told);
    default:
        return microscope_cell_merge(cell, of->bytes, merged, of->src_bytes, of->t, of->c, of->n, state, &told);
    }
}

/* The call as it is accepted: what it leaves of the given cell stands in `expected`. */
static void reckon_cell(const struct cell_call *of) {
    begin(of->state);
    memcpy(expected, given, depth());
    switch (of->call) {
    case INSERT:
        insert(expected, of->n);
        break;
    case ENTER:
        enter(expected, of->n, of->crossed);
        break;
    default:
        merge(expected, src, of->n);
        break;
    }
}

/* Makes the call, told over junk and lent just so many bytes, and compares it with what is right. */
static void try_cell_call(const struct cell_call *of, struct answer right) {
    uint8_t *cell = exact_copy(given, of->bytes), *merged = exact_copy(src, of->src_bytes);
    struct answer came = {.state = of->state, .bytes = cell};
    memset(&told, 165, sizeof told);
    came.number = make_cell_call(of, cell, merged, &came.state);
    came.change = told;
    came.wrote = !same_bytes(merged, src, of->src_bytes);
    shown.name = cell_names[of->call];
    shown.rows = shown.cols = 1;
    shown.n = of->n;
    shown.by = of->crossed;
    shown.key = NULL;
    shown.bytes = given;
    shown.others = of->call == MERGE ? src : NULL;
    compare(&came, &right, of->bytes, of->state);
    memcpy(left, cell, of->bytes);
    free(cell);
    free(merged);
}

/* Document 02's laws, in items, and that nothing is lost where no cell is at the ceiling. */
static void cell_laws(int call) {
    uint64_t zoom = zoom_of(given), zoom_after = zoom_of(left);
    if (call == INSERT && zoom_after == zoom) {
        law(total_of(left) + unit(zoom) * told.lost == total_of(given) + 1);
    }
    if (call == MERGE && zoom == zoom_of(src) && zoom_after == zoom) {
        law(total_of(left) + unit(zoom) * told.lost == total_of(given) + total_of(src));
    }
    if (call == MERGE ? zoom_after < max_zoom : zoom < max_zoom) {
        law(told.lost == 0);
    }
}

static void try_cell(int call, uint64_t n, uint64_t crossed, uint64_t state) {
    struct cell_call of = call_of(call, n, crossed, state);
    reckon_cell(&of);
    notice(false, 1);
    try_cell_call(&of, (struct answer){.state = reckoned.state, .change = {0, reckoned.draws, reckoned.lost}, .bytes = expected});
    cell_laws(call);
}

/* ---- which cells ---- */

/* All pixels alike; the pads by chance. */
static void fill(uint8_t *cell, uint64_t zoom, uint64_t shutter, uint64_t pixel) {
    memset(cell, (int)pixel, pixels());
    cell[zoom_at(t)] = (uint8_t)zoom;
    set_shutter(cell, shutter);
    for (size_t i = shutter_at(t) + 4; i < depth(); i++) {
        cell[i] = (uint8_t)chance();
    }
}

/* At the ceiling, one level below, and at zoom 0. */
enum { AT_CEILING = 1, ALL_ZOOMS = 3 };

static uint64_t zoom_by(size_t place) {
    return place == 0 ? max_zoom : place == 1 ? max_zoom - 1 : 0;
}

/* Shutters of 0, 1 and one short of a unit; at zoom 0 there is only 0. */
static size_t shutters(uint64_t zoom) {
    return zoom == 0 ? 1 : 3;
}

static uint64_t shutter_by(size_t place, uint64_t zoom) {
    return place < 2 ? place : unit(zoom) - 1;
}

static void insertions(size_t zooms) {
    static const uint8_t credited[] = {255, 254, 128, 0}, others[] = {255, 254, 1, 0};
    for (size_t i = 0; i < zooms; i++) {
        for (size_t s = 0; s < shutters(zoom_by(i)); s++) {
            for (size_t k = 0; k < 16; k++) {
                uint64_t n = some_n();
                fill(given, zoom_by(i), shutter_by(s, zoom_by(i)), others[k / 4]);
                given[slot_of(n)] = credited[k % 4];
                try_cell(INSERT, n, 0, some_state());
            }
        }
    }
}

/* A shutter for a crossing; also one that the draw just does not round up, and the next, that it does. */
enum { CLOSINGS = 5 };

static uint64_t closing_by(size_t place, uint64_t zoom, uint64_t state) {
    if (place < 3) {
        return place < shutters(zoom) ? shutter_by(place, zoom) : 0;
    }
    begin(state);
    return (draw() % unit(zoom) + (place - 3)) % unit(zoom);
}

/* Not at all, by one, by as many as still close the shutter, by as many as do not, and far. */
static void crossing(uint64_t zoom, uint8_t credited, uint8_t others, size_t closing) {
    const uint64_t by[] = {0, 1, t + 1, t + 2, UINT64_MAX};
    for (size_t i = 0; i < sizeof by / sizeof by[0]; i++) {
        uint64_t ended = some_n();
        uint64_t state = some_state();
        fill(given, zoom, closing_by(closing, zoom, state), others);
        given[slot_of(ended)] = credited;
        try_cell(ENTER, by[i] == UINT64_MAX ? ended : ended + by[i], by[i], state);
    }
}

static void crossings(size_t zooms) {
    static const uint8_t credited[] = {255, 254, 7}, others[] = {255, 0, 31};
    for (size_t i = 0; i < zooms; i++) {
        for (size_t closing = 0; closing < CLOSINGS; closing++) {
            for (size_t k = 0; k < 9; k++) {
                crossing(zoom_by(i), credited[k % 3], others[k / 3], closing);
            }
        }
    }
}

/* Of the zooms `own` and `others`: pixels of n and beside it that make sums up to 511, shutters that carry or do not. */
static void merging(uint64_t own, uint64_t others) {
    static const uint8_t pairs[][2] = {{255, 255}, {255, 1}, {255, 0}, {128, 128}, {128, 127}, {200, 99}};
    static const uint8_t beside[][2] = {{0, 0}, {255, 255}, {254, 3}};
    static const uint8_t carries[][2] = {{0, 0}, {2, 0}, {2, 1}, {2, 2}};
    for (size_t i = 0; i < 6 * 3 * 4; i++) {
        const uint8_t *pair = pairs[i % 6], *next = beside[i / 6 % 3], *carry = carries[i / 18];
        uint64_t n = some_n();
        fill(given, own, shutter_by(own == 0 ? 0 : carry[0], own), next[0]);
        fill(src, others, shutter_by(others == 0 ? 0 : carry[1], others), next[1]);
        given[slot_of(n)] = pair[0];
        src[slot_of(n)] = pair[1];
        try_cell(MERGE, n, 0, some_state());
    }
}

static void mergings(size_t zooms) {
    for (size_t i = 0; i < zooms * zooms; i++) {
        merging(zoom_by(i / zooms), zoom_by(i % zooms));
    }
}

/* One level below the ceiling, c = 2: 511 by 2 is 255, or 256, of which a unit is cut at the ceiling. */
static void raised_and_cut(void) {
    settle(1, 2);
    for (unsigned i = 0; i < 1000; i++) {
        uint64_t n = some_n();
        fill(given, max_zoom - 1, unit(max_zoom - 1) - 1, chosen(256));
        fill(src, max_zoom - 1, unit(max_zoom - 1) - 1, chosen(256));
        given[slot_of(n)] = src[slot_of(n)] = FULL;
        try_cell(MERGE, n, 0, some_state());
    }
    print_score("raised to the ceiling and cut there");
    next_part();
}

static void every_base(void (*calls)(size_t zooms), const char *what) {
    for (uint64_t base = 2; base <= 256; base++) {
        settle(1, base);
        calls(ALL_ZOOMS);
        settle(2, base);
        calls(AT_CEILING);
        settle(12, base);
        calls(AT_CEILING);
    }
    print_score(what);
    next_part();
}

/* Cells of 4,104 bytes at the ceiling, all pixels full. Two of them lose 255 units a pixel, and one that the shutters carry. */
static void largest_cells(void) {
    for (uint64_t base = 2; base <= 256; base++) {
        settle(MOST_T, base);
        for (int call = 0; call < CELL_CALLS; call++) {
            uint64_t n = some_n();
            fill(given, max_zoom, unit(max_zoom) - 1, FULL);
            fill(src, max_zoom, unit(max_zoom) - 1, FULL);
            try_cell(call, n + 1, 1, some_state());
        }
    }
    print_score("t 4,096, every base");
    next_part();
}

static uint64_t some_zoom(void) {
    uint64_t kind = chosen(8);
    return kind < 5 ? max_zoom : kind < 7 ? max_zoom - 1 : chosen(max_zoom + 1);
}

static uint64_t some_shutter(uint64_t zoom) {
    uint64_t kind = chosen(4);
    return kind < 2 ? unit(zoom) - 1 : kind == 2 ? chosen(unit(zoom)) : 0;
}

static void some_cell(uint8_t *cell, uint64_t zoom) {
    fill(cell, zoom, some_shutter(zoom), 0);
    for (size_t i = 0; i < pixels(); i++) {
        uint64_t kind = chosen(8);
        cell[i] = (uint8_t)(kind < 4 ? FULL : kind == 4 ? FULL - 1 : chosen(FULL + 1));
    }
}

static uint64_t some_base(void) {
    static const uint16_t bases[] = {2, 2, 3, 4, 15, 16, 85, 255, 256};
    return chosen(2) == 0 ? bases[chosen(sizeof bases / sizeof bases[0])] : 2 + chosen(255);
}

static void some_cells(int call, unsigned times) {
    static const uint8_t windows[] = {1, 2, 3, 5, 12, 13};
    for (; times > 0; times--) {
        uint64_t window = windows[chosen(sizeof windows)];
        settle(window, some_base());
        uint64_t own = some_zoom();
        uint64_t others = chosen(2) == 0 ? own : some_zoom();
        some_cell(given, own);
        some_cell(src, others);
        uint64_t crossed = call == ENTER ? chosen(t + 4) : 0;
        uint64_t ended = chosen(2) == 0 ? chosen(1000) : UINT64_MAX - 2 * (t + 2) - chosen(1000);
        try_cell(call, ended + crossed, crossed, some_state());
    }
}

/* ---- refused calls on one cell, each of which would else lose ---- */

/* t, c, the random state, a byte short, 9, the zoom, the shutter; and of the cell that is merged in. */
enum { BAD_T, BAD_C, NO_STATE, TOO_SHORT, PAST_N, BAD_ZOOM, BAD_SHUTTER, SRC_TOO_SHORT, SRC_BAD_ZOOM, SPOILS };

/* The number that the call is refused by; 0 if it is not a call that this spoils. */
static uint64_t spoil_cell(int spoil, struct cell_call *of) {
    switch (spoil) {
    case BAD_T:
        of->t = chosen(2) == 0 ? 0 : MOST_T + 1;
        return MICROSCOPE_T;
    case BAD_C:
        of->c = chosen(2) == 0 ? 1 : 257;
        return MICROSCOPE_C;
    case NO_STATE:
        of->state = 0;
        return MICROSCOPE_STATE;
    case TOO_SHORT:
        of->bytes--;
        return MICROSCOPE_BYTES;
    case PAST_N:
        of->crossed = of->n + 1;
        return of->call == ENTER && of->n + 1 < t + 2 ? MICROSCOPE_CROSSED : 0;
    case BAD_ZOOM:
        given[zoom_at(t)]++;
        return MICROSCOPE_UNSOUND;
    case BAD_SHUTTER:
        set_shutter(given, unit(max_zoom));
        return MICROSCOPE_UNSOUND;
    case SRC_TOO_SHORT:
        of->src_bytes--;
        return of->call == MERGE ? MICROSCOPE_BYTES : 0;
    default:
        src[zoom_at(t)]++;
        return of->call == MERGE ? MICROSCOPE_UNSOUND : 0;
    }
}

static void refused_cells(void) {
    for (uint64_t base = 2; base <= 256; base++) {
        settle(2, base);
        for (int i = 0; i < CELL_CALLS * SPOILS; i++) {
            fill(given, max_zoom, unit(max_zoom) - 1, FULL);
            fill(src, max_zoom, unit(max_zoom) - 1, FULL);
            uint64_t n = 1 + chosen(2);
            struct cell_call of = call_of(i / SPOILS, n, 1, some_state());
            reckon_cell(&of);
            uint64_t number = spoil_cell(i % SPOILS, &of);
            if (number > 0) {
                notice(true, 1);
                try_cell_call(&of, (struct answer){.number = number, .state = of.state, .bytes = given});
            }
        }
    }
    print_score("refused, every base");
    next_part();
}

#endif
