/*
 * How tests/lost.c compares: what came of a call beside what is reckoned of it (lost_reckoned.h), the laws of document 02, and
 * how many calls each mistake would have got wrong.
 */
#ifndef LOST_SCORE_H
#define LOST_SCORE_H

#include "lost_reckoned.h"

/* ---- by chance: splitmix64 from a fixed seed, so the same in every run ---- */

static uint64_t chance(void) {
    static uint64_t at = 4;
    at += UINT64_C(0x9E3779B97F4A7C15);
    uint64_t x = at;
    x = (x ^ x >> 30) * UINT64_C(0xBF58476D1CE4E5B9);
    x = (x ^ x >> 27) * UINT64_C(0x94D049BB133111EB);
    return x ^ x >> 31;
}

static uint64_t chosen(uint64_t below) {
    return chance() % below;
}

static uint64_t some_state(void) {
    uint64_t state = chance();
    return state == 0 ? 1 : state;
}

/* A sub-window, far below the last of all or close to it; t + 2 more are still to come. */
static uint64_t some_n(void) {
    uint64_t some = chosen(1000);
    return chosen(2) == 0 ? some : UINT64_MAX - (t + 2) - some;
}

/* ---- what came of a call, beside what is reckoned ---- */

enum {
    DROP_NOT_COUNTED, RAISE_COUNTED, CLOSING_FORGOTTEN, ONE_ROW, AS_PIXELS, CLEARED_COUNTED, REFUSED_TELLS, SWAPPED, IN_ITEMS, MISTAKES
};

static struct {
    unsigned calls, refused, right, losing, laws, held;
    unsigned in_rows[MOST_ROWS + 1], several_closed, far_jumps; /* of the sketches */
    uint64_t units;
} score;

static unsigned all_calls, all_right, noticed[MISTAKES];

/* Where a mistake would have told another number than the reckoned one. Of a refused call, which tells 0, what it would else lose. */
static void notice(bool refused, uint64_t rows) {
    uint64_t lost = reckoned.lost;
    if (refused) {
        noticed[REFUSED_TELLS] += lost != 0;
        return;
    }
    noticed[DROP_NOT_COUNTED] += lost - reckoned.dropped != lost;
    noticed[RAISE_COUNTED] += lost + reckoned.raises + reckoned.above != lost;
    noticed[CLOSING_FORGOTTEN] += lost - reckoned.drops_closing != lost;
    noticed[ONE_ROW] += reckoned.of_row[rows - 1] != lost;
    noticed[AS_PIXELS] += lost - reckoned.cut + reckoned.cut_pixels != lost;
    noticed[CLEARED_COUNTED] += lost + reckoned.cleared != lost;
    noticed[SWAPPED] += reckoned.draws != lost;
    noticed[IN_ITEMS] += lost * unit(max_zoom) != lost;
}

/* What a call returned, told and left; `wrote` is whether something else that it was lent is not as it was. */
struct answer {
    uint64_t number, reading, state;
    microscope_change change;
    const uint8_t *bytes;
    bool wrote;
};

/* The call that is made, for the one who reads of a difference: `by` is how many sub-windows are crossed, or the time stamp. */
static struct {
    const char *name;
    uint64_t rows, cols, n, by;
    const uint32_t *key;
    const uint8_t *bytes, *others;
} shown;

enum { MOST_SHOWN = MOST_GRID };

static void show_bytes(const char *word, const uint8_t *bytes, size_t count) {
    printf("\n  %s:", word);
    for (size_t i = 0; i < count && i < MOST_SHOWN; i++) {
        printf(" %u", (unsigned)bytes[i]);
    }
    if (count > MOST_SHOWN) {
        printf(" .. of %zu bytes", count);
    }
}

static void show_answer(const char *word, const struct answer *of, size_t count) {
    printf("\n  %s: ", word);
    print_verdict(of->number, of->change.index, " at index ");
    printf(", index %" PRIu64 ", draws %" PRIu64 ", lost %" PRIu64 ", reading %" PRIu64 ", state %" PRIu64 "%s", of->change.index,
           of->change.draws, of->change.lost, of->reading, of->state, of->wrote ? ", WROTE ELSEWHERE" : "");
    show_bytes("left", of->bytes, count);
}

static void show_key(void) {
    printf(", key");
    for (size_t row = 0; row < shown.rows; row++) {
        printf(" %" PRIu32, shown.key[row]);
    }
}

static void show_difference(const struct answer *came, const struct answer *right, size_t count, uint64_t state) {
    size_t at = 0;
    while (at < count && came->bytes[at] == right->bytes[at]) {
        at++;
    }
    printf("DIFFERENCE: %s, rows %" PRIu64 " cols %" PRIu64 " t %" PRIu64 " c %" PRIu64, shown.name, shown.rows, shown.cols, t, c);
    printf(", n %" PRIu64 ", by %" PRIu64 ", state %" PRIu64, shown.n, shown.by, state);
    if (shown.key != NULL) {
        show_key();
    }
    show_bytes("cells", shown.bytes, count);
    if (shown.others != NULL) {
        show_bytes("merged in", shown.others, count);
    }
    show_answer("came", came, count);
    show_answer("EXPECTED", right, count);
    if (at < count) {
        printf("\n  byte %zu: %u, EXPECTED %u", at, (unsigned)came->bytes[at], (unsigned)right->bytes[at]);
    }
    printf("\n");
}

static bool same_answer(const struct answer *came, const struct answer *right, size_t count) {
    return came->number == right->number && same_bytes(&came->change, &right->change, sizeof came->change) &&
           came->reading == right->reading && came->state == right->state && !came->wrote &&
           same_bytes(came->bytes, right->bytes, count);
}

/* The first difference of all is shown whole. */
static void compare(const struct answer *came, const struct answer *right, size_t count, uint64_t state) {
    static bool differed;
    bool same = same_answer(came, right, count);
    if (!same && !differed) {
        show_difference(came, right, count, state);
        differed = true;
    }
    score.calls++;
    score.right += same;
    score.refused += right->number != MICROSCOPE_ACCEPTED;
    score.losing += right->change.lost > 0;
    score.units += right->change.lost;
}

static void law(bool holds) {
    score.laws++;
    score.held += holds;
}

static void print_score(const char *what) {
    printf("%s: %u calls, %u of them refused; as reckoned: %u; %u lose, %" PRIu64 " units; laws: %u, held: %u\n", what, score.calls,
           score.refused, score.right, score.losing, score.units, score.laws, score.held);
}

static void next_part(void) {
    all_calls += score.calls;
    all_right += score.right;
    memset(&score, 0, sizeof score);
}

static void print_mistakes(void) {
    printf("all: %u calls; as reckoned: %u\n", all_calls, all_right);
    printf("  wrong would be, a drop not counted: %u, a raise counted as a loss: %u, the closing's drop forgotten: %u, the last row's loss "
           "told for all: %u,\n",
           noticed[DROP_NOT_COUNTED], noticed[RAISE_COUNTED], noticed[CLOSING_FORGOTTEN], noticed[ONE_ROW]);
    printf("  pixels that are cut for units: %u, a cleared pixel counted: %u, told by a refused call: %u, lost and draws swapped: %u, "
           "items for units: %u\n",
           noticed[AS_PIXELS], noticed[CLEARED_COUNTED], noticed[REFUSED_TELLS], noticed[SWAPPED], noticed[IN_ITEMS]);
}

#endif
