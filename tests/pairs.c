/*
 * Makes the recorded calls, of which nearly all are refused, and compares number, index and what must be left as it was.
 * The cases, pairs.data, come on standard input; docs/PAIRS.md has their format, and pairs.out what this must print.
 *
 * Each call is made twice: with all that it is lent in memory of just its size, where valgrind sees a byte that is read or
 * written outside; and with a few bytes behind each, which are compared.
 */
#include "pairs_lent.h"

static const char *const NAMES[CALLS] = {
    "with_dimensions", "update", "update_at", "advance_to", "estimate", "estimate_with", "mean", "bucket_check",
    "max_zoom", "audit", "merge", "store_length", "save", "load", "set_codes", "ask",
};

/* Bytes behind what is lent, the second time. */
enum { BEHIND = 64 };

/* ---- the calls ---- */

static uint64_t start(const struct a_case *of, struct lent *lent) {
    const uint64_t *s = of->words + SKETCH;
    return microscope_new(lent->part[ITS_SKETCH].at, lent->part[ITS_WATCH].at, s[0], s[1], s[2], s[3], s[4], s[5], s[6],
                          of->words[ARGUMENT], lent->part[ITS_GRID].at, of->words[GRID]);
}

/* The double of these bits. */
static double figure(uint64_t bits) {
    double number;
    memcpy(&number, &bits, sizeof number);
    return number;
}

/* The calls that change nothing. */
static uint64_t look(const struct a_case *of, struct lent *lent) {
    const uint64_t *words = of->words;
    const microscope_sketch *sketch = lent->part[ITS_SKETCH].at;
    const uint8_t *grid = lent->part[ITS_GRID].at;
    const uint32_t *key = lent->part[ITS_KEY].at;
    microscope_figures *figures = lent->part[ITS_FIGURES].at;
    void *told = lent->part[ITS_TOLD].at;
    switch (call_of(of)) {
    case ESTIMATE:
        return microscope_estimate(sketch, key, words[COLUMNS], grid, words[GRID], figures, told);
    case ESTIMATE_WITH:
        return microscope_estimate_with(sketch, key, words[COLUMNS], figure(words[ARGUMENT]), grid, words[GRID],
                                        figures, told);
    case MEAN:
        return microscope_mean(sketch, key, words[COLUMNS], grid, words[GRID], told);
    case BUCKET_CHECK:
        return microscope_bucket_check(sketch, words[ARGUMENT], words[COLUMN], grid, words[GRID]);
    case MAX_ZOOM:
        return microscope_max_zoom(sketch, grid, words[GRID], told);
    case AUDIT:
        return microscope_audit(sketch, grid, words[GRID], told);
    default:
        return microscope_store_length(sketch, told);
    }
}

static uint64_t on_codes(const struct a_case *of, struct lent *lent) {
    const uint64_t *words = of->words;
    const microscope_sketch *sketch = lent->part[ITS_SKETCH].at;
    microscope_watch *watch = lent->part[ITS_WATCH].at;
    uint32_t *kept_columns = lent->part[ITS_KEPT_COLUMNS].at;
    uint64_t *kept_limits = lent->part[ITS_KEPT_LIMITS].at;
    if (call_of(of) == SET_CODES) {
        return microscope_set_codes(sketch, watch, lent->part[ITS_COLUMNS].at, words[LENT_COLUMNS],
                                    lent->part[ITS_LIMITS].at, words[LENT_LIMITS], kept_columns, kept_limits);
    }
    return microscope_ask(sketch, watch, kept_columns, kept_limits, lent->part[ITS_GRID].at, words[GRID],
                          lent->part[ITS_STORE].at, words[STORE], lent->part[ITS_TOLD].at);
}

static uint64_t perform(const struct a_case *of, struct lent *lent) {
    const uint64_t *words = of->words;
    microscope_sketch *sketch = lent->part[ITS_SKETCH].at;
    uint8_t *grid = lent->part[ITS_GRID].at;
    const uint32_t *key = lent->part[ITS_KEY].at;
    uint8_t *store = lent->part[ITS_STORE].at;
    void *told = lent->part[ITS_TOLD].at;
    switch (call_of(of)) {
    case WITH_DIMENSIONS:
        return start(of, lent);
    case UPDATE:
        return microscope_update(sketch, key, words[COLUMNS], grid, words[GRID], told);
    case UPDATE_AT:
        return microscope_update_at(sketch, key, words[COLUMNS], words[ARGUMENT], grid, words[GRID], told);
    case ADVANCE_TO:
        return microscope_advance_to(sketch, words[ARGUMENT], grid, words[GRID], told);
    case MERGE:
        return microscope_merge(sketch, grid, words[GRID], lent->part[ITS_OTHER].at, lent->part[ITS_OTHER_GRID].at,
                                words[OTHER_GRID], told);
    case SAVE:
        return microscope_save(sketch, grid, words[GRID], store, words[STORE], told);
    case LOAD:
        return microscope_load(sketch, lent->part[ITS_WATCH].at, grid, words[GRID], store, words[STORE], told);
    case SET_CODES:
    case ASK:
        return on_codes(of, lent);
    default:
        return look(of, lent);
    }
}

/* ---- what came, beside what the case has ---- */

struct outcome {
    uint64_t number;
    uint64_t index;
    bool kept;
};

/* The index is the first word of what a call tells, but for the length of a store. */
static bool tells_an_index(enum call call) {
    return told_by(call) > 0 && call != STORE_LENGTH;
}

/* An audit's index is what it found: 1 more than the cell's, so that 0 says that every cell is sound. */
static uint64_t index_in(enum call call, const struct lent *lent) {
    const uint64_t *told = lent->part[ITS_TOLD].at;
    if (!tells_an_index(call)) {
        return 0;
    }
    return call == AUDIT && told[1] != 0 ? told[0] + 1 : told[0];
}

static bool zeros(const uint8_t *bytes, size_t count) {
    for (size_t i = 0; i < count; i++) {
        if (bytes[i] != 0) {
            return false;
        }
    }
    return true;
}

/* What a refused call tells is 0, but for an index. */
static bool tells_nothing(enum call call, const struct lent *lent) {
    const struct part *told = &lent->part[ITS_TOLD];
    const struct part *figures = &lent->part[ITS_FIGURES];
    size_t index = tells_an_index(call) ? sizeof(uint64_t) : 0;
    return zeros((const uint8_t *)told->at + index, told->count - index) && zeros(figures->at, figures->count);
}

static bool lent_as_before(const struct lent *lent) {
    for (size_t i = 0; i < LENT; i++) {
        if (!as_before(&lent->part[i])) {
            return false;
        }
    }
    return true;
}

static bool none_passed(const struct lent *lent) {
    for (size_t i = 0; i < PARTS; i++) {
        if (!not_passed(&lent->part[i])) {
            return false;
        }
    }
    return true;
}

/* Of an accepted call only what stands behind is compared here. */
static bool kept(enum call call, uint64_t number, const struct lent *lent) {
    bool refused = number != MICROSCOPE_ACCEPTED;
    return none_passed(lent) && (!refused || (lent_as_before(lent) && tells_nothing(call, lent)));
}

static struct outcome outcome_of(const struct content *content, const struct a_case *of, size_t behind) {
    struct lent lent = lend(content, of, behind);
    uint64_t number = perform(of, &lent);
    struct outcome came = {number, index_in(call_of(of), &lent), kept(call_of(of), number, &lent)};
    give_back(&lent);
    return came;
}

static bool right(const struct a_case *of, const struct outcome *came) {
    return came->number == of->words[NUMBER] && came->index == of->words[INDEX] && came->kept;
}

/* The index where it says something: with 14, and what an audit found. */
static void tell_verdict(enum call call, uint64_t number, uint64_t index) {
    printf("%" PRIu64, number);
    if (number == MICROSCOPE_UNSOUND || (number == MICROSCOPE_ACCEPTED && call == AUDIT)) {
        printf(" with %" PRIu64, index);
    }
}

/* `update, case 252: expected 3 beside 7, came 7` */
static void tell_wrong(const struct a_case *of, const struct outcome *came, uint64_t place) {
    printf("%s, case %" PRIu64 ": expected ", NAMES[call_of(of)], place);
    tell_verdict(call_of(of), of->words[NUMBER], of->words[INDEX]);
    if (of->words[SECOND] > 0) {
        printf(" beside %" PRIu64, of->words[SECOND]);
    }
    printf(", came ");
    tell_verdict(call_of(of), came->number, came->index);
    printf(came->kept ? "\n" : ", and something was changed\n");
}

/* ---- all of them ---- */

/* By call: how many cases there were, and how many were wrong. */
static uint64_t cases[CALLS], wrong[CALLS];

/* Makes the call twice, and tells it if it is the first wrong one of its kind. */
static void try_case(const struct a_case *of, const struct content *content, uint64_t place) {
    struct outcome exact = outcome_of(content, of, 0);
    struct outcome roomy = outcome_of(content, of, BEHIND);
    cases[call_of(of)]++;
    if (right(of, &exact) && right(of, &roomy)) {
        return;
    }
    if (wrong[call_of(of)]++ == 0) {
        tell_wrong(of, right(of, &exact) ? &roomy : &exact, place);
    }
}

/* Whether there is room for what only calls of this kind are lent. */
static bool own_fits(const uint64_t *words) {
    switch (words[THE_CALL]) {
    case MERGE:
        return words[OTHER_GRID] <= ROOM;
    case SET_CODES:
        return words[LENT_COLUMNS] <= CODE_COLUMNS && words[LENT_LIMITS] <= CODE_LIMITS && words[ARGUMENT] <= CODE_COLUMNS;
    case ASK:
        return words[ARGUMENT] <= MICROSCOPE_KEPT_COLUMNS;
    default:
        return words[THE_CALL] < CALLS;
    }
}

/* Whether the case is of a call that there is, and all that it is lent has room. */
static bool fits(const struct a_case *of) {
    const uint64_t *words = of->words;
    return words[GRID] <= ROOM && words[COLUMNS] <= KEY && words[STORE] <= ROOM && own_fits(words);
}

/* The store of a load, which follows its case. */
static bool read_store(const struct a_case *of, struct content *content) {
    size_t size = call_of(of) == LOAD ? of->words[STORE] : 0;
    return fread(content->store, 1, size, stdin) == size;
}

/* The next case: read, called, compared. False where there is none. */
static bool turn(uint64_t place) {
    static struct content content;
    struct a_case next;
    size_t got = fread(&next, 1, sizeof next, stdin);
    if (got == 0) {
        return false;
    }
    memset(&content, 0, sizeof content);
    if (got < sizeof next || !fits(&next) || !read_store(&next, &content)) {
        printf("a case is cut short, or longer than the format allows\n");
        return false;
    }
    write_content(&content, &next);
    try_case(&next, &content, place);
    return true;
}

static void try_all(void) {
    uint64_t place = 1;
    while (turn(place)) {
        place++;
    }
}

static void report(void) {
    for (size_t call = 0; call < CALLS; call++) {
        printf("%s: %" PRIu64 " cases, %" PRIu64 " wrong\n", NAMES[call], cases[call], wrong[call]);
    }
}

int main(void) {
    try_all();
    report();
    return 0;
}
