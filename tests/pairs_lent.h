/* What a call of tests/pairs.c is lent: every part in memory of its own, with so many bytes behind it, or none. */
#ifndef PAIRS_LENT_H
#define PAIRS_LENT_H

#include "pairs_case.h"

/* Memory, what stood in its first bytes before the call, and how many bytes stand behind these, all MARK. */
struct part {
    void *at;
    const void *before;
    size_t count;
    size_t behind;
};

static struct part part_of(const void *before, size_t count, size_t behind) {
    struct part part = {exactly(count + behind), before, count, behind};
    memcpy(part.at, before, count);
    memset((uint8_t *)part.at + count, MARK, behind);
    return part;
}

static bool marked(const uint8_t *bytes, size_t count) {
    for (size_t i = 0; i < count; i++) {
        if (bytes[i] != MARK) {
            return false;
        }
    }
    return true;
}

static bool not_passed(const struct part *part) {
    return marked((const uint8_t *)part->at + part->count, part->behind);
}

static bool as_before(const struct part *part) {
    return same_bytes(part->at, part->before, part->count) && not_passed(part);
}

/* All that any call is lent; the last two are what it tells. */
enum {
    ITS_SKETCH, ITS_OTHER, ITS_WATCH, ITS_GRID, ITS_OTHER_GRID, ITS_STORE, ITS_KEY, ITS_COLUMNS, ITS_LIMITS,
    ITS_KEPT_COLUMNS, ITS_KEPT_LIMITS, LENT, ITS_FIGURES = LENT, ITS_TOLD, PARTS
};

struct lent {
    struct part part[PARTS];
};

/* Bytes of what a call tells, but for figures. */
static size_t told_by(enum call call) {
    switch (call) {
    case UPDATE:
    case UPDATE_AT:
    case ADVANCE_TO:
    case MERGE:
        return sizeof(microscope_change);
    case ESTIMATE:
    case ESTIMATE_WITH:
        return sizeof(microscope_items);
    case MEAN:
    case MAX_ZOOM:
        return sizeof(microscope_value);
    case AUDIT:
        return sizeof(microscope_found);
    case ASK:
        return sizeof(microscope_asked);
    case STORE_LENGTH:
    case SAVE:
    case LOAD:
        return sizeof(uint64_t);
    default:
        return 0;
    }
}

static size_t figures_by(enum call call) {
    return call == ESTIMATE || call == ESTIMATE_WITH ? sizeof(microscope_figures) : 0;
}

static struct lent lend(const struct content *content, const struct a_case *of, size_t behind) {
    static const uint64_t before[4] = {MARK, MARK, MARK, MARK};
    const uint64_t *words = of->words;
    bool codes = call_of(of) == SET_CODES;
    return (struct lent){{
        [ITS_SKETCH] = part_of(&content->sketch, sizeof content->sketch, behind),
        [ITS_OTHER] = part_of(&content->other, sizeof content->other, behind),
        [ITS_WATCH] = part_of(&content->watch, sizeof content->watch, behind),
        [ITS_GRID] = part_of(content->grid, words[GRID], behind),
        [ITS_OTHER_GRID] = part_of(content->other_grid, call_of(of) == MERGE ? words[OTHER_GRID] : 0, behind),
        [ITS_STORE] = part_of(content->store, words[STORE], behind),
        [ITS_KEY] = part_of(content->key, words[COLUMNS] * sizeof content->key[0], behind),
        [ITS_COLUMNS] = part_of(content->columns, codes ? words[LENT_COLUMNS] * sizeof content->columns[0] : 0, behind),
        [ITS_LIMITS] = part_of(content->limits, codes ? words[LENT_LIMITS] * sizeof content->limits[0] : 0, behind),
        [ITS_KEPT_COLUMNS] = part_of(content->kept_columns, sizeof content->kept_columns, behind),
        [ITS_KEPT_LIMITS] = part_of(content->kept_limits, sizeof content->kept_limits, behind),
        [ITS_FIGURES] = part_of(before, figures_by(call_of(of)), behind),
        [ITS_TOLD] = part_of(before, told_by(call_of(of)), behind),
    }};
}

static void give_back(struct lent *lent) {
    for (size_t i = 0; i < PARTS; i++) {
        free(lent->part[i].at);
    }
}

#endif
