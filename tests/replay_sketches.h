/*
 * The file `sketches`: calls on two sketches, each of which goes on from where the last call on it left it. Two kinds of
 * records are steps. After these too n, seen or now, the state and the grid must be the record's.
 */
#ifndef REPLAY_SKETCHES_H
#define REPLAY_SKETCHES_H

#include "replay.h"

enum {
    MAKE = 1, SET_CLOCK = 2, UPDATE = 3, UPDATE_AT = 4, ADVANCE_TO = 5, ESTIMATE = 6, ESTIMATE_WITH = 7, MERGE = 8,
    MAX_ZOOM = 9, SET_GRID = 10, SKETCH_KINDS = 11
};

static struct kind sketch_kinds[SKETCH_KINDS] = {
    [MAKE] = {.name = "with_dimensions"},
    [SET_CLOCK] = {.name = "seen or now and the state set", .step = true},
    [UPDATE] = {.name = "update"},
    [UPDATE_AT] = {.name = "update_at"},
    [ADVANCE_TO] = {.name = "advance_to"},
    [ESTIMATE] = {.name = "estimate"},
    [ESTIMATE_WITH] = {.name = "estimate_with"},
    [MERGE] = {.name = "merge"},
    [MAX_ZOOM] = {.name = "max_zoom"},
    [SET_GRID] = {.name = "grid set", .step = true},
};

/* A sketch and its grid, in memory of just its size. */
struct slot {
    microscope_sketch sketch;
    uint8_t *grid;
    size_t bytes;
};

static struct slot slots[2];

/* A record with what follows its header: words and columns as numbers, the grid after the call, or no bytes. */
struct call {
    const uint8_t *header;
    uint64_t words[8];
    uint32_t *key;
    size_t columns;
    uint8_t *shown;
    size_t shown_bytes;
};

static struct call read_call(FILE *in, const uint8_t *header) {
    struct call call = {.header = header, .columns = u16_at(header, 4), .shown_bytes = u32_at(header, 8)};
    size_t count = byte_at(header, 3) < 8 ? byte_at(header, 3) : 8;
    uint8_t *words = bytes_from(in, 8 * count);
    for (size_t i = 0; i < count; i++) {
        call.words[i] = u64_at(words, 8 * i);
    }
    free(words);
    uint8_t *columns = bytes_from(in, 2 * call.columns);
    call.key = exactly(call.columns * sizeof call.key[0]);
    for (size_t i = 0; i < call.columns; i++) {
        call.key[i] = (uint32_t)u16_at(columns, 2 * i);
    }
    free(columns);
    call.shown = bytes_from(in, call.shown_bytes);
    return call;
}

/* docs/ORACLE.md's digest. */
static uint64_t digest(const struct slot *slot) {
    uint64_t sum = 0;
    for (size_t i = 0; i < slot->bytes; i++) {
        sum = (sum * 257 + slot->grid[i] + 1) % UINT64_C(36028797018963913);
    }
    return sum;
}

/* Document 01's number, and the draws, of the calls that one record has. */
struct made {
    uint64_t number;
    uint64_t draws;
};

static struct made make(struct slot *slot, const struct call *call) {
    const uint64_t *w = call->words;
    microscope_watch watch;
    free(slot->grid);
    slot->bytes = MICROSCOPE_GRID_BYTES(w[0], w[1], w[2]);
    slot->grid = exactly(slot->bytes);
    memset(slot->grid, 255, slot->bytes);
    uint64_t number =
        microscope_new(&slot->sketch, &watch, w[0], w[1], w[2], w[3], w[4], w[5], w[6], w[7], slot->grid, slot->bytes);
    return (struct made){number, 0};
}

static struct made count_items(struct slot *slot, const struct call *call) {
    struct made made = {0, 0};
    for (uint64_t times = u32_at(call->header, 12); times > 0; times--) {
        microscope_change change;
        uint64_t number =
            byte_at(call->header, 0) == UPDATE
                ? microscope_update(&slot->sketch, call->key, call->columns, slot->grid, slot->bytes, &change)
                : microscope_update_at(&slot->sketch, call->key, call->columns, u64_at(call->header, 16), slot->grid,
                                       slot->bytes, &change);
        made.number = made.number == 0 ? number : made.number;
        made.draws += change.draws;
    }
    return made;
}

static struct made advance(struct slot *slot, const struct call *call) {
    microscope_change change;
    uint64_t number = microscope_advance_to(&slot->sketch, u64_at(call->header, 16), slot->grid, slot->bytes, &change);
    return (struct made){number, change.draws};
}

static struct made merge(struct slot *slot, const struct call *call) {
    struct slot *other = slot == &slots[0] ? &slots[1] : &slots[0];
    microscope_sketch others = other->sketch;
    microscope_change change;
    uint64_t number =
        microscope_merge(&slot->sketch, slot->grid, slot->bytes, &other->sketch, other->grid, other->bytes, &change);
    hold("digest of the grid merged in", call->words[0], digest(other));
    hold("the other sketch is as it was", 1, same_bytes(&others, &other->sketch, sizeof others));
    return (struct made){number, change.draws};
}

/* Over and Under come as whole numbers too. A refused reading tells 0, as the record's words then are. */
static struct made estimate(struct slot *slot, const struct call *call) {
    microscope_figures figures;
    microscope_items items;
    uint64_t number =
        byte_at(call->header, 0) == ESTIMATE
            ? microscope_estimate(&slot->sketch, call->key, call->columns, slot->grid, slot->bytes, &figures, &items)
            : microscope_estimate_with(&slot->sketch, call->key, call->columns, double_of(u64_at(call->header, 16)),
                                       slot->grid, slot->bytes, &figures, &items);
    hold("bits of Over", bits_of(double_of(call->words[0])), bits_of(figures.over));
    hold("bits of Under", bits_of(double_of(call->words[1])), bits_of(figures.under));
    hold("bits of Linear", bits_of(double_of(call->words[2])), bits_of(figures.linear));
    hold("bits of the fraction", bits_of(double_of(call->words[3])), bits_of(figures.fraction));
    hold("bits of Over from a whole number", bits_of(figures.over), bits_of((double)items.over));
    hold("bits of Under from a whole number", bits_of(figures.under), bits_of((double)items.under));
    return (struct made){number, 0};
}

static struct made highest(struct slot *slot, const struct call *call) {
    microscope_value zoom;
    uint64_t number = microscope_max_zoom(&slot->sketch, slot->grid, slot->bytes, &zoom);
    hold("max_zoom", call->words[0], zoom.value);
    return (struct made){number, 0};
}

static struct made set(struct slot *slot, const struct call *call) {
    if (byte_at(call->header, 0) == SET_CLOCK) {
        slot->sketch.reading = call->words[0];
        slot->sketch.state = call->words[1];
    } else if (call->shown_bytes == slot->bytes) {
        memcpy(slot->grid, call->shown, slot->bytes);
    }
    return (struct made){0, 0};
}

static struct made perform(struct slot *slot, const struct call *call) {
    switch (byte_at(call->header, 0)) {
    case MAKE:
        return make(slot, call);
    case UPDATE:
    case UPDATE_AT:
        return count_items(slot, call);
    case ADVANCE_TO:
        return advance(slot, call);
    case ESTIMATE:
    case ESTIMATE_WITH:
        return estimate(slot, call);
    case MERGE:
        return merge(slot, call);
    case MAX_ZOOM:
        return highest(slot, call);
    default:
        return set(slot, call);
    }
}

/* Rows, cols, t, c, and the clock's kind, length and epoch are those of before, or those that a fresh sketch was given. */
static void hold_settings(const microscope_sketch *before, const struct slot *slot, const struct call *call) {
    const void *expected = byte_at(call->header, 0) == MAKE ? (const void *)call->words : (const void *)before;
    hold("settings kept", 1, same_bytes(expected, &slot->sketch, 7 * sizeof(uint64_t)));
}

static void replay_one_sketch(const struct call *call) {
    const uint8_t *header = call->header;
    struct slot *slot = &slots[byte_at(header, 1) & 1];
    microscope_sketch before = slot->sketch;
    struct made made = perform(slot, call);
    hold("refused by", byte_at(header, 2), made.number);
    hold("draws", u64_at(header, 48), made.draws);
    hold("n", u64_at(header, 24), sub_window(&slot->sketch));
    hold("seen or now", u64_at(header, 32), slot->sketch.reading);
    hold("state", u64_at(header, 40), slot->sketch.state);
    hold("digest of the grid", u64_at(header, 56), digest(slot));
    hold_settings(&before, slot, call);
    if (call->shown_bytes > 0) {
        hold("bytes of the grid", call->shown_bytes, slot->bytes);
        hold_bytes("grid", call->shown, slot->grid, call->shown_bytes < slot->bytes ? call->shown_bytes : slot->bytes);
    }
}

static void replay_sketches(FILE *in) {
    uint8_t header[64];
    while (next_header(in, header, sizeof header)) {
        struct kind *kind = kind_of(sketch_kinds, SKETCH_KINDS, byte_at(header, 0));
        struct call call = read_call(in, header);
        replay_one_sketch(&call);
        end_record(kind);
        free(call.key);
        free(call.shown);
    }
    free(slots[0].grid);
    free(slots[1].grid);
}

#endif
