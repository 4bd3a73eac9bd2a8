/* The file `cells`: the edge has each of these calls. How many pixels a cell has is seen by which of its bytes a call reads. */
#ifndef REPLAY_CELLS_H
#define REPLAY_CELLS_H

#include "replay.h"

enum { INSERT = 1, ENTER = 2, MERGE_CELLS = 3, LAYOUT = 4, FIELDS = 5, CELL_KINDS = 6 };

static struct kind cell_kinds[CELL_KINDS] = {
    [INSERT] = {.name = "insert"},
    [ENTER] = {.name = "enter_sub_window"},
    [MERGE_CELLS] = {.name = "merge_cells"},
    [LAYOUT] = {.name = "depth and max_zoom"},
    [FIELDS] = {.name = "zoom, shutter and scaled_pixel"},
};

/* The call works on the record's first cell and must leave its last; between them stands one that is merged in. */
static void change_cell(const uint8_t *record, uint8_t *cells) {
    size_t depth = u16_at(record, 6);
    uint64_t t = u16_at(record, 2), c = u16_at(record, 4), n = u64_at(record, 16), state = u64_at(record, 32);
    const uint8_t *expected = cells + (byte_at(record, 1) - 1) * depth;
    uint8_t *cell = exact_copy(cells, depth), *src = exact_copy(cells + depth, depth);
    microscope_change change;
    uint64_t number;
    switch (byte_at(record, 0)) {
    case INSERT:
        number = microscope_cell_insert(cell, depth, t, c, n, &state, &change);
        break;
    case ENTER:
        number = microscope_cell_enter_sub_window(cell, depth, t, c, n, u64_at(record, 24), &state, &change);
        break;
    default:
        number = microscope_cell_merge(cell, depth, src, depth, t, c, n, &state, &change);
        break;
    }
    hold("refused by", 0, number);
    hold("draws", u32_at(record, 8), change.draws);
    hold("state", u64_at(record, 40), state);
    hold_bytes("cell", expected, cell, depth);
    hold_bytes("cell merged in", cells + depth, src, depth);
    free(cell);
    free(src);
}

/* There are so many pixels, if sub-window pixels - 1 is read from the last of them, and the one behind it from the first. */
static void hold_pixels(const uint8_t *record, uint64_t pixels) {
    size_t depth = u16_at(record, 6);
    uint64_t t = u16_at(record, 2), c = u16_at(record, 4);
    uint8_t *cell = exactly(depth);
    double last, behind;
    hold("pixels within the cell", 1, 0 < pixels && pixels <= depth);
    memset(cell, 0, depth);
    cell[0] = 1;
    cell[(pixels - 1) % depth] = 2;
    hold("refused by", 0, microscope_cell_scaled_pixel(cell, depth, t, c, pixels - 1, &last));
    hold("refused by", 0, microscope_cell_scaled_pixel(cell, depth, t, c, pixels, &behind));
    hold("bits of the last pixel", bits_of(2), bits_of(last));
    hold("bits of the one behind it", bits_of(1), bits_of(behind));
    free(cell);
}

static void lay_out(const uint8_t *record) {
    uint64_t depth, zoom;
    hold("refused by", 0, microscope_depth(u16_at(record, 2), u16_at(record, 4), &depth));
    hold("refused by", 0, microscope_base_max_zoom(u16_at(record, 4), &zoom));
    hold("depth", u16_at(record, 6), depth);
    hold("max_zoom", u64_at(record, 24), zoom);
    hold_pixels(record, u64_at(record, 16));
}

static void read_cell(const uint8_t *record, const uint8_t *cell) {
    size_t depth = u16_at(record, 6);
    uint64_t t = u16_at(record, 2), c = u16_at(record, 4), zoom, shutter;
    double items;
    hold("refused by", 0, microscope_cell_zoom(cell, depth, t, c, &zoom));
    hold("refused by", 0, microscope_cell_shutter(cell, depth, t, c, &shutter));
    hold("refused by", 0, microscope_cell_scaled_pixel(cell, depth, t, c, u64_at(record, 16), &items));
    hold("zoom", u64_at(record, 32), zoom);
    hold("shutter", u64_at(record, 40), shutter);
    hold("bits of scaled_pixel", bits_of(double_of(u64_at(record, 24))), bits_of(items));
}

static void replay_cell(const uint8_t *record, uint8_t *cells) {
    switch (byte_at(record, 0)) {
    case LAYOUT:
        lay_out(record);
        break;
    case FIELDS:
        read_cell(record, cells);
        break;
    default:
        change_cell(record, cells);
        break;
    }
}

/* How many cells follow a record of each kind. */
static const uint64_t cells_behind[CELL_KINDS] = {
    [INSERT] = 2, [ENTER] = 2, [MERGE_CELLS] = 3, [LAYOUT] = 0, [FIELDS] = 1};

static void replay_cells(FILE *in) {
    uint8_t record[48];
    while (next_header(in, record, sizeof record)) {
        struct kind *kind = kind_of(cell_kinds, CELL_KINDS, byte_at(record, 0));
        hold("cells behind the record", cells_behind[byte_at(record, 0)], byte_at(record, 1));
        uint8_t *cells = bytes_from(in, byte_at(record, 1) * u16_at(record, 6));
        replay_cell(record, cells);
        end_record(kind);
        free(cells);
    }
}

#endif
