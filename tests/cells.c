/*
 * Document 01, "Turning a call back", run on one cell: every number that a call on a cell can give, at its edges, and
 * beside each edge what is accepted. cells.out has what this must print.
 *
 * The calls on settings alone are not here: of what they answer the library gives only the depth and the highest zoom.
 * The worked examples in crates/cell/proofs/SettingsExamples.antt have it whole. tests/sizes.c has the depth.
 *
 * A cell of t = 1 is written as its eight bytes: three pixels, the zoom, the four bytes of the shutter.
 */
#include "tests.h"

/* Bytes as they are lent: an address and a length. */
struct bytes {
    const uint8_t *at;
    size_t count;
};

#define CELL(...) ((struct bytes){(const uint8_t[]){__VA_ARGS__}, sizeof(const uint8_t[]){__VA_ARGS__}})

/* Of t = 1: a cell in order, one byte short, one byte long, with a zoom above every max_zoom, and that one byte long. */
#define SOUND CELL(5, 0, 0, 0, 0, 0, 0, 0)
#define SHORT CELL(5, 0, 0, 0, 0, 0, 0)
#define LONG CELL(5, 0, 0, 0, 0, 0, 0, 0, 0)
#define UNSOUND CELL(5, 0, 0, 32, 0, 0, 0, 0)
#define UNSOUND_AND_LONG CELL(5, 0, 0, 32, 0, 0, 0, 0, 0)

/* A cell of more bytes is told by its sum. The most bytes are those of the largest cell, and one. */
enum { SHOWN = 12, ROOM = MICROSCOPE_DEPTH(4096) + 1 };

/* ---- what is told of a call ---- */

static void tell_settings(const char *call, uint64_t t, uint64_t c) {
    printf("%s t %" PRIu64 " c %" PRIu64, call, t, c);
}

static void tell_each(struct bytes cell) {
    for (size_t i = 0; i < cell.count; i++) {
        printf(" %u", (unsigned)cell.at[i]);
    }
}

static void tell_cell(const char *name, struct bytes cell) {
    printf(", %s", name);
    if (cell.count <= SHOWN) {
        tell_each(cell);
        return;
    }
    printf(" of %zu bytes with sum %" PRIu64, cell.count, weighed(cell.at, cell.count));
}

static void tell_verdict(const char *words, uint64_t number, uint64_t index) {
    printf("%s", words);
    print_verdict(number, index, " at index ");
}

/* A call that reads a cell tells no index. */
static void tell_number(const char *words, uint64_t number, uint64_t value) {
    tell_verdict(words, number, 0);
    printf(" %" PRIu64, value);
}

static void tell_figure(const char *words, uint64_t number, double value) {
    uint64_t bits;
    memcpy(&bits, &value, sizeof bits);
    tell_verdict(words, number, 0);
    printf(" %016" PRIx64, bits);
}

static void tell_state(uint64_t after, uint64_t before) {
    if (after == before) {
        printf(", state as it was");
    } else {
        printf(", state %" PRIu64, after);
    }
}

static void tell_left(struct bytes left, struct bytes given) {
    if (same_bytes(left.at, given.at, given.count)) {
        printf(", cell as it was");
    } else {
        tell_cell("cell", left);
    }
}

/* ---- the calls, each with a line; every cell, state and told number is lent in memory of its own size ---- */

static void tell_zoom(struct bytes cell, uint64_t t, uint64_t c) {
    uint64_t *zoom = exactly(sizeof *zoom);
    uint64_t number = microscope_cell_zoom(cell.at, cell.count, t, c, zoom);
    tell_number(", zoom ", number, *zoom);
    free(zoom);
}

static void tell_shutter(struct bytes cell, uint64_t t, uint64_t c) {
    uint64_t *shutter = exactly(sizeof *shutter);
    uint64_t number = microscope_cell_shutter(cell.at, cell.count, t, c, shutter);
    tell_number(", shutter ", number, *shutter);
    free(shutter);
}

static void tell_pixel(struct bytes cell, uint64_t t, uint64_t c, uint64_t n) {
    double *items = exactly(sizeof *items);
    uint64_t number = microscope_cell_scaled_pixel(cell.at, cell.count, t, c, n, items);
    tell_figure(", scaled_pixel ", number, *items);
    free(items);
}

static void reads(uint64_t t, uint64_t c, uint64_t n, struct bytes given) {
    uint8_t *bytes = exact_copy(given.at, given.count);
    struct bytes cell = {bytes, given.count};
    tell_settings("read", t, c);
    printf(" n %" PRIu64, n);
    tell_cell("cell", cell);
    tell_verdict(": judge ", microscope_cell_check(cell.at, cell.count, t, c), 0);
    tell_zoom(cell, t, c);
    tell_shutter(cell, t, c);
    tell_pixel(cell, t, c, n);
    printf("\n");
    free(bytes);
}

/* What a call works on: a copy, so that what it leaves can be compared with what it was given. */
struct work {
    uint8_t *cell;
    uint64_t *state;
    microscope_change *change;
};

static struct work work_on(struct bytes given, uint64_t state) {
    return (struct work){
        exact_copy(given.at, given.count),
        exact_copy(&state, sizeof state),
        exactly(sizeof(microscope_change)),
    };
}

/* Lost units are told where there are any. */
static void tell_lost(uint64_t lost) {
    if (lost != 0) {
        printf(", lost %" PRIu64, lost);
    }
}

static void tell_change(uint64_t number, struct work work, uint64_t state, struct bytes given) {
    tell_verdict(": ", number, work.change->index);
    printf(", draws %" PRIu64, work.change->draws);
    tell_lost(work.change->lost);
    tell_state(*work.state, state);
    tell_left((struct bytes){work.cell, given.count}, given);
    printf("\n");
    free(work.cell);
    free(work.state);
    free(work.change);
}

static void tell_given(uint64_t state, struct bytes given) {
    printf(", state %" PRIu64, state);
    tell_cell("cell", given);
}

static void insert(uint64_t t, uint64_t c, uint64_t n, uint64_t state, struct bytes given) {
    struct work work = work_on(given, state);
    tell_settings("insert", t, c);
    printf(" n %" PRIu64, n);
    tell_given(state, given);
    uint64_t number = microscope_cell_insert(work.cell, given.count, t, c, n, work.state, work.change);
    tell_change(number, work, state, given);
}

static void enter(uint64_t t, uint64_t c, uint64_t n, uint64_t crossed, uint64_t state, struct bytes given) {
    struct work work = work_on(given, state);
    tell_settings("enter", t, c);
    printf(" new_n %" PRIu64 " crossed %" PRIu64, n, crossed);
    tell_given(state, given);
    uint64_t number =
        microscope_cell_enter_sub_window(work.cell, given.count, t, c, n, crossed, work.state, work.change);
    tell_change(number, work, state, given);
}

static void merge(uint64_t t, uint64_t c, uint64_t n, uint64_t state, struct bytes given, struct bytes src) {
    struct work work = work_on(given, state);
    uint8_t *lent = exact_copy(src.at, src.count);
    tell_settings("merge", t, c);
    printf(" n %" PRIu64, n);
    tell_cell("src", src);
    tell_given(state, given);
    uint64_t number = microscope_cell_merge(work.cell, given.count, lent, src.count, t, c, n, work.state, work.change);
    tell_change(number, work, state, given);
    free(lent);
}

/* ---- the cases ---- */

/* The shutter at c^Z - 1 and at c^Z, the zoom at max_zoom and above. */
static void sound_edges(void) {
    reads(1, 2, 1, CELL(1, 2, 3, 0, 0, 0, 0, 0));
    reads(1, 2, 1, CELL(1, 2, 3, 0, 1, 0, 0, 0));
    reads(1, 2, 0, CELL(255, 0, 0, 31, 255, 255, 255, 127));
    reads(1, 2, 0, CELL(255, 0, 0, 31, 0, 0, 0, 128));
    reads(1, 2, 0, CELL(255, 0, 0, 32, 0, 0, 0, 0));
    reads(1, 2, 0, CELL(255, 0, 0, 255, 0, 0, 0, 0));
    reads(1, 3, 2, CELL(0, 0, 255, 20, 144, 27, 212, 207));
    reads(1, 3, 2, CELL(0, 0, 255, 20, 145, 27, 212, 207));
    reads(1, 3, 2, CELL(0, 0, 255, 21, 0, 0, 0, 0));
    reads(1, 256, 2, CELL(0, 0, 255, 3, 255, 255, 255, 0));
    reads(1, 256, 2, CELL(0, 0, 255, 3, 0, 0, 0, 1));
    reads(1, 256, 2, CELL(0, 0, 255, 4, 0, 0, 0, 0));
    reads(1, 2, UINT64_MAX, CELL(7, 8, 9, 0, 0, 0, 0, 0));
    reads(2, 2, UINT64_MAX, CELL(1, 2, 3, 4, 0, 0, 0, 0, 0, 9, 9, 9));
}

static void read_refusals(void) {
    struct bytes nothing = {(const uint8_t[]){0}, 0};
    reads(0, 2, 0, SOUND);
    reads(4097, 2, 0, SOUND);
    reads(1, 1, 0, SOUND);
    reads(1, 257, 0, SOUND);
    reads(1, 2, 0, nothing);
    reads(1, 2, 0, SHORT);
    reads(1, 2, 0, LONG);
}

static void insert_refusals(void) {
    insert(0, 2, 0, 1, SOUND);
    insert(4097, 2, 0, 1, SOUND);
    insert(1, 1, 0, 1, SOUND);
    insert(1, 257, 0, 1, SOUND);
    insert(1, 2, 0, 0, SOUND);
    insert(1, 2, 0, 1, SHORT);
    insert(1, 2, 0, 1, LONG);
    insert(1, 2, 0, 1, UNSOUND);
    insert(1, 2, 0, 1, CELL(255, 11, 0, 0, 1, 0, 0, 0));
    insert(1, 2, 0, 1, CELL(255, 11, 0, 31, 0, 0, 0, 128));
}

static void inserts(void) {
    insert(1, 2, 0, 1, SOUND);
    insert(1, 2, UINT64_MAX, UINT64_MAX, SOUND);
    insert(1, 2, 1, 1, CELL(254, 254, 0, 0, 0, 0, 0, 0));
    insert(1, 2, 0, 1, CELL(255, 11, 0, 0, 0, 0, 0, 0));
    insert(1, 2, 0, 1, CELL(255, 11, 0, 31, 254, 255, 255, 127));
    insert(1, 2, 1, 1, CELL(255, 11, 0, 31, 255, 255, 255, 127));
    insert(1, 2, 0, 1, CELL(255, 11, 0, 31, 255, 255, 255, 127));
    insert(1, 2, 0, 1, CELL(255, 11, 3, 30, 255, 255, 255, 63));
    insert(1, 3, 0, 1, CELL(255, 11, 3, 20, 144, 27, 212, 207));
    insert(1, 256, 2, 1, CELL(255, 128, 255, 2, 255, 255, 0, 0));
    insert(1, 256, 2, 1, CELL(255, 128, 255, 3, 255, 255, 255, 0));
    insert(2, 256, UINT64_MAX, 7, CELL(255, 128, 1, 255, 0, 0, 0, 0, 0, 9, 9, 9));
}

static void enter_refusals(void) {
    enter(0, 2, 1, 1, 1, SOUND);
    enter(4097, 2, 1, 1, 1, SOUND);
    enter(1, 1, 1, 1, 1, SOUND);
    enter(1, 257, 1, 1, 1, SOUND);
    enter(1, 2, 1, 0, 0, SOUND);
    enter(1, 2, 1, 0, 1, SHORT);
    enter(1, 2, 1, 0, 1, LONG);
    enter(1, 2, 0, 1, 1, SOUND);
    enter(1, 2, 1, 2, 1, SOUND);
    enter(1, 2, 1, 0, 1, UNSOUND);
    enter(1, 2, 2, 2, 1, UNSOUND);
    enter(1, 2, 2, 3, 1, CELL(5, 0, 0, 31, 0, 0, 0, 128));
}

static void enters(void) {
    enter(1, 2, 0, 0, 1, CELL(5, 6, 7, 1, 1, 0, 0, 0));
    enter(1, 2, 1, 1, 1, CELL(127, 200, 0, 1, 0, 0, 0, 0));
    enter(1, 2, 1, 1, 1, CELL(128, 200, 0, 1, 0, 0, 0, 0));
    enter(1, 2, 2, 2, 1, CELL(100, 6, 7, 0, 0, 0, 0, 0));
    enter(1, 2, 2, 3, 1, CELL(100, 6, 7, 31, 255, 255, 255, 127));
    enter(1, 2, 3, 3, 1, CELL(100, 6, 7, 0, 0, 0, 0, 0));
    enter(1, 2, 0, UINT64_MAX, 1, CELL(100, 6, 7, 1, 1, 0, 0, 0));
    enter(1, 2, UINT64_MAX, 1, 1, CELL(5, 6, 200, 1, 1, 0, 0, 0));
    enter(1, 2, 1, 1, 2, CELL(255, 6, 7, 1, 1, 0, 0, 0));
    enter(1, 2, 1, 1, 3, CELL(255, 6, 7, 31, 255, 255, 255, 127));
    enter(1, 256, 1, 1, 1, CELL(0, 9, 0, 3, 255, 255, 255, 0));
    enter(2, 2, 1, 1, 5, CELL(255, 6, 7, 8, 2, 3, 0, 0, 0, 9, 9, 9));
}

static void merge_refusals(void) {
    merge(0, 2, 0, 1, SOUND, SOUND);
    merge(4097, 2, 0, 1, SOUND, SOUND);
    merge(1, 1, 0, 1, SOUND, SOUND);
    merge(1, 257, 0, 1, SOUND, SOUND);
    merge(1, 2, 0, 0, SOUND, SOUND);
    merge(1, 2, 0, 1, SHORT, SOUND);
    merge(1, 2, 0, 1, LONG, SOUND);
    merge(1, 2, 0, 1, SOUND, SHORT);
    merge(1, 2, 0, 1, SOUND, LONG);
    merge(1, 2, 0, 1, UNSOUND, SOUND);
    merge(1, 2, 0, 1, SOUND, UNSOUND);
}

static void merges(void) {
    struct bytes full = CELL(255, 0, 0, 0, 0, 0, 0, 0);
    struct bytes half = CELL(255, 0, 0, 1, 1, 0, 0, 0);
    struct bytes top = CELL(9, 255, 127, 31, 255, 255, 255, 127);
    struct bytes third = CELL(9, 0, 254, 20, 144, 27, 212, 207);
    merge(1, 2, 0, 1, SOUND, CELL(250, 255, 0, 0, 0, 0, 0, 0));
    merge(1, 2, 0, 1, SOUND, full);
    merge(1, 2, 1, 1, full, full);
    merge(1, 2, 0, 1, half, half);
    merge(1, 2, 0, 2, half, half);
    merge(1, 2, 2, 1, top, CELL(1, 0, 0, 31, 0, 0, 0, 0));
    merge(1, 2, 2, 1, top, CELL(1, 0, 0, 31, 1, 0, 0, 0));
    merge(1, 2, 2, 1, top, top);
    merge(1, 3, 2, 1, third, third);
    merge(1, 3, 1, 1, full, third);
    merge(1, 256, UINT64_MAX, 1, CELL(9, 9, 255, 3, 255, 255, 255, 0), full);
    merge(2, 2, UINT64_MAX, 1, CELL(9, 9, 9, 9, 0, 0, 0, 0, 0, 9, 9, 9), CELL(1, 2, 3, 4, 1, 1, 0, 0, 0, 8, 8, 8));
}

/* Where two causes apply the lower number is given: 5 before 6, 9 before 14. */
static void two_causes(void) {
    reads(0, 257, 0, SOUND);
    reads(1, 1, 0, SHORT);
    reads(1, 257, 0, UNSOUND);
    reads(1, 2, 0, UNSOUND_AND_LONG);
    insert(0, 1, 0, 1, SOUND);
    insert(1, 257, 0, 0, SOUND);
    insert(1, 2, 0, 0, SHORT);
    insert(1, 2, 0, 0, UNSOUND);
    insert(1, 2, 0, 1, UNSOUND_AND_LONG);
    enter(1, 2, 1, 2, 0, SOUND);
    enter(1, 2, 1, 2, 1, LONG);
    enter(1, 2, 1, 2, 1, UNSOUND);
    merge(1, 2, 0, 0, SOUND, SHORT);
    merge(1, 2, 0, 0, UNSOUND, UNSOUND);
    merge(1, 2, 0, 1, UNSOUND, SHORT);
    merge(1, 2, 0, 1, LONG, UNSOUND);
    merge(1, 2, 0, 1, UNSOUND, UNSOUND);
}

/* t = 4,096: one byte short, as long as the depth, one byte long. t = 4,097 would have the same depth. */
static void largest(void) {
    static const uint8_t bytes[ROOM] = {[0] = 3, [4097] = 255, [4098] = 1, [4099] = 1, [4103] = 9};
    struct bytes shorter = {bytes, 4103};
    struct bytes cell = {bytes, 4104};
    struct bytes longer = {bytes, 4105};
    reads(4096, 2, 4097, shorter);
    reads(4096, 2, 4097, cell);
    reads(4096, 2, UINT64_MAX, cell);
    reads(4096, 2, 4097, longer);
    reads(4097, 2, 4097, cell);
    insert(4096, 2, 4097, 1, shorter);
    insert(4096, 2, 4097, 1, cell);
    insert(4096, 2, 4097, 1, longer);
    insert(4097, 2, 4097, 1, cell);
    enter(4096, 2, 4096, 4097, 1, cell);
    enter(4096, 2, 4097, 4097, 1, cell);
    enter(4096, 2, 4097, 4098, 1, cell);
    merge(4096, 2, 4097, 1, cell, cell);
    merge(4096, 2, 4097, 1, cell, shorter);
}

int main(void) {
    printf("a cell by its bytes: pixels, zoom, four of shutter, pad; a long one by the sum of byte i times i + 1; "
           "scaled_pixel by its bits\n");
    sound_edges();
    read_refusals();
    insert_refusals();
    inserts();
    enter_refusals();
    enters();
    merge_refusals();
    merges();
    two_causes();
    largest();
    return 0;
}
