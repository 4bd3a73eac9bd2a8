/*
 * MicroScope counting core: how often did a key come inside a sliding window?
 *
 * Link with target/libmicroscope.a (tools/build_library makes it); it needs memcpy and memset and nothing else. C from C99
 * on, C++ from C++98 on, on machines with 64-bit addresses. docs/EDGE.md says what is proved of these calls and what is
 * not, and on which machines they were tried; docs/BAND.md how far a figure may be off by rounding, and when that is
 * claimed; docs/CHOOSING.md how to choose the settings, and traps.
 *
 * THE IDEA. A sketch is rows x cols cells. A key is one column for each row, so one cell in each row; how a key
 * becomes columns (a hash) is the caller's. The window is t sub-windows and the part of one more that has not left it
 * yet; a sub-window is a number of items, or a span of time in the unit of the caller's time stamps. A cell has t + 2
 * pixels of one byte and a zoom Z: a pixel is worth c^Z items. A pixel that would pass 255 raises Z; as a sub-window begins
 * Z falls again, as far as the pixels allow (microscope_cell_enter_sub_window says how far). At the largest Z of its base a
 * cell loses what a full pixel cannot take, and the call says so (microscope_change).
 *
 * WHO OWNS WHAT. All memory is the caller's. The library allocates nothing, keeps nothing between calls and has no
 * variables of its own, so calls on different sketches may run at the same time; calls on one sketch may not, unless
 * all of them only read. A sketch is a microscope_sketch, 72 bytes, and a grid of bytes beside it; both are lent for the
 * length of a call and changed in their place. A caller that watches codes keeps a microscope_watch beside the sketch,
 * and two arrays of fixed size.
 *
 * LENDING. Bytes, columns and limits are lent as an address and a length, in that order; lengths of bytes are in bytes,
 * those of columns in columns, those of limits in limits. A struct, one number or an array of fixed size is lent as an
 * address alone. No address may be NULL, not even with length 0, and all of the length, struct or array must be there
 * (writable, if it is not const). What a call writes must not overlap with anything else it is lent: to merge a sketch
 * with itself, lend a copy of it and of its grid. Columns must be aligned as uint32_t is, limits, structs and numbers as
 * uint64_t; bytes need no alignment. Within these rules there is no argument on which a call fails to answer: any sketch,
 * any codes, any bytes, any numbers.
 *
 * STACK. A merge takes about 17 KB of stack, of which 16 are its table of sums; every other call less than 4 KB.
 * (Seen in the machine code of x86-64, not proved.)
 *
 * REFUSALS. Every call but microscope_version and microscope_rounding_new, which refuse nothing, returns a number: 0 if it
 * was accepted, else why it was refused, and then the sketch, the codes, a random state and every byte lent are as they
 * were. What a call tells (microscope_change, figures, items, an index, a length ..) is written either way: 0 where it was
 * refused, but for the index of an unsound cell.
 * If more than one number applies it is the one that comes first in this order: 1 to 7, 19, 20, 8 to 18. So it is the
 * lowest, but that 19 and 20, which are newer, rank by their place: after 7, before 8 and 14. A load has an order of its
 * own: see there.
 *
 * UNSOUND CELLS. An index is row x cols + column. The one told with 14, and by an audit, is the smallest of the unsound
 * cells among those that the call judges: of a reading, a mean or an item the key's; of an audit, a highest zoom, a save,
 * and of an item or time that passes where a sub-window begins, all of the grid; of a load all that are stored; of an
 * asking those of all codes. A merge judges both grids, and names the other's only where every cell of the receiving one is
 * sound. No index is left free: two libraries that keep document 02, T-09, name the same cell.
 */
#ifndef MICROSCOPE_H
#define MICROSCOPE_H

#include <stddef.h>
#include <stdint.h>

#ifdef __cplusplus
extern "C" {
#endif

/*
 * The version of this header: 10,000 x 2 for the form of the calls, and 2 as what a call answers has changed twice in this
 * form: microscope_mean, and the third word of microscope_change, `lost`, which up to version 20001 was `room` and always 0.
 * microscope_version gives that of the library.
 */
#define MICROSCOPE_VERSION 20002

/* The numbers. */
enum {
    MICROSCOPE_ACCEPTED = 0,
    MICROSCOPE_T = 1,            /* t is not 1 to 4,096 */
    MICROSCOPE_C = 2,            /* c is not 2 to 256 */
    MICROSCOPE_LENGTH = 3,       /* the length of a sub-window is not 1 to 2^53, or the clock's kind is neither 0 nor 1 */
    MICROSCOPE_DIMENSIONS = 4,   /* rows is 0, cols is no power of two from 2 to 65,536, or rows x log2(cols) passes 128 */
    MICROSCOPE_STATE = 5,        /* the random state is 0: no call leaves it so */
    MICROSCOPE_BYTES = 6,        /* a cell lent is not depth bytes, or a grid not rows x cols x depth */
    MICROSCOPE_COLUMNS = 7,      /* not one column a row, or one that is not below cols; a row or column out of range */
    MICROSCOPE_CLOCK_KIND = 8,   /* a call for the other kind of clock */
    MICROSCOPE_CROSSED = 9,      /* 0 < crossed < t + 2, and crossed is above new_n */
    MICROSCOPE_SHAPES = 10,      /* merge: rows, cols, t or c differ */
    MICROSCOPE_FRAMES = 11,      /* merge: the clocks' kind, length or epoch differ */
    MICROSCOPE_SUB_WINDOWS = 12, /* merge: the sub-windows reached differ */
    MICROSCOPE_FRACTION = 13,    /* the given fraction is NaN or not within 0 and 1, and there is an oldest sub-window */
    MICROSCOPE_UNSOUND = 14,     /* an unsound cell; `index` is the smallest of those judged, and 0 in a call on one cell */
    MICROSCOPE_DIVISOR = 15,     /* a divisor of 0 */
    MICROSCOPE_STORE_LENGTH = 16, /* a store is not the exact length */
    MICROSCOPE_BLOCK = 17,       /* a block's check or number: the store is damaged */
    MICROSCOPE_FORM = 18,        /* not a store of this form: the form's number, the clock's kind, or a byte that must be 0 */
    MICROSCOPE_CODES = 19,       /* more than 64 codes; ranks after 7 */
    MICROSCOPE_LIST = 20         /* the list lent is shorter than the number of codes; ranks after 19 and before 8 */
};

/* Kinds of clock. */
enum {
    MICROSCOPE_ITEMS = 0, /* a sub-window is `length` items */
    MICROSCOPE_TIME = 1   /* a sub-window is `length` units of time */
};

/* Watched codes: the sizes of the two arrays that a caller keeps for them. */
enum {
    MICROSCOPE_MOST_CODES = 64,    /* limits: one for each code */
    MICROSCOPE_KEPT_COLUMNS = 8192 /* columns: one a row for each code; no sketch has more than 128 rows */
};

/* The number in words, for a log; the enumeration above says more. */
static inline const char *microscope_meaning(uint64_t number) {
    switch (number) {
    case MICROSCOPE_ACCEPTED:
        return "accepted";
    case MICROSCOPE_T:
        return "t is not 1 to 4,096";
    case MICROSCOPE_C:
        return "c is not 2 to 256";
    case MICROSCOPE_LENGTH:
        return "the length of a sub-window is not 1 to 2^53, or the clock is of no known kind";
    case MICROSCOPE_DIMENSIONS:
        return "rows is 0, cols is no power of two from 2 to 65,536, or rows x log2(cols) passes 128";
    case MICROSCOPE_STATE:
        return "the random state is 0";
    case MICROSCOPE_BYTES:
        return "the bytes lent are not as many as the cell or grid has";
    case MICROSCOPE_COLUMNS:
        return "not one column a row, or a row or column out of range";
    case MICROSCOPE_CLOCK_KIND:
        return "a call for the other kind of clock";
    case MICROSCOPE_CROSSED:
        return "more sub-windows crossed than there were";
    case MICROSCOPE_SHAPES:
        return "the sketches differ in rows, cols, t or c";
    case MICROSCOPE_FRAMES:
        return "the clocks differ in kind, length or epoch";
    case MICROSCOPE_SUB_WINDOWS:
        return "the sketches have not reached the same sub-window";
    case MICROSCOPE_FRACTION:
        return "the fraction is not within 0 and 1";
    case MICROSCOPE_UNSOUND:
        return "unsound cell";
    case MICROSCOPE_DIVISOR:
        return "the divisor is 0";
    case MICROSCOPE_STORE_LENGTH:
        return "the store is not the exact length";
    case MICROSCOPE_BLOCK:
        return "a block of the store fails its check or has another's number";
    case MICROSCOPE_FORM:
        return "not a store of this form";
    case MICROSCOPE_CODES:
        return "more than 64 codes";
    case MICROSCOPE_LIST:
        return "the list has less room than there are codes";
    default:
        return "no number of this version";
    }
}

/*
 * A sketch. microscope_new and microscope_load make one; the caller may read it, and copy it together with its grid.
 * Only reading and state ever change after that. The sub-window reached, n, is reading / length for a clock of items, and
 * for one of time (reading - epoch) / length, or 0 if reading is before epoch; rounded down.
 */
typedef struct {
    uint64_t rows;
    uint64_t cols;
    uint64_t t;       /* sub-windows in the window */
    uint64_t c;       /* the zoom's base */
    uint64_t kind;    /* MICROSCOPE_ITEMS or MICROSCOPE_TIME */
    uint64_t length;  /* of a sub-window: items, or units of time */
    uint64_t epoch;   /* when sub-window 0 began; looked at for a clock of time only */
    uint64_t reading; /* items seen, or the latest time stamp */
    uint64_t state;   /* the random state, never 0 */
} microscope_sketch;

/*
 * Watched codes without their columns and limits. microscope_new and microscope_load leave one with no codes;
 * microscope_set_codes and microscope_ask change it. No other call looks at it.
 */
typedef struct {
    uint64_t count;   /* codes; 0: none */
    uint64_t rows;    /* of the sketch for which they were set */
    uint64_t reached; /* code i was at its limit or above at the last asking: the bit of value 2^i */
} microscope_watch;

/*
 * What a call tells that may change a sketch or a cell, or that divides.
 *
 * LOST UNITS (document 02, T-04). A cell at the largest zoom of its base cannot zoom out any further. There a full pixel
 * drops the unit that would credit it, and a merge cuts off what is above 255. `lost` is how many units this call lost so,
 * added up over all rows and cells. No other cell loses any, so each is worth c^max_zoom items (microscope_base_max_zoom):
 *
 *     an item      1 for each of the key's cells that drops its unit at this item
 *     a crossing   1 for each cell whose shutter, when it is closed, rounds up to a unit that a full pixel drops
 *     a merge      of every pixel that is cut the units above 255
 *
 * An update that also crosses adds up both. What is cleared is not lost: it has left the window. A refused call and a
 * division tell 0; so does every update and advance that begins with no cell at the largest zoom, and every merge that ends
 * with none.
 *
 * Where units were lost figures can read low: those of every key of that cell, by up to c^max_zoom items a unit, until the
 * sub-window that they belong to has left the window. The band is claimed for no key with a cell that ever was at the largest
 * zoom (docs/BAND.md). So a service page adds `lost` up, call by call, and once the sum is not 0 says beside its figures that
 * they may be too low. What to choose otherwise then: docs/CHOOSING.md.
 */
typedef struct {
    uint64_t index; /* with 14, else 0 */
    uint64_t draws; /* random draws that the call made */
    uint64_t lost;  /* units that the call lost */
} microscope_change;

/*
 * One reading of a key, in items. `under` counts the t latest sub-windows, the one that is filling among them; `over` also
 * the one before these, of which a part has left the window; `linear` counts that one by `fraction`. How far `over` may be
 * from the items recorded in the key's cells, and when that is claimed: docs/BAND.md.
 */
typedef struct {
    double over;
    double under;
    double linear;
    double fraction;
} microscope_figures;

/* The same reading as whole numbers, below 2^53, so that as double they lose nothing. */
typedef struct {
    uint64_t index; /* with 14, else 0 */
    uint64_t over;
    uint64_t under;
} microscope_items;

/* A whole number. */
typedef struct {
    uint64_t index; /* with 14, else 0 */
    uint64_t value;
} microscope_value;

/* What an audit found: `unsound` is 1 and `index` is the smallest of all unsound cells, or both are 0. */
typedef struct {
    uint64_t index;
    uint64_t unsound;
} microscope_found;

/* What an asking tells beside the bytes of its list. */
typedef struct {
    uint64_t index;  /* with 14, else 0 */
    uint64_t listed; /* codes on the list */
} microscope_asked;

/* What a store says of the sketch in it. */
typedef struct {
    uint64_t rows;
    uint64_t cols;
    uint64_t t;
    uint64_t c;
    uint64_t grid_bytes; /* of the grid to lend for a load */
} microscope_shape;

/* ---- sizes, for arrays: they judge nothing, and a call refuses what no sketch has ---- */

/* Bytes of a cell: t + 7, rounded up to a multiple of 4. As microscope_depth. */
#define MICROSCOPE_DEPTH(t) (((t) + 7 + 3) / 4 * 4)

/* Bytes of a grid. */
#define MICROSCOPE_GRID_BYTES(rows, cols, t) ((size_t)(rows) * (cols) * MICROSCOPE_DEPTH(t))

/* Bytes of a store: a block of 512 for the sketch, and one for every 504 bytes of the grid. As microscope_store_length. */
#define MICROSCOPE_STORE_BYTES(rows, cols, t) (512 * (1 + (MICROSCOPE_GRID_BYTES(rows, cols, t) + 503) / 504))

/* ---- a sketch ---- */

/* The version of the library: MICROSCOPE_VERSION, if it goes with this header. */
uint64_t microscope_version(void);

/*
 * A fresh sketch of these settings, and no codes. The grid must have MICROSCOPE_GRID_BYTES(rows, cols, t) bytes; every one
 * is written 0. Any seed will do: the same seed and calls give the same bytes. `epoch` is for a clock of time only; 0
 * stands in the sketch of one of items.
 */
uint64_t microscope_new(microscope_sketch *sketch, microscope_watch *watch, uint64_t rows, uint64_t cols, uint64_t t,
                        uint64_t c, uint64_t kind, uint64_t length, uint64_t epoch, uint64_t seed, uint8_t *grid,
                        size_t grid_bytes);

/* One item, on a clock of items. Every `length` items the whole grid is gone through. */
uint64_t microscope_update(microscope_sketch *sketch, const uint32_t *key, size_t columns, uint8_t *grid,
                           size_t grid_bytes, microscope_change *change);

/*
 * One item at this time, on a clock of time. A time stamp older than the latest counts as the latest. Where it enters
 * a later sub-window the whole grid is gone through.
 */
uint64_t microscope_update_at(microscope_sketch *sketch, const uint32_t *key, size_t columns, uint64_t timestamp,
                              uint8_t *grid, size_t grid_bytes, microscope_change *change);

/* Time passes without an item: before a reading of a key that has gone quiet. */
uint64_t microscope_advance_to(microscope_sketch *sketch, uint64_t timestamp, uint8_t *grid, size_t grid_bytes,
                               microscope_change *change);

/*
 * Adds the other sketch's counts to this one's. The other is only read. Both must have the same settings and have
 * reached the same sub-window. The reading stays this sketch's. What the pixels of a cell at the largest zoom cannot hold is
 * cut off: `lost` is how many units that were, of all pixels and cells.
 */
uint64_t microscope_merge(microscope_sketch *sketch, uint8_t *grid, size_t grid_bytes, const microscope_sketch *other,
                          const uint8_t *other_grid, size_t other_grid_bytes, microscope_change *change);

/*
 * The figures of a key, with the clock's own fraction: 1 at the start of a sub-window, falling towards 0 as it fills.
 */
uint64_t microscope_estimate(const microscope_sketch *sketch, const uint32_t *key, size_t columns, const uint8_t *grid,
                             size_t grid_bytes, microscope_figures *figures, microscope_items *items);

/* The same with this fraction, 0 to 1. */
uint64_t microscope_estimate_with(const microscope_sketch *sketch, const uint32_t *key, size_t columns, double fraction,
                                  const uint8_t *grid, size_t grid_bytes, microscope_figures *figures,
                                  microscope_items *items);

/*
 * Items a sub-window: `under` divided by the sub-windows begun, rounded down. By sub-window n these are n + 1, and from
 * n = t - 1 on t: just after the start, when only a few exist, the mean is over those. On a clock of time they are counted
 * from the epoch, so it is to be the moment of the start. (Up to version 20000 the mean was over t from the start.)
 */
uint64_t microscope_mean(const microscope_sketch *sketch, const uint32_t *key, size_t columns, const uint8_t *grid,
                         size_t grid_bytes, microscope_value *mean);

/*
 * Whether there is a cell at this row and column. Its bytes are the depth bytes of the grid from
 * (row x cols + col) x depth on. For a display: how far it zooms in as a sub-window begins says
 * microscope_cell_enter_sub_window.
 */
uint64_t microscope_bucket_check(const microscope_sketch *sketch, uint64_t row, uint64_t col, const uint8_t *grid,
                                 size_t grid_bytes);

/*
 * The highest zoom that any cell has now. That it is 0 after each call does not say that the figures are exact: a call
 * can raise a cell's zoom and lower it again (docs/BAND.md has the case, and what to watch in its place).
 */
uint64_t microscope_max_zoom(const microscope_sketch *sketch, const uint8_t *grid, size_t grid_bytes,
                             microscope_value *zoom);

/*
 * Whether every cell is sound, and if not the first that is not, by row, then column: it stands at row `index / cols`, column
 * `index % cols`. Those of a fresh sketch are sound, and no call makes a sound cell unsound.
 */
uint64_t microscope_audit(const microscope_sketch *sketch, const uint8_t *grid, size_t grid_bytes,
                          microscope_found *found);

/* ---- a store: sketch and grid in a form that outlives the process (docs/STORE.md) ---- */

/* How many bytes a sketch's store takes: a multiple of 512. */
uint64_t microscope_store_length(const microscope_sketch *sketch, uint64_t *length);

/* Writes the whole buffer, which must have exactly that length. */
uint64_t microscope_save(const microscope_sketch *sketch, const uint8_t *grid, size_t grid_bytes, uint8_t *store,
                         size_t store_bytes, uint64_t *index);

/*
 * The sketch of a store, its grid, whose length must be that of the stored one, and no codes, which are in no store.
 * The numbers are tried in this order: 16 (empty, or no multiple of 512), 17, 18, 1 to 5, 16 (not the exact length),
 * 18 (behind the grid), 6, 14.
 */
uint64_t microscope_load(microscope_sketch *sketch, microscope_watch *watch, uint8_t *grid, size_t grid_bytes,
                         const uint8_t *store, size_t store_bytes, uint64_t *index);

/*
 * Which sketch a store of unknown origin holds, and how long a grid to lend for a load of it. Only blocks, header and
 * length are judged: 16 (empty, or no multiple of 512), 17, 18, 1 to 5, 16 (not the exact length). A load may still
 * refuse it, by 18 (behind the grid) or 14.
 */
uint64_t microscope_store_shape(const uint8_t *store, size_t store_bytes, microscope_shape *shape);

/*
 * ---- watched codes: which of them have newly reached their limit ----
 *
 * A code is a key with a limit. What a maker keeps for the codes of one sketch: a microscope_watch, and
 *
 *     uint32_t kept_columns[MICROSCOPE_KEPT_COLUMNS];    32 KiB
 *     uint64_t kept_limits[MICROSCOPE_MOST_CODES];       512 bytes
 *
 * of this size whatever the sketch. Only microscope_set_codes writes the two arrays, and the caller must not while the
 * codes are watched; nothing need stand in them before. Items, time that passes and merges leave the codes as they are.
 * A fresh start and a load leave a watch with no codes; the arrays may be used on. A copy of a watch must not be used on with
 * another sketch or after a load: it says what was found elsewhere, and no call can tell.
 */

/*
 * Watches these codes from now on, in place of those before: `columns` are their keys, one code behind another, and
 * `limits` their limits in items, one for each code. No codes is a list too, and the same code may stand twice. Until
 * the first asking every code counts as below its limit. No grid is lent and no cell judged.
 * Refused by 1 to 5, 7 (not one column a row for each code, or one that is not below cols; of all codes given, also
 * past the 64th), 19, and then codes and arrays are as they were. To set kept codes anew lend a copy of them.
 */
uint64_t microscope_set_codes(const microscope_sketch *sketch, microscope_watch *watch, const uint32_t *columns,
                              size_t column_count, const uint64_t *limits, size_t limit_count,
                              uint32_t kept_columns[MICROSCOPE_KEPT_COLUMNS],
                              uint64_t kept_limits[MICROSCOPE_MOST_CODES]);

/*
 * Lists every code that is at its limit or above, by the `over_items` that a reading of it gives, and was below at the
 * asking before, or is asked after for the first time since it was set. A limit of 0 is reached at the first asking.
 * The list gets the codes' indices, from 0, a byte each and ascending, from its start; `listed` says how many, and the
 * bytes behind them stay. It must have `count` bytes or more, however few are listed. The grid must be that of the
 * sketch for which the codes were set, as it stands now; it is only read.
 * Refused by 1 to 6, 7 (codes that do not go with this sketch: set for other rows, or a column not below cols; no codes
 * go with any), 19 (a count that no setting gives; for 7 the first 64 are then looked at), 20, and 14 over the cells of
 * all codes: `index` is the smallest of all their unsound ones. A refused asking is no asking: the next one is compared
 * with the last that was accepted.
 */
uint64_t microscope_ask(const microscope_sketch *sketch, microscope_watch *watch,
                        const uint32_t kept_columns[MICROSCOPE_KEPT_COLUMNS],
                        const uint64_t kept_limits[MICROSCOPE_MOST_CODES], const uint8_t *grid, size_t grid_bytes,
                        uint8_t *list, size_t list_bytes, microscope_asked *asked);

/*
 * ---- one cell, for teaching and test: t + 2 pixels, the zoom, the shutter (4 bytes, low byte first), pad bytes ----
 *
 * The random state of a call that changes a cell is changed in its place. An index is 0 here.
 */

/* How many bytes a cell takes: t + 7, rounded up to a multiple of 4. */
uint64_t microscope_depth(uint64_t t, uint64_t c, uint64_t *depth);

/*
 * The largest zoom of a base, its ceiling: the largest z with c^z at most 2^32 - 1. At it a full pixel drops its unit, and a
 * merge cuts off what is above 255; `lost` of microscope_change tells how many units of c^z items. The card (document 02,
 * T-03; proved for every base):
 *
 *     c         2   3   4   5   6   7  8-9  10-11  12-15  16-23  24-40  41-84  85-255  256
 *     ceiling  31  20  15  13  12  11   10      9      8      7      6      5       4    3
 */
uint64_t microscope_base_max_zoom(uint64_t c, uint64_t *zoom);

/* Whether a cell is sound: its zoom at most the largest, its shutter below c^Z. */
uint64_t microscope_cell_check(const uint8_t *cell, size_t cell_bytes, uint64_t t, uint64_t c);

uint64_t microscope_cell_zoom(const uint8_t *cell, size_t cell_bytes, uint64_t t, uint64_t c, uint64_t *zoom);

/* The shutter: items counted since a pixel was last credited. */
uint64_t microscope_cell_shutter(const uint8_t *cell, size_t cell_bytes, uint64_t t, uint64_t c, uint64_t *shutter);

/* The items that a cell counts for sub-window n: the pixel n mod (t + 2), times c^Z. */
uint64_t microscope_cell_scaled_pixel(const uint8_t *cell, size_t cell_bytes, uint64_t t, uint64_t c, uint64_t n,
                                      double *items);

/*
 * Records an item of sub-window n. `lost` is 1 if it completes a unit which is dropped, as the pixel is full and the zoom the
 * largest; else 0. Where the zoom does not rise, the cell's total afterwards plus c^Z x lost is the total before plus 1
 * (document 02, T-04); the total is the shutter and c^Z times the sum of the pixels.
 */
uint64_t microscope_cell_insert(uint8_t *cell, size_t cell_bytes, uint64_t t, uint64_t c, uint64_t n, uint64_t *state,
                                microscope_change *change);

/*
 * Moves a cell into sub-window new_n, which is `crossed` sub-windows on; with crossed 0 nothing changes.
 *
 * HOW FAR IT ZOOMS IN (document 02, T-11; proved, whatever the random state). First the shutter is closed into the pixel of
 * the sub-window that ends, and the pixels of those that begin are cleared; by t + 2 or more the shutter and all pixels just
 * become 0. Closing raises Z by 1 if it credits a pixel that is full and Z is below the largest zoom of the base. With Z and
 * all t + 2 pixels as they are then, Z falls by exactly k, the largest k <= Z for which c^k times the largest pixel is at
 * most 255, and every pixel becomes c^k times itself: so it is worth as many items as before. All pixels 0 gives k = Z. Of
 * `largest`, c and Z, k is what this leaves:
 *
 *     for (k = 0; k < Z && largest * c <= 255; k++) largest *= c;
 *
 * On a display that draws pixels as bars they grow by c^k and their unit, c^Z, shrinks by as much. A pixel in no figure (that
 * of sub-window new_n - t - 1) counts as the others do until it is cleared. Each cell of a sketch crosses so, by itself, in
 * microscope_update behind the item, in microscope_update_at before it, and in microscope_advance_to. Seen from outside, with
 * the zoom before and after a crossing, k is before - after, or one more if closing raised Z.
 *
 * WHAT IT LOSES (document 02, T-04). `lost` is 1 if closing credits a full pixel at the largest zoom, which drops the unit;
 * else 0. Pixels that are cleared are not counted, nor is a shutter that rounds down or that becomes 0 in a far jump.
 */
uint64_t microscope_cell_enter_sub_window(uint8_t *cell, size_t cell_bytes, uint64_t t, uint64_t c, uint64_t new_n,
                                          uint64_t crossed, uint64_t *state, microscope_change *change);

/*
 * Adds the counts of src to those of dst, both being in sub-window n. src is only read. `lost` is what was cut off above 255,
 * in units and added up over all pixels; only where dst ends at the largest zoom is anything cut. Of two cells of the same
 * zoom, which the merge does not raise, the total afterwards plus c^Z x lost is both totals before (document 02, T-04).
 */
uint64_t microscope_cell_merge(uint8_t *dst, size_t dst_bytes, const uint8_t *src, size_t src_bytes, uint64_t t,
                               uint64_t c, uint64_t n, uint64_t *state, microscope_change *change);

/*
 * ---- the draws by themselves, for teaching and test ----
 *
 * A random state that is lent is changed in its place, if a draw was made. An index is 0 here.
 */

/* The random state of any seed, never 0: that is what this returns. */
uint64_t microscope_rounding_new(uint64_t seed);

/* One draw: `value` is a number from 1 to 2^64 - 1. Refused by 5. */
uint64_t microscope_next_u64(uint64_t *state, uint64_t *value);

/*
 * value / divisor, where a remainder is rounded up with the probability that it has of the divisor. One draw is made, or
 * none if nothing remains; `lost` is 0. Refused by 5, 15.
 */
uint64_t microscope_unbiased_div_u64(uint64_t value, uint64_t divisor, uint64_t *state, uint64_t *quotient,
                                     microscope_change *change);

/* ---- the layouts that the library was compiled with ---- */

#if defined(__cplusplus) && __cplusplus >= 201103L
#define MICROSCOPE_ASSERT(fact) static_assert(fact, #fact)
#elif defined(__STDC_VERSION__) && __STDC_VERSION__ >= 201112L
#define MICROSCOPE_ASSERT(fact) _Static_assert(fact, #fact)
#else
/* C99 and C++98 have no assertion of their own: a fact that does not hold is an array of -1 elements. */
#define MICROSCOPE_ASSERT(fact) extern char microscope_assert[(fact) ? 1 : -1]
#endif
#define MICROSCOPE_AT(type, field, at) MICROSCOPE_ASSERT(offsetof(type, field) == (at))

MICROSCOPE_ASSERT(sizeof(size_t) == 8);
MICROSCOPE_ASSERT(sizeof(double) == 8);

MICROSCOPE_ASSERT(sizeof(microscope_sketch) == 72);
MICROSCOPE_AT(microscope_sketch, rows, 0);
MICROSCOPE_AT(microscope_sketch, cols, 8);
MICROSCOPE_AT(microscope_sketch, t, 16);
MICROSCOPE_AT(microscope_sketch, c, 24);
MICROSCOPE_AT(microscope_sketch, kind, 32);
MICROSCOPE_AT(microscope_sketch, length, 40);
MICROSCOPE_AT(microscope_sketch, epoch, 48);
MICROSCOPE_AT(microscope_sketch, reading, 56);
MICROSCOPE_AT(microscope_sketch, state, 64);

MICROSCOPE_ASSERT(sizeof(microscope_watch) == 24);
MICROSCOPE_AT(microscope_watch, count, 0);
MICROSCOPE_AT(microscope_watch, rows, 8);
MICROSCOPE_AT(microscope_watch, reached, 16);

MICROSCOPE_ASSERT(sizeof(microscope_change) == 24);
MICROSCOPE_AT(microscope_change, index, 0);
MICROSCOPE_AT(microscope_change, draws, 8);
MICROSCOPE_AT(microscope_change, lost, 16);

MICROSCOPE_ASSERT(sizeof(microscope_figures) == 32);
MICROSCOPE_AT(microscope_figures, over, 0);
MICROSCOPE_AT(microscope_figures, under, 8);
MICROSCOPE_AT(microscope_figures, linear, 16);
MICROSCOPE_AT(microscope_figures, fraction, 24);

MICROSCOPE_ASSERT(sizeof(microscope_items) == 24);
MICROSCOPE_AT(microscope_items, index, 0);
MICROSCOPE_AT(microscope_items, over, 8);
MICROSCOPE_AT(microscope_items, under, 16);

MICROSCOPE_ASSERT(sizeof(microscope_value) == 16);
MICROSCOPE_AT(microscope_value, index, 0);
MICROSCOPE_AT(microscope_value, value, 8);

MICROSCOPE_ASSERT(sizeof(microscope_found) == 16);
MICROSCOPE_AT(microscope_found, index, 0);
MICROSCOPE_AT(microscope_found, unsound, 8);

MICROSCOPE_ASSERT(sizeof(microscope_asked) == 16);
MICROSCOPE_AT(microscope_asked, index, 0);
MICROSCOPE_AT(microscope_asked, listed, 8);

MICROSCOPE_ASSERT(sizeof(microscope_shape) == 40);
MICROSCOPE_AT(microscope_shape, rows, 0);
MICROSCOPE_AT(microscope_shape, cols, 8);
MICROSCOPE_AT(microscope_shape, t, 16);
MICROSCOPE_AT(microscope_shape, c, 24);
MICROSCOPE_AT(microscope_shape, grid_bytes, 32);

#undef MICROSCOPE_AT
#undef MICROSCOPE_ASSERT

#ifdef __cplusplus
}
#endif

#endif
