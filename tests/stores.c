/*
 * The block store at its edges: what is saved comes back, and what is damaged or foreign is refused by its number with
 * the lent grid as it was. stores.out, what this must print, was worked out from document 01's rules ("Audit and block
 * store") apart from the code.
 */
#include "tests.h"

/*
 * What most cases have in common: two sketches of 32 cells of 20 bytes, so 640 grid bytes in three blocks. A byte that
 * no call should write has the value MARK.
 */
enum { GRID = 640, BLOCK = 512, STORE = 3 * BLOCK, T = 12, MARK = 165 };

/* The largest grid of a round trip, and its store. */
enum { LARGEST_GRID = 8208, LARGEST_STORE = 9216 };

static const uint64_t longest = UINT64_C(1) << 53;

/* ---- sketches ---- */

struct timing {
    uint64_t kind;
    uint64_t length;
    uint64_t epoch;
    uint64_t reading;
};

static struct timing counting(uint64_t length, uint64_t seen) {
    return (struct timing){MICROSCOPE_ITEMS, length, 0, seen};
}

static struct timing by_time(uint64_t length, uint64_t epoch, uint64_t now) {
    return (struct timing){MICROSCOPE_TIME, length, epoch, now};
}

static microscope_sketch sketch(uint64_t rows, uint64_t cols, uint64_t t, uint64_t c, struct timing clock,
                                uint64_t state) {
    return (microscope_sketch){rows, cols, t, c, clock.kind, clock.length, clock.epoch, clock.reading, state};
}

static microscope_sketch counted(void) {
    return sketch(1, 32, T, 2, counting(100, 250), 7);
}

static microscope_sketch timed(void) {
    return sketch(2, 16, T, 10, by_time(60, 1000, 1300), UINT64_C(0x0123456789ABCDEF));
}

/* ---- bytes ---- */

static uint64_t scattered(uint64_t n) {
    n ^= n << 21;
    n ^= n >> 35;
    return n ^ (n << 4);
}

/* A byte that looks like chance: the number of its place and of its run, scattered twice. */
static uint8_t random_byte(uint64_t run, size_t place) {
    uint64_t once = scattered((run << 32) + place + 1);
    return (uint8_t)(scattered(once + UINT64_C(0x9E3779B97F4A7C15)) >> 32);
}

/* A byte of a sound cell: pixels and pad bytes of any value; zoom and shutter 0, or both 1 in every other cell. */
static uint8_t cell_byte(size_t t, size_t index, size_t place, uint8_t any) {
    if (place < zoom_at(t) || shutter_at(t) + 4 <= place) {
        return any;
    }
    return place <= shutter_at(t) && index % 2 == 1;
}

/* A grid of sound cells, another for each run. */
static void fill(uint8_t *grid, size_t size, size_t t, uint64_t run) {
    size_t depth = MICROSCOPE_DEPTH(t);
    for (size_t i = 0; i < size; i++) {
        grid[i] = cell_byte(t, i / depth, i % depth, random_byte(run, i));
    }
}

static bool marked(const uint8_t *bytes, size_t count) {
    for (size_t i = 0; i < count; i++) {
        if (bytes[i] != MARK) {
            return false;
        }
    }
    return true;
}

/* A number of so many bytes, the lowest first. */
static void put(uint8_t *at, size_t width, uint64_t n) {
    for (size_t i = 0; i < width; i++) {
        at[i] = (uint8_t)(n >> 8 * i);
    }
}

/* Gives a block of a store the number of its place and the sum that its bytes make, so that it passes as a block. */
static void seal(uint8_t *store, size_t number) {
    uint8_t *block = store + number * BLOCK;
    put(block, 4, number);
    put(block + 508, 4, weighed(block, 508));
}

/* ---- the exact length, from the least sketch to the largest, and of settings that no sketch has ---- */

static void length(const char *name, microscope_sketch of) {
    uint64_t bytes;
    uint64_t number = microscope_store_length(&of, &bytes);
    printf("length, %s: ", name);
    print_verdict(number, 0, ", cell ");
    printf(", %" PRIu64 "\n", bytes);
}

static void sized(const char *name, uint64_t rows, uint64_t cols, uint64_t t) {
    length(name, sketch(rows, cols, t, 2, counting(1, 0), 1));
}

static void lengths(void) {
    sized("1 x 2 cells of 8", 1, 2, 1);
    sized("63 x 2 cells of 8", 63, 2, 1);
    sized("64 x 2 cells of 8", 64, 2, 1);
    sized("128 x 2 cells of 4104", 128, 2, 4096);
    sized("8 x 65536 cells of 4104", 8, 65536, 4096);
    sized("t 0", 1, 2, 0);
    length("c 257", sketch(1, 2, 1, 257, counting(1, 0), 1));
    length("sub-windows of 0", sketch(1, 2, 1, 2, counting(0, 0), 1));
    sized("9 x 65536", 9, 65536, 1);
    length("state 0", sketch(1, 2, 1, 2, counting(1, 0), 0));
}

/* ---- there and back: a store gives the same sketch and grid, and these the same store ---- */

/* The shape of a run's sketches, and the bytes of their grid. */
struct shape {
    uint64_t rows;
    uint64_t cols;
    uint64_t t;
    uint64_t c;
    size_t size;
};

/* How many came out as they should, and how many otherwise. */
struct tally {
    uint64_t right;
    uint64_t other;
};

/* The first that goes otherwise is told: true. */
static bool counts(struct tally *tally, bool right) {
    if (right) {
        tally->right++;
        return false;
    }
    return tally->other++ == 0;
}

/* A sketch has no bytes that say nothing: its layout is asserted in the header. */
static bool same_sketch(microscope_sketch one, microscope_sketch other) {
    return same_bytes(&one, &other, sizeof one);
}

static bool no_codes(microscope_watch watch) {
    return watch.count == 0 && watch.rows == 0 && watch.reached == 0;
}

/* What was loaded is what was saved, and saves as the same bytes. */
static bool there_and_back(microscope_sketch of, const uint8_t *grid, size_t size, size_t stored) {
    static uint8_t store[LARGEST_STORE], back[LARGEST_GRID], again[LARGEST_STORE];
    microscope_sketch loaded;
    microscope_watch watch;
    uint64_t index;
    if (microscope_save(&of, grid, size, store, stored, &index) != 0) {
        return false;
    }
    if (microscope_load(&loaded, &watch, back, size, store, stored, &index) != 0) {
        return false;
    }
    if (!same_sketch(loaded, of) || !no_codes(watch) || !same_bytes(back, grid, size)) {
        return false;
    }
    return microscope_save(&loaded, back, size, again, stored, &index) == 0 && same_bytes(again, store, stored);
}

static bool trip(microscope_sketch of, size_t size) {
    static uint8_t grid[LARGEST_GRID];
    uint64_t stored;
    if (microscope_store_length(&of, &stored) != 0 || size > LARGEST_GRID || stored > LARGEST_STORE) {
        return false;
    }
    fill(grid, size, of.t, of.state);
    return there_and_back(of, grid, size, stored);
}

static void trip_with(struct tally *tally, struct shape of, struct timing clock, uint64_t state) {
    if (counts(tally, trip(sketch(of.rows, of.cols, of.t, of.c, clock, state), of.size))) {
        printf("otherwise: reading %" PRIu64 ", state %" PRIu64 "\n", clock.reading, state);
    }
}

static void states(struct tally *tally, struct shape of, struct timing clock) {
    trip_with(tally, of, clock, 1);
    trip_with(tally, of, clock, UINT64_C(0x0123456789ABCDEF));
    trip_with(tally, of, clock, UINT64_MAX);
}

static void clocks(struct tally *tally, struct shape of) {
    states(tally, of, counting(1, 0));
    states(tally, of, counting(1000, 123456));
    states(tally, of, counting(longest, UINT64_MAX));
    states(tally, of, by_time(1, 0, 0));
    states(tally, of, by_time(60, 1000, 13));
    states(tally, of, by_time(60, 1000, 5000));
    states(tally, of, by_time(longest, UINT64_MAX, UINT64_MAX));
}

static void shaped(uint64_t rows, uint64_t cols, uint64_t t, uint64_t c, size_t size) {
    struct tally tally = {0, 0};
    clocks(&tally, (struct shape){rows, cols, t, c, size});
    printf("there and back, %" PRIu64 " x %" PRIu64 " cells, t %" PRIu64 ", c %" PRIu64 ": ", rows, cols, t, c);
    printf("%" PRIu64 " the same, %" PRIu64 " otherwise\n", tally.right, tally.other);
}

/* The bytes of each grid are written out, by document 01's depths: the library has to agree. */
static void trips(void) {
    shaped(1, 2, 1, 2, 16);
    shaped(63, 2, 1, 3, 1008);
    shaped(128, 2, 1, 256, 2048);
    shaped(1, 1024, 1, 2, 8192);
    shaped(4, 8, 5, 255, 384);
    shaped(1, 32, 12, 2, 640);
    shaped(2, 64, 12, 10, 2560);
    shaped(3, 4, 97, 16, 1248);
    shaped(1, 2, 4095, 2, 8208);
    shaped(1, 2, 4096, 256, 8208);
}

/* ---- saves that are refused: no byte of the lent buffer is written ---- */

static void tell_save(const char *name, microscope_sketch of, const uint8_t *grid, size_t size, size_t stored) {
    uint8_t store[STORE + 1];
    memset(store, MARK, sizeof store);
    uint64_t index;
    uint64_t number = microscope_save(&of, grid, size, store, stored, &index);
    printf("save, %s: ", name);
    print_verdict(number, index, ", cell ");
    printf(marked(store, sizeof store) ? ", store as it was\n" : ", store written\n");
}

/* A save of so many bytes of a good grid into so many bytes. */
static void save(const char *name, microscope_sketch of, size_t size, size_t stored) {
    uint8_t grid[GRID + 1];
    fill(grid, sizeof grid, T, 1);
    tell_save(name, of, grid, size, stored);
}

/* The same with one byte of the grid changed. */
static void save_changed(const char *name, size_t at, uint8_t value, size_t size, size_t stored) {
    uint8_t grid[GRID + 1];
    fill(grid, sizeof grid, T, 1);
    grid[at] = value;
    tell_save(name, counted(), grid, size, stored);
}

static void saves(void) {
    struct timing clock = counting(100, 250);
    save("as it should be", counted(), 640, 1536);
    save("into a byte less", counted(), 640, 1535);
    save("into a byte more", counted(), 640, 1537);
    save("into nothing", counted(), 640, 0);
    save("grid a byte short", counted(), 639, 1536);
    save("grid a byte long", counted(), 641, 1536);
    save("t 0", sketch(1, 32, 0, 2, clock, 7), 640, 1536);
    save("c 1", sketch(1, 32, 12, 1, clock, 7), 640, 1536);
    save("state 0", sketch(1, 32, 12, 2, clock, 0), 640, 1536);
    save_changed("zoom 32 in cell 3", 74, 32, 640, 1536);
    save_changed("zoom 32 in cell 3, into a byte less", 74, 32, 640, 1535);
    save_changed("zoom 32 in cell 3, grid a byte short", 74, 32, 639, 1536);
}

/* ---- a store tried on a grid of marks ---- */

/* What a load answered, and whether it left every byte of the grid. */
struct outcome {
    uint64_t number;
    uint64_t index;
    bool kept;
};

/* The store of a bench sketch. A save that is refused leaves the buffer all zeros, which no load takes. */
static void make_store(uint8_t *store, microscope_sketch of, uint64_t run) {
    uint8_t grid[GRID];
    uint64_t index;
    fill(grid, sizeof grid, T, run);
    memset(store, 0, STORE);
    microscope_save(&of, grid, sizeof grid, store, STORE, &index);
}

/* A load into a grid of so many bytes. */
static struct outcome tried(const uint8_t *store, size_t stored, size_t size) {
    uint8_t grid[GRID + 1];
    microscope_sketch sketch;
    microscope_watch watch;
    struct outcome outcome;
    memset(grid, MARK, sizeof grid);
    outcome.number = microscope_load(&sketch, &watch, grid, size, store, stored, &outcome.index);
    outcome.kept = marked(grid, sizeof grid);
    return outcome;
}

static void tell(const char *name, struct outcome outcome) {
    printf("%s: ", name);
    print_verdict(outcome.number, outcome.index, ", cell ");
    printf(outcome.kept ? ", grid as it was\n" : ", grid written\n");
}

/* ---- stores that were cut, lengthened, mixed or changed ---- */

/* The first bytes of a store. */
static void cut(const char *name, size_t stored) {
    uint8_t store[STORE];
    make_store(store, counted(), 1);
    tell(name, tried(store, stored, GRID));
}

static void cuts(void) {
    cut("whole", 1536);
    cut("cut by 1", 1535);
    cut("cut by 512", 1024);
    cut("cut to the header", 512);
    cut("cut to 1", 1);
    cut("cut to 0", 0);
}

/* A store and a fourth block behind it, with a number and a sum if it is sealed. */
static void longer(const char *name, size_t stored, bool sealed) {
    uint8_t store[STORE + BLOCK] = {0};
    make_store(store, counted(), 1);
    if (sealed) {
        seal(store, 3);
    }
    tell(name, tried(store, stored, GRID));
}

static void lengthened(void) {
    longer("longer by a byte", 1537, false);
    longer("longer by 512 zeros", 2048, false);
    longer("longer by a good block", 2048, true);
}

/* A block of the second store in a place of the first. */
static void mixed(const char *name, size_t place, size_t taken, microscope_sketch second, uint64_t run) {
    uint8_t store[STORE], other[STORE];
    make_store(store, counted(), 1);
    make_store(other, second, run);
    memcpy(store + place, other + taken, BLOCK);
    tell(name, tried(store, STORE, GRID));
}

static void swapped(void) {
    uint8_t store[STORE], other[STORE];
    make_store(store, counted(), 1);
    make_store(other, counted(), 1);
    memcpy(store + 512, other + 1024, BLOCK);
    memcpy(store + 1024, other + 512, BLOCK);
    tell("blocks 1 and 2 swapped", tried(store, STORE, GRID));
}

/* No block says which store it is of: one of the same number passes, and what it carries is loaded. */
static void mixes(void) {
    mixed("block 1 twice", 1024, 512, counted(), 1);
    mixed("block 2 of another store as block 1", 512, 1024, counted(), 2);
    mixed("block 1 of another store as block 0", 0, 512, counted(), 2);
    mixed("block 1 of another store as block 1", 512, 512, counted(), 2);
    mixed("header of another store of the same size", 0, 0, timed(), 2);
}

/* Counts a load that should be refused by this number, the grid as it was; `place` and `value` say which one it was. */
static void await(struct tally *tally, uint64_t number, struct outcome outcome, uint64_t place, uint8_t value) {
    if (counts(tally, outcome.number == number && outcome.kept)) {
        printf("otherwise at %" PRIu64 ", value %u", place, (unsigned)value);
        tell("", outcome);
    }
}

static void tell_tally(struct tally tally, uint64_t number) {
    printf(": %" PRIu64 " refused by %" PRIu64 " with the grid as it was, ", tally.right, number);
    printf("%" PRIu64 " otherwise\n", tally.other);
}

static void change(struct tally *tally, uint8_t *store, size_t place, uint8_t value) {
    store[place] = value;
    await(tally, MICROSCOPE_BLOCK, tried(store, STORE, GRID), place, value);
}

/* One place changed to three other values, and back. */
static void changes(struct tally *tally, uint8_t *store, size_t place) {
    uint8_t was = store[place];
    change(tally, store, place, was ^ 1);
    change(tally, store, place, was ^ 128);
    change(tally, store, place, was ^ 255);
    store[place] = was;
}

static void changed(const char *name, microscope_sketch of) {
    struct tally tally = {0, 0};
    uint8_t store[STORE];
    make_store(store, of, 1);
    printf("%s, every byte changed to 3 values", name);
    for (size_t place = 0; place < STORE; place++) {
        changes(&tally, store, place);
    }
    tell_tally(tally, MICROSCOPE_BLOCK);
    tell("and changed back", tried(store, STORE, GRID));
}

/* ---- bytes that never were a store ---- */

static void fill_random(uint8_t *store, uint64_t run) {
    for (size_t i = 0; i < STORE; i++) {
        store[i] = random_byte(run, i);
    }
}

/* A store of chance; sealed, its blocks have the right numbers and sums. It is told by its run and first payload byte. */
static void random_store(struct tally *tally, uint64_t run, bool sealed, uint64_t number) {
    uint8_t store[STORE];
    fill_random(store, run);
    if (sealed) {
        seal(store, 0);
        seal(store, 1);
        seal(store, 2);
    }
    await(tally, number, tried(store, STORE, GRID), run, store[4]);
}

static void random_stores(const char *name, bool sealed, uint64_t number) {
    struct tally tally = {0, 0};
    printf("%s", name);
    for (uint64_t run = 0; run < 1000; run++) {
        random_store(&tally, run, sealed, number);
    }
    tell_tally(tally, number);
}

/* ---- stores whose blocks all pass, with a header or a grid that no save writes ---- */

/* A number at a place of the header's payload, and the block sealed again. */
static void header(const char *name, microscope_sketch of, size_t at, size_t width, uint64_t value) {
    uint8_t store[STORE];
    make_store(store, of, 1);
    put(store + 4 + at, width, value);
    seal(store, 0);
    tell(name, tried(store, STORE, GRID));
}

static void field(const char *name, size_t at, uint64_t value) {
    header(name, counted(), at, 4, value);
}

static void wide_field(const char *name, size_t at, uint64_t value) {
    header(name, counted(), at, 8, value);
}

static void forms(void) {
    field("sealed again", 0, 1);
    field("form 0", 0, 0);
    field("form 2", 0, 2);
    field("clock kind 2", 20, 2);
    wide_field("count clock with an epoch", 32, 1);
    header("time clock with another epoch", timed(), 32, 8, 1);
    header("time clock made a count clock", timed(), 20, 4, 0);
    field("first byte behind the header", 56, 1);
    header("last byte of the header's block", counted(), 503, 1, 1);
}

static void settings(void) {
    field("t 0", 12, 0);
    field("t 4097", 12, 4097);
    field("c 1", 16, 1);
    field("c 257", 16, 257);
    wide_field("length 0", 24, 0);
    wide_field("length 2^53", 24, longest);
    wide_field("length 2^53 + 1", 24, longest + 1);
    field("rows 0", 4, 0);
    field("rows 26", 4, 26);
    field("cols 1", 8, 1);
    field("cols 33", 8, 33);
    wide_field("state 0", 48, 0);
    wide_field("t 0 and c 0", 12, 0);
    wide_field("form 2 and rows 0", 0, 2);
}

static void sizes(void) {
    field("rows 2", 4, 2);
    field("cols 16", 8, 16);
    field("t 4096", 12, 4096);
}

/* A byte of the grid's blocks changed, the blocks sealed again, and the load into a grid of so many bytes. */
static void stored_with(const char *name, size_t at, uint8_t value, size_t size) {
    uint8_t store[STORE];
    make_store(store, counted(), 1);
    store[at] = value;
    seal(store, 1);
    seal(store, 2);
    tell(name, tried(store, STORE, size));
}

/* Byte 0 of the grid stands at 516, byte 504 at 1028, and the fill from 1164 to 1531. */
static void grids(void) {
    stored_with("pad byte of cell 0", 535, 1, 640);
    stored_with("zoom 31 in cell 2", 570, 31, 640);
    stored_with("zoom 32 in cell 2", 570, 32, 640);
    stored_with("shutter 1 at zoom 0 in cell 2", 571, 1, 640);
    stored_with("zoom 32 in cell 25, which lies in two blocks", 1038, 32, 640);
    stored_with("shutter past 2^24 at zoom 1 in cell 31", 1162, 1, 640);
    stored_with("first byte of the fill", 1164, 1, 640);
    stored_with("last byte of the fill", 1531, 1, 640);
    stored_with("grid lent a byte short", 516, 9, 639);
    stored_with("grid lent a byte long", 516, 9, 641);
    stored_with("no grid lent", 516, 9, 0);
    stored_with("grid lent a byte short and a fill", 1164, 1, 639);
    stored_with("grid lent a byte short and zoom 32", 570, 32, 639);
}

int main(void) {
    lengths();
    trips();
    saves();
    cuts();
    lengthened();
    swapped();
    mixes();
    changed("counting items", counted());
    changed("by time", timed());
    random_stores("1536 random bytes", false, MICROSCOPE_BLOCK);
    random_stores("random bytes in right blocks", true, MICROSCOPE_FORM);
    forms();
    settings();
    sizes();
    grids();
    return 0;
}
