/*
 * What the parts of tests/replay.c share: a record of the published Rust's answers (docs/ORACLE.md has the formats), and
 * what is told where something else came.
 */
#ifndef REPLAY_H
#define REPLAY_H

#include "tests.h"

/*
 * A kind of record, and how many there were of it. A step is no call: it writes to the sketch or its grid, which are the
 * caller's, and so is done here by an assignment.
 */
struct kind {
    const char *name;
    bool step;
    uint64_t records;
};

/* The record that is replayed: its file, its place there from 1 on, its kind, and whether something else came. */
struct record {
    const char *file;
    uint64_t place;
    const struct kind *kind;
    bool differs;
};

static struct record now;

/* Records of which something else came. */
static uint64_t differences;

/* ---- fields, low byte first ---- */

static inline uint64_t number_at(const uint8_t *at, size_t bytes) {
    uint64_t number = 0;
    for (size_t i = bytes; i > 0; i--) {
        number = number << 8 | at[i - 1];
    }
    return number;
}

static inline uint64_t byte_at(const uint8_t *record, size_t at) {
    return record[at];
}

static inline uint64_t u16_at(const uint8_t *record, size_t at) {
    return number_at(record + at, 2);
}

static inline uint64_t u32_at(const uint8_t *record, size_t at) {
    return number_at(record + at, 4);
}

static inline uint64_t u64_at(const uint8_t *record, size_t at) {
    return number_at(record + at, 8);
}

static inline double double_of(uint64_t bits) {
    double number;
    memcpy(&number, &bits, sizeof number);
    return number;
}

/* The bits by which a double is compared: all that are no number go by the same. */
static inline uint64_t bits_of(double number) {
    uint64_t bits;
    memcpy(&bits, &number, sizeof bits);
    return number == number ? bits : UINT64_C(0x7FF8000000000000);
}

/* The sub-window reached, by the header's words: no call tells it. */
static inline uint64_t sub_window(const microscope_sketch *sketch) {
    if (sketch->kind == MICROSCOPE_ITEMS) {
        return sketch->reading / sketch->length;
    }
    return sketch->reading < sketch->epoch ? 0 : (sketch->reading - sketch->epoch) / sketch->length;
}

/* ---- reading ---- */

/* So many bytes of the file, in memory of just that size. A record that is cut short ends the program. */
static inline uint8_t *bytes_from(FILE *in, size_t count) {
    uint8_t *bytes = exactly(count);
    if (fread(bytes, 1, count, in) != count) {
        printf("%s, record %" PRIu64 ": cut short\n", now.file, now.place);
        exit(1);
    }
    return bytes;
}

/* The next record's first bytes; false at the end of the file. */
static inline bool next_header(FILE *in, uint8_t *header, size_t count) {
    size_t got = fread(header, 1, count, in);
    now.place++;
    now.differs = false;
    if (got != 0 && got != count) {
        printf("%s, record %" PRIu64 ": cut short\n", now.file, now.place);
        exit(1);
    }
    return got == count;
}

/* The kind of a record; 0 is none, and ends the program as one that the format has not. */
static inline struct kind *kind_of(struct kind *kinds, size_t count, uint64_t number) {
    if (number == 0 || number >= count) {
        printf("%s, record %" PRIu64 ": no such kind\n", now.file, now.place);
        exit(1);
    }
    now.kind = &kinds[number];
    return &kinds[number];
}

/* ---- comparing: of the first record that differs all that does is told ---- */

/* True if it is to be told what came. */
static inline bool differs(void) {
    now.differs = true;
    if (differences == 0) {
        printf("%s, record %" PRIu64 ", %s: ", now.file, now.place, now.kind->name);
    }
    return differences == 0;
}

static inline void hold(const char *what, uint64_t expected, uint64_t came) {
    if (expected != came && differs()) {
        printf("%s: expected %" PRIu64 ", came %" PRIu64 "\n", what, expected, came);
    }
}

/* The first byte that differs is told. */
static inline void hold_bytes(const char *what, const uint8_t *expected, const uint8_t *came, size_t count) {
    size_t at = 0;
    while (at < count && expected[at] == came[at]) {
        at++;
    }
    if (at < count && differs()) {
        printf("%s, byte %zu: expected %u, came %u\n", what, at, (unsigned)expected[at], (unsigned)came[at]);
    }
}

static inline void end_record(struct kind *kind) {
    kind->records++;
    differences += now.differs;
}

#endif
