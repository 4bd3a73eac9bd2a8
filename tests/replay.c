/*
 * Replays the recorded answers of the published Rust through the library's calls.
 *
 *   replay FOLDER     the folder of the files draws, cells, clock and sketches: crates/try_replay/data
 *
 * docs/ORACLE.md has their formats. Every record is replayed and all that it answers compared; of each kind it prints how many
 * there were. Two kinds are no calls but steps, which set numbers or bytes in the caller's memory. The sub-window that a clock
 * has reached is told by no call: it is reckoned from the reading, by the header's words. Of the first record from which
 * something else came all that differs is told; if there is one it exits 1. replay.out has what this must print.
 */
#include "replay_cells.h"
#include "replay_clock.h"
#include "replay_draws.h"
#include "replay_sketches.h"

/* Records that are calls, and records that are steps. */
static uint64_t calls, steps;

static void report(const struct kind *kinds, size_t count) {
    for (size_t i = 1; i < count; i++) {
        printf("%s, %s: %" PRIu64 " %s\n", now.file, kinds[i].name, kinds[i].records,
               kinds[i].step ? "steps in the caller's memory" : "replayed");
        *(kinds[i].step ? &steps : &calls) += kinds[i].records;
    }
}

static void replay(const char *folder, const char *name, void (*all)(FILE *), const struct kind *kinds, size_t count) {
    char path[4096];
    snprintf(path, sizeof path, "%s/%s", folder, name);
    FILE *in = fopen(path, "rb");
    if (in == NULL) {
        perror(path);
        exit(1);
    }
    now = (struct record){.file = name};
    all(in);
    fclose(in);
    report(kinds, count);
}

int main(int argc, char **argv) {
    if (argc < 2) {
        fprintf(stderr, "replay FOLDER\n");
        return 1;
    }
    replay(argv[1], "draws", replay_draws, draw_kinds, DRAW_KINDS);
    replay(argv[1], "cells", replay_cells, cell_kinds, CELL_KINDS);
    replay(argv[1], "clock", replay_clock, clock_kinds, CLOCK_KINDS);
    replay(argv[1], "sketches", replay_sketches, sketch_kinds, SKETCH_KINDS);
    printf("%" PRIu64 " records: %" PRIu64 " replayed through calls, %" PRIu64 " steps in the caller's memory, %" PRIu64
           " differences\n",
           calls + steps, calls, steps, differences);
    return differences != 0;
}
