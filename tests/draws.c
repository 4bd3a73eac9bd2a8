/*
 * The draws by themselves, at their edges: seeds, states, values and divisors from 0 to 2^64 - 1, and both refusals. Every
 * answer is held to document 01's words, which are written down here a second time, and is told over junk. draws.out has
 * what this must print.
 */
#include "tests.h"

static const uint64_t edges[] = {
    0, 1, 2, 3, 255, 256, UINT32_MAX, UINT64_C(1) << 32, (UINT64_C(1) << 53) + 1, INT64_MAX, UINT64_C(1) << 63,
    (UINT64_C(1) << 63) + 1, UINT64_MAX - 1, UINT64_MAX};

enum { EDGES = sizeof edges / sizeof edges[0] };

/* ---- what a call leaves and tells, and what it should ---- */

struct answer {
    uint64_t number;
    uint64_t state;
    uint64_t value;
    microscope_change change;
};

/* A draw tells its value only. */
static struct answer draw(uint64_t state, uint8_t junk) {
    struct answer answer = {0, state, 0, {0, 0, 0}};
    memset(&answer.value, junk, sizeof answer.value);
    answer.number = microscope_next_u64(&answer.state, &answer.value);
    return answer;
}

static struct answer divide(uint64_t value, uint64_t divisor, uint64_t state, uint8_t junk) {
    struct answer answer;
    memset(&answer, junk, sizeof answer);
    answer.state = state;
    answer.number = microscope_unbiased_div_u64(value, divisor, &answer.state, &answer.value, &answer.change);
    return answer;
}

/* One draw: xorshift64*. */
static struct answer draw_right(uint64_t state) {
    struct answer right = {0, state, 0, {0, 0, 0}};
    if (state == 0) {
        right.number = MICROSCOPE_STATE;
        return right;
    }
    right.state ^= right.state >> 12;
    right.state ^= right.state << 25;
    right.state ^= right.state >> 27;
    right.value = right.state * UINT64_C(0x2545F4914F6CDD1D);
    return right;
}

static struct answer divide_right(uint64_t value, uint64_t divisor, uint64_t state) {
    struct answer right = {0, state, 0, {0, 0, 0}};
    if (state == 0 || divisor == 0) {
        right.number = state == 0 ? MICROSCOPE_STATE : MICROSCOPE_DIVISOR;
        return right;
    }
    right.value = value / divisor;
    if (value % divisor > 0) {
        struct answer drawn = draw_right(state);
        right.value += drawn.value % divisor < value % divisor;
        right.state = drawn.state;
        right.change.draws = 1;
    }
    return right;
}

/* ---- all of them ---- */

/* How often each number came, and how many answers were otherwise. */
struct tally {
    uint64_t accepted;
    uint64_t without_state;
    uint64_t by_0;
    uint64_t wrong;
};

static void show(struct answer came) {
    print_verdict(came.number, 0, "");
    printf(", value %" PRIu64 ", state %" PRIu64, came.value, came.state);
}

/* Of what is wrong the first is told. */
static void count(struct tally *tally, struct answer came, struct answer right) {
    tally->accepted += came.number == MICROSCOPE_ACCEPTED;
    tally->without_state += came.number == MICROSCOPE_STATE;
    tally->by_0 += came.number == MICROSCOPE_DIVISOR;
    if (!same_bytes(&came, &right, sizeof came) && tally->wrong++ == 0) {
        printf("expected: ");
        show(right);
        printf("; came: ");
        show(came);
        printf(", draws %" PRIu64 ", lost %" PRIu64 "\n", came.change.draws, came.change.lost);
    }
}

static void report(const char *what, struct tally tally) {
    printf("%s: %" PRIu64 " accepted, %" PRIu64 " refused by 5, %" PRIu64 " by 15; %" PRIu64 " wrong\n", what,
           tally.accepted, tally.without_state, tally.by_0, tally.wrong);
}

/* Each over junk of two kinds. */
static void all(void) {
    struct tally draws = {0, 0, 0, 0}, divisions = {0, 0, 0, 0};
    for (size_t s = 0; s < EDGES; s++) {
        count(&draws, draw(edges[s], 165), draw_right(edges[s]));
        count(&draws, draw(edges[s], 255), draw_right(edges[s]));
        for (size_t i = 0; i < EDGES * EDGES; i++) {
            uint64_t value = edges[i / EDGES], divisor = edges[i % EDGES];
            struct answer right = divide_right(value, divisor, edges[s]);
            count(&divisions, divide(value, divisor, edges[s], 165), right);
            count(&divisions, divide(value, divisor, edges[s], 255), right);
        }
    }
    report("draws", draws);
    report("divisions", divisions);
}

/* ---- some of them ---- */

static void show_seed(uint64_t seed) {
    printf("seed %" PRIu64 ": state %" PRIu64 "\n", seed, microscope_rounding_new(seed));
}

static void show_draw(uint64_t state) {
    printf("a draw from state %" PRIu64 ": ", state);
    show(draw(state, 165));
    printf("\n");
}

static void show_division(uint64_t value, uint64_t divisor, uint64_t state) {
    struct answer came = divide(value, divisor, state, 165);
    printf("%" PRIu64 " / %" PRIu64 " from state %" PRIu64 ": ", value, divisor, state);
    show(came);
    printf(", draws %" PRIu64 "\n", came.change.draws);
}

int main(void) {
    show_seed(0);
    show_seed(1);
    show_seed(UINT64_MAX);
    show_draw(0);
    show_draw(1);
    show_draw(UINT64_MAX);
    show_division(7, 2, 0);
    show_division(7, 0, 0);
    show_division(7, 0, 1);
    show_division(0, 0, UINT64_MAX);
    show_division(0, UINT64_MAX, 1);
    show_division(8, 2, 1);
    show_division(7, 2, 1);
    show_division(7, 2, 2);
    show_division(1, UINT64_MAX, UINT64_MAX);
    show_division(UINT64_MAX, 1, UINT64_MAX);
    show_division(UINT64_MAX, 2, 2);
    show_division(UINT64_MAX, 2, 1);
    show_division(UINT64_MAX, UINT64_MAX, UINT64_MAX);
    show_division(UINT64_MAX - 1, UINT64_MAX, UINT64_MAX);
    all();
    return 0;
}
