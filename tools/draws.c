// Prints what the program `try_draws` must print (docs/DRAWS.md). Written from the published lines of xorshift64*
// (Vigna) and from document 01's words on the rounded division and its refusals; nothing here comes from our own code.
#include <inttypes.h>
#include <stdio.h>

enum { TURNS = 1000000 };

static const uint64_t most = UINT64_MAX;

// The published generator. The state must not be 0.
static uint64_t next(uint64_t *state)
{
    uint64_t x = *state;
    x ^= x >> 12;
    x ^= x << 25;
    x ^= x >> 27;
    *state = x;
    return x * UINT64_C(0x2545F4914F6CDD1D);
}

static uint64_t seeded(uint64_t seed)
{
    return seed == 0 ? UINT64_C(0x9E3779B97F4A7C15) : seed;
}

struct answer {
    int refusal;
    uint64_t value;
    unsigned draws;
};

// A draw, or 5 for the state 0.
static struct answer draw(uint64_t *state)
{
    if (*state == 0)
        return (struct answer){5, 0, 0};
    return (struct answer){0, next(state), 1};
}

// v / d, the remainder rounded up with the chance that it has of d; or the lower of 5 and 15.
static struct answer divide(uint64_t v, uint64_t d, uint64_t *state)
{
    if (*state == 0)
        return (struct answer){5, 0, 0};
    if (d == 0)
        return (struct answer){15, 0, 0};
    if (v % d == 0)
        return (struct answer){0, v / d, 0};
    return (struct answer){0, v / d + (next(state) % d < v % d), 1};
}

static uint64_t digest(uint64_t before, uint64_t value)
{
    return (before << 5 | before >> 59) + value;
}

static int is_mark(int count)
{
    while (count % 10 == 0)
        count /= 10;
    return count == 1;
}

static void print_verdict(struct answer a)
{
    if (a.refusal)
        printf(": refused by %d", a.refusal);
    else
        printf(": accepted");
}

static void print_draw(struct answer a, uint64_t state)
{
    print_verdict(a);
    printf(", value %" PRIu64 ", state %" PRIu64, a.value, state);
}

static void print_division(struct answer a, uint64_t state)
{
    print_verdict(a);
    printf(", value %" PRIu64 ", draws %u, state %" PRIu64, a.value, a.draws, state);
}

static void sequence(uint64_t seed)
{
    uint64_t state = seeded(seed), sum = 0;
    printf("draws from seed %" PRIu64 "\n", seed);
    for (int count = 1; count <= TURNS; count++) {
        struct answer a = draw(&state);
        sum = digest(sum, a.value);
        if (is_mark(count)) {
            printf("  draw %d", count);
            print_draw(a, state);
            printf(", digest %" PRIu64 "\n", sum);
        }
    }
}

// A number of a run of divisions: these binary digits of a draw, and those set.
struct operand {
    uint64_t keep, set;
};

static struct operand always(uint64_t n)
{
    return (struct operand){0, n};
}

static uint64_t drawn(struct operand o, uint64_t *source)
{
    return (next(source) & o.keep) | o.set;
}

// Rounds from the seed 1; the numbers are drawn from the seed 2, first what is divided, then the divisor.
static void divisions(const char *title, struct operand value, struct operand divisor)
{
    uint64_t state = seeded(1), source = seeded(2), draws = 0, refused = 0, sum = 0;
    printf("divisions: %s\n", title);
    for (int count = 1; count <= TURNS; count++) {
        uint64_t v = drawn(value, &source);
        uint64_t d = drawn(divisor, &source);
        struct answer a = divide(v, d, &state);
        draws += a.draws;
        refused += a.refusal != 0;
        sum = digest(sum, a.value);
        if (is_mark(count)) {
            printf("  division %d", count);
            print_division(a, state);
            printf("; in all: draws %" PRIu64 ", refused %" PRIu64 ", digest %" PRIu64 "\n", draws, refused, sum);
        }
    }
}

static void single_draw(uint64_t state)
{
    printf("draw from state %" PRIu64, state);
    struct answer a = draw(&state);
    print_draw(a, state);
    printf("\n");
}

static void single_division(uint64_t v, uint64_t d, uint64_t state)
{
    printf("%" PRIu64 " / %" PRIu64 " from state %" PRIu64, v, d, state);
    struct answer a = divide(v, d, &state);
    print_division(a, state);
    printf("\n");
}

int main(void)
{
    const struct operand whole = {most, 0}, half = {UINT32_MAX, 0}, byte = {255, 0};

    sequence(0);
    sequence(1);
    sequence(2);
    sequence(UINT64_C(0x0123456789ABCDEF));
    sequence(most);

    divisions("draws / 1", whole, always(1));
    divisions("draws / 2", whole, always(2));
    divisions("draws / 3", whole, always(3));
    divisions("draws / 256", whole, always(256));
    divisions("draws / (2^32 - 1)", whole, always(UINT32_MAX));
    divisions("draws / (2^64 - 1)", whole, always(most));
    divisions("0 / draws", always(0), whole);
    divisions("(2^64 - 1) / draws", always(most), whole);
    divisions("draws / draws", whole, whole);
    divisions("low halves of draws / 2", half, always(2));
    divisions("low halves of draws / low bytes of draws", half, byte);

    single_division(0, 1, 1);
    single_division(0, most, 1);
    single_division(1, most, 1);
    single_division(most, 1, 1);
    single_division(most, 2, 1);
    single_division(most, most, 1);
    single_division(UINT32_MAX, UINT32_MAX, 1);

    single_draw(0);
    single_division(7, 2, 0);
    single_division(7, 0, 1);
    single_division(7, 0, 0);
    single_division(most, 2, 0);
    single_division(most, 0, 1);
    single_division(most, 0, 0);
}
