/* The program of crates/bench_fractions with GMP's mpq: the same pairs, the same checksums, the same output. */
#include <gmp.h>
#include <stdint.h>
#include <stdio.h>
#include <stdlib.h>
#include <time.h>

#define PAIRS 1000

typedef struct {
    mpq_t x, y;
} pair;

static uint64_t state;

/* The next 30 bits. */
static uint64_t next_bits(void)
{
    state = state * 6364136223846793005u + 1442695040888963407u;
    return state >> 34;
}

static uint64_t next_wide(void)
{
    uint64_t high = next_bits();
    return high << 30 | next_bits();
}

static void next_fraction(mpq_t into, int kind)
{
    uint64_t size, den;
    if (kind == 0) {
        size = next_bits() >> 10;
        den = 0;
    } else if (kind == 1) {
        size = next_bits() >> 20;
        den = next_bits() >> 20;
    } else {
        size = next_wide();
        den = next_wide();
    }
    mpq_set_ui(into, size | 1, den + 1);
    if (next_bits() % 2 == 0)
        mpq_neg(into, into);
    mpq_canonicalize(into);
}

static uint64_t digest(mpq_t value)
{
    return mpz_get_ui(mpq_numref(value)) ^ mpz_get_ui(mpq_denref(value));
}

static int sign(int n)
{
    return (n > 0) - (n < 0);
}

static double now(void)
{
    struct timespec time;
    clock_gettime(CLOCK_MONOTONIC, &time);
    return time.tv_sec * 1e9 + time.tv_nsec;
}

int main(int argc, char **argv)
{
    static pair pairs[PAIRS];
    const char *kinds[] = {"whole", "small", "sixty"};
    const char *operations[] = {"add", "sub", "mul", "div", "cmp"};
    uint64_t rounds = argc > 1 ? strtoull(argv[1], 0, 10) : 1;
    mpq_t r;
    mpq_init(r);
    for (int i = 0; i < PAIRS; i++) {
        mpq_init(pairs[i].x);
        mpq_init(pairs[i].y);
    }
    for (int kind = 0; kind < 3; kind++) {
        state = 1;
        for (int i = 0; i < PAIRS; i++) {
            next_fraction(pairs[i].x, kind);
            next_fraction(pairs[i].y, kind);
        }
        for (int operation = 0; operation < 5; operation++) {
            double start = now();
            uint64_t sum = 0;
            for (uint64_t round = 0; round < rounds; round++)
                for (int i = 0; i < PAIRS; i++) {
                    pair *p = &pairs[i];
                    uint64_t step;
                    switch (operation) {
                    case 0: mpq_add(r, p->x, p->y); step = digest(r); break;
                    case 1: mpq_sub(r, p->x, p->y); step = digest(r); break;
                    case 2: mpq_mul(r, p->x, p->y); step = digest(r); break;
                    case 3: mpq_div(r, p->x, p->y); step = digest(r); break;
                    default: step = (uint64_t)(sign(mpq_cmp(p->x, p->y)) + 1);
                    }
                    sum = sum * 31 + step;
                }
            double time = now() - start;
            printf("%s %s %llu\n", kinds[kind], operations[operation], (unsigned long long)sum);
            fprintf(stderr, "%s %s %.0f\n", kinds[kind], operations[operation], time);
        }
    }
    return 0;
}
