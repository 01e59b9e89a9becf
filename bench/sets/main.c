/* Times each operation in C and proved, in one run: best of nine, at three densities. */
#include <math.h>
#include <stddef.h>
#include <stdint.h>
#include <stdio.h>
#include <stdlib.h>
#include <string.h>
#include <x86intrin.h>

enum { LONG = 400000, TRIES = 9 };

typedef size_t operation(const uint32_t *, size_t, const uint32_t *, size_t, uint32_t *, size_t);
operation c_both_merge, c_both_gallop, c_either, c_either_branchless, c_without, c_without_branchless;
operation p_both_merge, p_both_gallop, p_either, p_without;
void c_init(void);

static uint32_t a[LONG], b[LONG], out[2 * LONG + 8], want[2 * LONG + 8];

static uint64_t state = 88172645463325252ull;
static uint32_t any(void)
{
    state ^= state << 13;
    state ^= state >> 7;
    state ^= state << 17;
    return (uint32_t)(state >> 16);
}

static int by_number(const void *p, const void *q)
{
    uint32_t x = *(const uint32_t *)p, y = *(const uint32_t *)q;
    return (x > y) - (x < y);
}

/* About n rising numbers from 1 to range; how many there are. */
static size_t make(uint32_t *xs, size_t n, uint32_t range)
{
    size_t m = 0;
    for (size_t i = 0; i < n; i++)
        xs[i] = 1 + any() % range;
    qsort(xs, n, sizeof *xs, by_number);
    for (size_t i = 0; i < n; i++)
        if (!m || xs[i] != xs[m - 1])
            xs[m++] = xs[i];
    return m;
}

static size_t na, nb, n_want;
static int wrong;

/* Cycles a number of both lists: short runs are passed over several times. */
static double once(operation *f, const char *name)
{
    size_t passes = na < LONG / 50 ? 20 : 1, n = 0;
    uint64_t start = __rdtsc();
    for (size_t pass = 0; pass < passes; pass++) {
        n = f(a, na, b, nb, out, 2 * LONG);
        __asm__ volatile("" ::: "memory");
    }
    double cycles = (double)(__rdtsc() - start) / (double)(na + nb) / (double)passes;
    if (n != n_want || memcmp(out, want, 4 * n)) {
        printf("%s differs\n", name);
        wrong = 1;
    }
    return cycles;
}

static double sum_c, sum_other, sum_p;
static int rows;

/* Best of nine of each, in turn; other is a form in C without branches, or none. */
static void race(const char *name, int first, int second, uint32_t range, operation *c, operation *other,
                 operation *p)
{
    double best_c = 1e9, best_other = 1e9, best_p = 1e9;
    na = make(a, LONG / first, range);
    nb = make(b, LONG / second, range);
    n_want = c(a, na, b, nb, want, 2 * LONG);
    for (int t = 0; t < TRIES; t++) {
        best_c = fmin(best_c, once(c, name));
        if (other)
            best_other = fmin(best_other, once(other, name));
        best_p = fmin(best_p, once(p, name));
    }
    printf("%-12s %5d:%-5d %10u %10zu %9.3f %9.3f %8.2f", name, second, first, range, n_want, best_c,
           best_p, best_p / best_c);
    if (other)
        printf(" %9.3f %8.2f", best_other, best_p / best_other);
    printf("\n");
    sum_c += log(best_c);
    sum_other += log(other ? best_other : best_c);
    sum_p += log(best_p);
    rows++;
}

static void mean(const char *name)
{
    printf("%-12s geometric mean %47.2f %18.2f\n", name, exp((sum_p - sum_c) / rows),
           exp((sum_p - sum_other) / rows));
    sum_c = sum_other = sum_p = 0;
    rows = 0;
}

int main(void)
{
    static const uint32_t ranges[] = {600000, 4000000, 100000000};
    c_init();
    printf("cycles a number of both lists\n");
    printf("%-12s %11s %10s %10s %9s %9s %8s %9s %8s\n", "operation", "lengths", "range", "result",
           "C", "proved", "ratio", "no branch", "ratio");
    for (int ratio = 1; ratio <= 10; ratio *= 10)
        for (int r = 0; r < 3; r++)
            race("both_merge", ratio, 1, ranges[r], c_both_merge, NULL, p_both_merge);
    mean("both_merge");
    for (int ratio = 100; ratio <= 1000; ratio *= 10)
        for (int r = 0; r < 3; r++)
            race("both_gallop", ratio, 1, ranges[r], c_both_gallop, NULL, p_both_gallop);
    mean("both_gallop");
    for (int ratio = 1; ratio <= 100; ratio *= 10)
        for (int r = 0; r < 3; r++)
            race("either", ratio, 1, ranges[r], c_either, c_either_branchless, p_either);
    mean("either");
    for (int ratio = 1; ratio <= 100; ratio *= 10)
        for (int r = 0; r < 3; r++)
            race("without", ratio, 1, ranges[r], c_without, c_without_branchless, p_without);
    for (int ratio = 10; ratio <= 100; ratio *= 10)
        for (int r = 0; r < 3; r++)
            race("without", 1, ratio, ranges[r], c_without, c_without_branchless, p_without);
    mean("without");
    return wrong;
}
