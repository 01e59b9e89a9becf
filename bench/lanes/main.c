/* Times each kernel in C and proved, in one run: best of nine, over blocks of each width. */
#include "kernels.h"
#include <math.h>
#include <stdio.h>
#include <string.h>
#include <x86intrin.h>

enum { BLOCKS = 64, PASSES = 40, TRIES = 9 };

static uint32_t numbers[33][BLOCKS][128];
static uint8_t packed[33][BLOCKS][512];
static const uint32_t seed[4] = {1, 2, 3, 4};
static uint32_t out[128], other[128];
static uint8_t bytes[512];

static uint64_t state = 88172645463325252ull;
static uint32_t any(void)
{
    state ^= state << 13;
    state ^= state >> 7;
    state ^= state << 17;
    return (uint32_t)(state >> 16);
}

/* Cycles of the time stamp counter a number, of one try. */
#define TRY(call)                                                                                  \
    ({                                                                                             \
        uint64_t start = __rdtsc();                                                                \
        for (int pass = 0; pass < PASSES; pass++)                                                  \
            for (int i = 0; i < BLOCKS; i++) {                                                     \
                call;                                                                              \
                __asm__ volatile("" ::: "memory");                                                 \
            }                                                                                      \
        (double)(__rdtsc() - start) / PASSES / BLOCKS / 128;                                       \
    })

struct sum {
    const char *name;
    double c, proved, worst;
    int widths, worst_width;
};

static void add(struct sum *sum, double c, double proved, int width)
{
    double ratio = proved / c;
    sum->c += log(c);
    sum->proved += log(proved);
    sum->widths++;
    if (ratio > sum->worst) {
        sum->worst = ratio;
        sum->worst_width = width;
    }
}

/* Best of nine of both, in turn, so that a slow moment meets both. */
#define RACE(sum, width, in_c, proven)                                                             \
    do {                                                                                           \
        double c = 1e9, p = 1e9;                                                                   \
        for (int t = 0; t < TRIES; t++) {                                                          \
            double d = TRY(in_c);                                                                  \
            if (d < c)                                                                             \
                c = d;                                                                             \
            d = TRY(proven);                                                                       \
            if (d < p)                                                                             \
                p = d;                                                                             \
        }                                                                                          \
        add(&sum, c, p, width);                                                                    \
    } while (0)

static int wrong;
static void same(const void *a, const void *b, size_t n, const char *name, int width)
{
    if (memcmp(a, b, n)) {
        printf("%s differs at width %d\n", name, width);
        wrong = 1;
    }
}

static void fill(void)
{
    for (int b = 0; b < 33; b++)
        for (int i = 0; i < BLOCKS; i++) {
            for (int k = 0; k < 128; k++)
                numbers[b][i][k] = b == 0 ? 0 : any() >> (32 - b);
            numbers[b][i][any() % 128] |= b == 0 ? 0 : 1u << (b - 1);
            uint32_t width = p_width(numbers[b][i]);
            if (width != (uint32_t)b || c_width(numbers[b][i]) != width)
                printf("width differs at %d\n", b), wrong = 1;
            c_pack(numbers[b][i], b, packed[b][i], 16 * b);
            memset(bytes, 0, 512);
            p_pack(numbers[b][i], b, bytes, 16 * b);
            same(bytes, packed[b][i], 16 * b, "pack", b);
            p_unpack(packed[b][i], 16 * b, b, out);
            same(out, numbers[b][i], 512, "unpack", b);
            c_unpack_sums(packed[b][i], 16 * b, b, seed, out);
            p_unpack_sums(packed[b][i], 16 * b, b, seed, other);
            same(out, other, 512, "unpack_sums", b);
            p_differ(seed, out, other);
            same(other, numbers[b][i], 512, "differ", b);
        }
}

int main(void)
{
    struct sum unpack = {"unpack"}, sums = {"unpack_sums"}, two = {"unpack, restore against fused"};
    struct sum pack = {"pack"}, restore = {"restore"}, differ = {"differ"}, width = {"width"};
    struct sum ascending = {"ascending"};
    fill();
    for (int b = 1; b < 33; b++) {
        RACE(unpack, b, c_unpack(packed[b][i], 16 * b, b, out), p_unpack(packed[b][i], 16 * b, b, out));
        RACE(sums, b, c_unpack_sums(packed[b][i], 16 * b, b, seed, out),
             p_unpack_sums(packed[b][i], 16 * b, b, seed, out));
        RACE(two, b, c_unpack_sums(packed[b][i], 16 * b, b, seed, out),
             (p_unpack(packed[b][i], 16 * b, b, other), p_restore(seed, other, out)));
        RACE(pack, b, c_pack(numbers[b][i], b, bytes, 16 * b), p_pack(numbers[b][i], b, bytes, 16 * b));
    }
    volatile uint32_t keep;
    for (int b = 4; b < 33; b += 4) {
        RACE(restore, b, c_restore(seed, numbers[b][i], out), p_restore(seed, numbers[b][i], out));
        RACE(differ, b, c_differ(seed, numbers[b][i], out), p_differ(seed, numbers[b][i], out));
        RACE(width, b, keep = c_width(numbers[b][i]), keep = p_width(numbers[b][i]));
        RACE(ascending, b, keep = c_ascending(seed, numbers[b][i]), keep = p_ascending(seed, numbers[b][i]));
    }
    (void)keep;
    struct sum *rows[] = {&unpack, &sums, &two, &pack, &restore, &differ, &width, &ascending};
    printf("cycles a number, geometric mean over the widths\n");
    printf("%-32s %8s %8s %8s   %s\n", "kernel", "C", "proved", "ratio", "worst (width)");
    for (int r = 0; r < 8; r++) {
        struct sum *s = rows[r];
        double c = exp(s->c / s->widths), p = exp(s->proved / s->widths);
        printf("%-32s %8.3f %8.3f %8.2f   %.2f (%d)\n", s->name, c, p, p / c, s->worst, s->worst_width);
    }
    return wrong;
}
