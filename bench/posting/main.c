/* Times decode and encode of posting lists in C and proved, in one run: best of nine calls. */
#include "kernels.h"
#include "../lanes/kernels.h"
#include <math.h>
#include <stdio.h>
#include <stdlib.h>
#include <string.h>
#include <x86intrin.h>

enum { COUNT = 1000000, TRIES = 9 };

static const uint32_t greatest_gaps[] = {2, 64, 4096};
static uint32_t numbers[COUNT], copy[COUNT];

static uint64_t state = 88172645463325252ull;
static uint32_t any(void)
{
    state ^= state << 13;
    state ^= state >> 7;
    state ^= state << 17;
    return (uint32_t)(state >> 16);
}

/* A list of so many numbers, its gaps of 1 to a power of two. */
static void fill(size_t count, uint32_t greatest_gap)
{
    uint32_t last = 0;
    for (size_t i = 0; i < count; i++)
        numbers[i] = last += 1 + any() % greatest_gap;
}

static void stop(const char *what)
{
    printf("wrong: %s\n", what);
    exit(1);
}

/* That C and the proved code say the same of some bytes. */
static int agree(const uint8_t *bytes, size_t n)
{
    size_t count;
    uint32_t *xs = c_decode(bytes, n, &count);
    int accepted = xs != NULL;
    if (p_decode(bytes, n) != (xs ? count : SIZE_MAX))
        stop("one refuses what the other accepts");
    if (xs && (!p_decoded(bytes, n, copy, count) || memcmp(xs, copy, 4 * count)))
        stop("the decoded numbers differ");
    free(xs);
    return accepted;
}

/* The bytes of the first numbers, which both encoders and both decoders agree on. */
static uint8_t *checked(size_t count, size_t *n)
{
    uint8_t *bytes = c_encode(numbers, count, n);
    uint8_t *other = malloc(*n), *third = malloc(*n);
    if (!bytes || !other || !third)
        stop("no memory");
    if (p_length_of(numbers, count) != *n || p_encode(numbers, count) != *n)
        stop("the lengths of the bytes differ");
    if (!p_encoded(numbers, count, other, *n) || memcmp(bytes, other, *n))
        stop("the bytes differ");
    p_encode_into(numbers, count, third, *n);
    if (memcmp(bytes, third, *n))
        stop("encode_into gives other bytes");
    if (!agree(bytes, *n) || memcmp(copy, numbers, 4 * count))
        stop("the list does not come back");
    free(other);
    free(third);
    return bytes;
}

/* Short lists of all kinds, then each bit of some turned over, and each cut short and made longer.
   Answers how many of these were refused. */
static size_t check(size_t *altered)
{
    static const uint32_t gaps[] = {1, 2, 64, 4096, 1u << 20};
    static const size_t counts[] = {0, 1, 5, 127, 128, 300, 2047, 2048, 2200};
    size_t refused = 0, n;
    *altered = 0;
    for (int g = 0; g < 5; g++)
        for (int c = 0; c < 9; c++) {
            fill(counts[c], gaps[g]);
            uint8_t *bytes = checked(counts[c], &n);
            uint8_t *longer = malloc(n + 1);
            memcpy(longer, bytes, n);
            for (int last = 0; last < 256; last++) {
                longer[n] = (uint8_t)last;
                refused += !agree(longer, n + 1);
            }
            for (size_t m = 0; m < n; m++)
                refused += !agree(bytes, m);
            for (size_t i = 0; i < n; i++)
                for (int bit = 0; bit < 8; bit++) {
                    bytes[i] ^= 1 << bit;
                    refused += !agree(bytes, n);
                    bytes[i] ^= 1 << bit;
                }
            *altered += 256 + 9 * n;
            free(bytes);
            free(longer);
        }
    return refused;
}

/* What no turned bit makes: lists that do not rise at one place, spelled as if they were right, and
   a block at one bit more than it needs. Both refuse them all. */
static void check_refused(void)
{
    static const uint32_t zeros[4];
    uint8_t wide[4 + 20 + 16 + 512];
    uint32_t differences[128];
    size_t n;
    fill(300, 64);
    for (size_t i = 1; i < 300; i++)
        for (int less = 0; less < 2; less++) {
            uint32_t number = numbers[i];
            numbers[i] = numbers[i - 1] - less;
            uint8_t *bytes = c_encode(numbers, 300, &n);
            if (agree(bytes, n))
                stop("a list that does not rise is accepted");
            free(bytes);
            numbers[i] = number;
        }
    uint8_t *bytes = c_encode(numbers, 128, &n);
    memcpy(wide, bytes, 40);
    uint32_t width = ++wide[24];
    c_differ(zeros, numbers, differences);
    c_pack(differences, width, wide + 40, 16 * width);
    if (agree(wide, 40 + 16 * width))
        stop("a block too wide is accepted");
    free(bytes);
}

static double gap_bytes(void)
{
    double sum = 0;
    for (size_t i = 0; i < COUNT; i++) {
        uint32_t gap = numbers[i] - (i ? numbers[i - 1] : 0);
        sum += gap < 1u << 7 ? 1 : gap < 1u << 14 ? 2 : gap < 1u << 21 ? 3 : gap < 1u << 28 ? 4 : 5;
    }
    return sum;
}

/* The least cycles of the time stamp counter a number so far, with one more call. One that is not
   timed goes before it, so that each finds the caches as it left them itself. */
#define RACE(best, call)                                                                           \
    do {                                                                                           \
        call;                                                                                      \
        uint64_t start = __rdtsc();                                                                \
        call;                                                                                      \
        double cycles = (double)(__rdtsc() - start) / COUNT;                                       \
        if (cycles < best)                                                                         \
            best = cycles;                                                                         \
    } while (0)

struct row {
    char name[32];
    double c, proved;
};

static void print(const struct row *row)
{
    printf("%-32s %8.3f %8.3f %8.2f\n", row->name, row->c, row->proved, row->proved / row->c);
}

int main(void)
{
    static struct row rows[3][3];
    double packed[3], variable[3];
    size_t altered, refused = check(&altered);
    check_refused();
    printf("same bytes, same numbers; of %zu altered lists both refuse the same %zu\n\n", altered,
           refused);
    for (int d = 0; d < 3; d++) {
        size_t n, count;
        fill(COUNT, greatest_gaps[d]);
        uint8_t *bytes = checked(COUNT, &n), *room = malloc(n);
        if (!room)
            stop("no memory");
        memset(room, 0, n);
        packed[d] = 8.0 * (double)n / COUNT;
        variable[d] = 8.0 * gap_bytes() / COUNT;
        double decode = 1e9, encode = 1e9;
        double p_dec = 1e9, p_enc = 1e9, p_into = 1e9;
        /* In turn, so that a slow moment meets all. The memory was used before, so that no call
           waits for the system to give it. */
        for (int t = 0; t < TRIES; t++) {
            RACE(decode, free(c_decode(bytes, n, &count)));
            RACE(p_dec, p_decode(bytes, n));
            RACE(encode, free(c_encode(numbers, COUNT, &count)));
            RACE(p_enc, p_encode(numbers, COUNT));
            RACE(p_into, p_encode_into(numbers, COUNT, room, n));
        }
        struct row *row = rows[d];
        row[0] = (struct row){"decode", decode, p_dec};
        row[1] = (struct row){"encode", encode, p_enc};
        row[2] = (struct row){"encode_into against encode", encode, p_into};
        free(bytes);
        free(room);
    }
    for (int d = 0; d < 3; d++) {
        printf("cycles a number, %d numbers with gaps of 1 to %u\n", COUNT, greatest_gaps[d]);
        printf("%-32s %8s %8s %8s\n", "what", "C", "proved", "ratio");
        for (int r = 0; r < 3; r++)
            print(&rows[d][r]);
        printf("\n");
    }
    printf("bits a number\n%-32s %8s %8s %8s\n", "gaps", "packed", "variable", "entropy");
    for (int d = 0; d < 3; d++) {
        char name[32];
        snprintf(name, sizeof name, "1 to %u", greatest_gaps[d]);
        printf("%-32s %8.2f %8.2f %8.2f\n", name, packed[d], variable[d], log2(greatest_gaps[d]));
    }
    return 0;
}
