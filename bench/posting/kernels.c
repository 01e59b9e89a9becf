/* The same list format in C, over the kernels of bench/lanes, for little-endian machines. */
#include "kernels.h"
#include "../lanes/kernels.c"
#include <stdlib.h>

enum { LONGEST = 134217728 };

static const uint32_t zeros[4];

INLINE uint32_t word_at(const uint8_t *at)
{
    uint32_t word;
    memcpy(&word, at, 4);
    return word;
}

/* Whether one of the differences needs all the bits of the width, asked for the block as it stands
   among its list's numbers. It is mostly found after a few. */
static int needs_bits(const uint32_t *seed, const uint32_t *xs, uint32_t width)
{
    const uint32_t half = 1u << (width - 1);
    for (int i = 0; i < 4; i++)
        if (xs[i] - seed[i] >= half)
            return 1;
    for (int i = 4; i < 128; i++)
        if (xs[i] - xs[i - 4] >= half)
            return 1;
    return 0;
}

/* One number of the tail: how many bytes it took, 0 where they are no number. */
INLINE size_t take(const uint8_t *bytes, size_t n, uint32_t *number)
{
    uint64_t value = 0;
    if (n == 0 || bytes[0] == 0)
        return 0;
    for (size_t i = 0; i < n && i < 5; i++) {
        value = value << 7 | (bytes[i] & 127);
        if (bytes[i] & 128) {
            *number = (uint32_t)value;
            return value >> 32 ? 0 : i + 1;
        }
    }
    return 0;
}

/* Whether the bytes spell a list of so many numbers, which is written to `xs`. Each block is
   unpacked in its place and then asked; to ask while it is unpacked was no faster. */
static int decode_to(const uint8_t *bytes, size_t n, size_t count, uint32_t *xs)
{
    const size_t blocks = count / 128, base = 4 + 20 * blocks;
    const uint8_t *widths = bytes;
    const uint32_t *seed = zeros;
    size_t at = base;
    for (size_t k = 0; k < blocks; k++) {
        if (k % 16 == 0) {
            if (n - at < 16)
                return 0;
            widths = bytes + at;
            for (size_t j = blocks - k; j < 16; j++)
                if (widths[j] != 0)
                    return 0;
            at += 16;
        }
        const uint8_t *entry = bytes + 4 + 20 * k;
        const uint32_t width = widths[k % 16];
        uint32_t *here = xs + 128 * k;
        if (base + word_at(entry) != at || width == 0 || width > 32 || n - at < 16 * width)
            return 0;
        c_unpack_sums(bytes + at, 16 * width, width, seed, here);
        if (!c_ascending(seed, here) || !needs_bits(seed, here, width))
            return 0;
        if (memcmp(entry + 4, here + 124, 16) != 0)
            return 0;
        seed = here + 124;
        at += 16 * width;
    }
    uint32_t last = seed[3];
    for (size_t i = 128 * blocks; i < count; i++) {
        uint32_t gap;
        size_t used = take(bytes + at, n - at, &gap);
        if (used == 0 || gap == 0 || gap > UINT32_MAX - last)
            return 0;
        last += gap;
        xs[i] = last;
        at += used;
    }
    return at == n;
}

uint32_t *c_decode(const uint8_t *bytes, size_t n, size_t *count)
{
    if (n < 4 || word_at(bytes) > LONGEST)
        return NULL;
    const size_t numbers = word_at(bytes), blocks = numbers / 128;
    if (n < 4 + 68 * blocks + 16 * ((blocks + 15) / 16) + numbers % 128)
        return NULL;
    uint32_t *xs = malloc(numbers ? 4 * numbers : 1);
    if (xs && !decode_to(bytes, n, numbers, xs)) {
        free(xs);
        return NULL;
    }
    *count = numbers;
    return xs;
}

/* The width of the differences of a block. */
INLINE uint32_t width_of(const uint32_t *seed, const uint32_t *xs)
{
    __m128i before = load(seed), all = _mm_setzero_si128();
#pragma GCC unroll 32
    for (int k = 0; k < 32; k++) {
        __m128i here = load(xs + 4 * k);
        all = _mm_or_si128(all, _mm_sub_epi32(here, before));
        before = here;
    }
    all = _mm_or_si128(all, _mm_srli_si128(all, 8));
    all = _mm_or_si128(all, _mm_srli_si128(all, 4));
    return 32 - (uint32_t)__builtin_clz((uint32_t)_mm_cvtsi128_si32(all));
}

INLINE const uint32_t *seed_of(const uint32_t *xs, size_t k)
{
    return k ? xs + 128 * k - 4 : zeros;
}

INLINE size_t put(uint32_t n, uint8_t *out)
{
    size_t used = 1;
    while (used < 5 && n >> 7 * used)
        used++;
    for (size_t i = used; i-- > 0; n >>= 7)
        out[i] = n & 127;
    out[used - 1] |= 128;
    return used;
}

/* The bytes are counted in a first pass and written in a second. */
uint8_t *c_encode(const uint32_t *xs, size_t n, size_t *length)
{
    const size_t blocks = n / 128;
    const uint32_t before = blocks ? xs[128 * blocks - 1] : 0;
    size_t total = 4 + 20 * blocks + 16 * ((blocks + 15) / 16);
    uint8_t room[5];
    for (size_t k = 0; k < blocks; k++)
        total += 16 * width_of(seed_of(xs, k), xs + 128 * k);
    uint32_t last = before;
    for (size_t i = 128 * blocks; i < n; last = xs[i++])
        total += put(xs[i] - last, room);
    uint8_t *bytes = malloc(total);
    if (!bytes)
        return NULL;
    *length = total;

    const uint32_t count = (uint32_t)n;
    uint8_t *entry = bytes + 4, *metablocks = bytes + 4 + 20 * blocks, *at = metablocks;
    memcpy(bytes, &count, 4);
    for (size_t first = 0; first < blocks; first += 16) {
        const size_t these = blocks - first < 16 ? blocks - first : 16;
        uint32_t differences[128];
        uint8_t *widths = at;
        memset(widths, 0, 16);
        at += 16;
        for (size_t j = 0; j < these; j++) {
            const uint32_t *here = xs + 128 * (first + j);
            const uint32_t offset = (uint32_t)(at - metablocks);
            c_differ(seed_of(xs, first + j), here, differences);
            widths[j] = (uint8_t)c_width(differences);
            memcpy(entry, &offset, 4);
            memcpy(entry + 4, here + 124, 16);
            entry += 20;
            c_pack(differences, widths[j], at, 16 * widths[j]);
            at += 16 * widths[j];
        }
    }
    last = before;
    for (size_t i = 128 * blocks; i < n; last = xs[i++])
        at += put(xs[i] - last, at);
    return bytes;
}
