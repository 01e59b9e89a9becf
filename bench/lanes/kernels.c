/* The same kernels in C with SSE4.1 intrinsics: unrolled, the width a constant in each. */
#include "kernels.h"
#include <smmintrin.h>
#include <string.h>

#define INLINE static inline __attribute__((always_inline))

INLINE __m128i load(const void *at) { return _mm_loadu_si128((const __m128i *)at); }
INLINE void store(void *at, __m128i v) { _mm_storeu_si128((__m128i *)at, v); }

/* Vector k of the numbers that are packed at width b. */
INLINE __m128i numbers(const uint8_t *bytes, const int b, const int k)
{
    const int word = k * b / 32, shift = k * b % 32;
    __m128i v = _mm_srli_epi32(load(bytes + 16 * word), shift);
    if (shift + b > 32)
        v = _mm_or_si128(v, _mm_slli_epi32(load(bytes + 16 * (word + 1)), 32 - shift));
    if (shift + b != 32)
        v = _mm_and_si128(v, _mm_set1_epi32((int)((1u << b) - 1)));
    return v;
}

INLINE void unpack_at(const uint8_t *bytes, const int b, uint32_t *xs)
{
#pragma GCC unroll 32
    for (int k = 0; k < 32; k++)
        store(xs + 4 * k, numbers(bytes, b, k));
}

INLINE void sums_at(const uint8_t *bytes, const int b, const uint32_t *seed, uint32_t *xs)
{
    __m128i last = load(seed);
#pragma GCC unroll 32
    for (int k = 0; k < 32; k++) {
        last = _mm_add_epi32(last, numbers(bytes, b, k));
        store(xs + 4 * k, last);
    }
}

INLINE void pack_at(const uint32_t *xs, const int b, uint8_t *out)
{
    __m128i word = _mm_setzero_si128();
#pragma GCC unroll 32
    for (int k = 0; k < 32; k++) {
        const int at = k * b, shift = at % 32;
        __m128i v = load(xs + 4 * k);
        word = _mm_or_si128(word, _mm_slli_epi32(v, shift));
        if (shift + b >= 32) {
            store(out + 16 * (at / 32), word);
            word = shift == 0 ? _mm_setzero_si128() : _mm_srli_epi32(v, 32 - shift);
        }
    }
}

#define EACH_WIDTH(X)                                                                              \
    X(1) X(2) X(3) X(4) X(5) X(6) X(7) X(8) X(9) X(10) X(11) X(12) X(13) X(14) X(15) X(16)         \
    X(17) X(18) X(19) X(20) X(21) X(22) X(23) X(24) X(25) X(26) X(27) X(28) X(29) X(30) X(31) X(32)

void c_unpack(const uint8_t *bytes, size_t n, uint32_t width, uint32_t *xs)
{
    (void)n;
    switch (width) {
#define CASE(b) case b: unpack_at(bytes, b, xs); return;
        EACH_WIDTH(CASE)
#undef CASE
    default: memset(xs, 0, 512);
    }
}

void c_unpack_sums(const uint8_t *bytes, size_t n, uint32_t width, const uint32_t *seed, uint32_t *xs)
{
    (void)n;
    switch (width) {
#define CASE(b) case b: sums_at(bytes, b, seed, xs); return;
        EACH_WIDTH(CASE)
#undef CASE
    default:
        for (int i = 0; i < 128; i++)
            xs[i] = seed[i % 4];
    }
}

void c_pack(const uint32_t *xs, uint32_t width, uint8_t *out, size_t n)
{
    (void)n;
    switch (width) {
#define CASE(b) case b: pack_at(xs, b, out); return;
        EACH_WIDTH(CASE)
#undef CASE
    default: return;
    }
}

void c_restore(const uint32_t *seed, const uint32_t *ds, uint32_t *xs)
{
    __m128i last = load(seed);
#pragma GCC unroll 32
    for (int k = 0; k < 32; k++) {
        last = _mm_add_epi32(last, load(ds + 4 * k));
        store(xs + 4 * k, last);
    }
}

void c_differ(const uint32_t *seed, const uint32_t *xs, uint32_t *ds)
{
    __m128i before = load(seed);
#pragma GCC unroll 32
    for (int k = 0; k < 32; k++) {
        __m128i here = load(xs + 4 * k);
        store(ds + 4 * k, _mm_sub_epi32(here, before));
        before = here;
    }
}

uint32_t c_width(const uint32_t *xs)
{
    __m128i all = _mm_setzero_si128();
#pragma GCC unroll 32
    for (int k = 0; k < 32; k++)
        all = _mm_or_si128(all, load(xs + 4 * k));
    all = _mm_or_si128(all, _mm_srli_si128(all, 8));
    all = _mm_or_si128(all, _mm_srli_si128(all, 4));
    uint32_t any = (uint32_t)_mm_cvtsi128_si32(all);
    return any ? 32 - (uint32_t)__builtin_clz(any) : 0;
}

_Bool c_ascending(const uint32_t *seed, const uint32_t *xs)
{
    const __m128i sign = _mm_set1_epi32((int)0x80000000u);
    __m128i before = _mm_set_epi32((int)xs[2], (int)xs[1], (int)xs[0], (int)seed[3]);
    __m128i fine = _mm_cmplt_epi32(_mm_xor_si128(before, sign), _mm_xor_si128(load(xs), sign));
#pragma GCC unroll 32
    for (int k = 1; k < 32; k++) {
        __m128i low = _mm_xor_si128(load(xs + 4 * k - 1), sign);
        __m128i high = _mm_xor_si128(load(xs + 4 * k), sign);
        fine = _mm_and_si128(fine, _mm_cmplt_epi32(low, high));
    }
    return _mm_movemask_epi8(fine) == 0xffff;
}
