/* The same operations in C: the intersections with SSE4.1 intrinsics, the others plainly, each of
   these with branches and without. */
#include <smmintrin.h>
#include <stddef.h>
#include <stdint.h>
#include <string.h>

static inline __m128i load(const uint32_t *at) { return _mm_loadu_si128((const __m128i *)at); }

static size_t rest(const uint32_t *a, size_t na, const uint32_t *b, size_t nb, size_t i, size_t j,
                   uint32_t *out, size_t n)
{
    while (i < na && j < nb) {
        if (a[i] < b[j])
            i++;
        else if (b[j] < a[i])
            j++;
        else {
            out[n++] = a[i];
            i++, j++;
        }
    }
    return n;
}

/* For each set of lanes, the shuffle that moves them to the front. */
static uint8_t front[16][16];

void c_init(void)
{
    memset(front, 0x80, sizeof front);
    for (int lanes = 0; lanes < 16; lanes++)
        for (int lane = 0, n = 0; lane < 4; lane++)
            if (lanes >> lane & 1) {
                for (int k = 0; k < 4; k++)
                    front[lanes][4 * n + k] = (uint8_t)(4 * lane + k);
                n++;
            }
}

/* Four against four, the hits moved to the front by a shuffle. Writes up to three places past. */
size_t c_both_merge(const uint32_t *a, size_t na, const uint32_t *b, size_t nb, uint32_t *out, size_t no)
{
    size_t i = 0, j = 0, n = 0;
    (void)no;
    while (i + 4 <= na && j + 4 <= nb) {
        __m128i x = load(a + i), y = load(b + j);
        __m128i hits = _mm_or_si128(
            _mm_or_si128(_mm_cmpeq_epi32(x, y), _mm_cmpeq_epi32(x, _mm_shuffle_epi32(y, 0x39))),
            _mm_or_si128(_mm_cmpeq_epi32(x, _mm_shuffle_epi32(y, 0x4e)),
                         _mm_cmpeq_epi32(x, _mm_shuffle_epi32(y, 0x93))));
        int lanes = _mm_movemask_ps(_mm_castsi128_ps(hits));
        __m128i moved = _mm_shuffle_epi8(x, _mm_loadu_si128((const __m128i *)front[lanes]));
        _mm_storeu_si128((__m128i *)(out + n), moved);
        n += (size_t)__builtin_popcount((unsigned)lanes);
        uint32_t last_a = a[i + 3], last_b = b[j + 3];
        i += (last_a <= last_b) * 4;
        j += (last_b <= last_a) * 4;
    }
    return rest(a, na, b, nb, i, j, out, n);
}

size_t c_both_gallop(const uint32_t *a, size_t na, const uint32_t *b, size_t nb, uint32_t *out, size_t no)
{
    size_t count = nb / 32, low = 0, n = 0;
    (void)no;
    for (size_t i = 0; i < na; i++) {
        uint32_t x = a[i];
        size_t step = 1;
        while (step <= count - low && b[32 * (low + step) - 1] < x) {
            low += step;
            step *= 2;
        }
        size_t high = step <= count - low ? low + step - 1 : count;
        while (low < high) {
            size_t middle = low + (high - low) / 2;
            if (b[32 * middle + 31] < x)
                low = middle + 1;
            else
                high = middle;
        }
        if (low == count)
            return rest(a, na, b, nb, i, 32 * count, out, n);
        const uint32_t *p = b + 32 * low;
        __m128i v = _mm_set1_epi32((int)x), hits = _mm_setzero_si128();
#pragma GCC unroll 8
        for (int k = 0; k < 8; k++)
            hits = _mm_or_si128(hits, _mm_cmpeq_epi32(v, load(p + 4 * k)));
        if (!_mm_testz_si128(hits, hits))
            out[n++] = x;
    }
    return n;
}

static size_t put(const uint32_t *xs, size_t from, size_t to, uint32_t *out, size_t n)
{
    memcpy(out + n, xs + from, 4 * (to - from));
    return n + (to - from);
}

size_t c_either(const uint32_t *a, size_t na, const uint32_t *b, size_t nb, uint32_t *out, size_t no)
{
    size_t i = 0, j = 0, n = 0;
    (void)no;
    while (i < na && j < nb) {
        if (a[i] < b[j])
            out[n++] = a[i++];
        else if (b[j] < a[i])
            out[n++] = b[j++];
        else {
            out[n++] = a[i++];
            j++;
        }
    }
    return put(b, j, nb, out, put(a, i, na, out, n));
}

size_t c_either_branchless(const uint32_t *a, size_t na, const uint32_t *b, size_t nb, uint32_t *out, size_t no)
{
    size_t i = 0, j = 0, n = 0;
    (void)no;
    while (i < na && j < nb) {
        uint32_t x = a[i], y = b[j];
        out[n++] = x < y ? x : y;
        i += x <= y;
        j += y <= x;
    }
    return put(b, j, nb, out, put(a, i, na, out, n));
}

size_t c_without(const uint32_t *a, size_t na, const uint32_t *b, size_t nb, uint32_t *out, size_t no)
{
    size_t i = 0, j = 0, n = 0;
    (void)no;
    while (i < na && j < nb) {
        if (a[i] < b[j])
            out[n++] = a[i++];
        else if (b[j] < a[i])
            j++;
        else
            i++, j++;
    }
    return put(a, i, na, out, n);
}

size_t c_without_branchless(const uint32_t *a, size_t na, const uint32_t *b, size_t nb, uint32_t *out, size_t no)
{
    size_t i = 0, j = 0, n = 0;
    (void)no;
    while (i < na && j < nb) {
        uint32_t x = a[i], y = b[j];
        out[n] = x;
        n += x < y;
        i += x <= y;
        j += y <= x;
    }
    return put(a, i, na, out, n);
}
