/* Each kernel twice: c_ in C with intrinsics, p_ proved. A slice is a pointer and a length. */
#include <stddef.h>
#include <stdint.h>

#define KERNELS(p)                                                                                 \
    void p##_pack(const uint32_t *xs, uint32_t width, uint8_t *out, size_t n);                     \
    void p##_unpack(const uint8_t *bytes, size_t n, uint32_t width, uint32_t *xs);                 \
    void p##_unpack_sums(const uint8_t *bytes, size_t n, uint32_t width, const uint32_t *seed,     \
                         uint32_t *xs);                                                            \
    void p##_restore(const uint32_t *seed, const uint32_t *ds, uint32_t *xs);                      \
    void p##_differ(const uint32_t *seed, const uint32_t *xs, uint32_t *ds);                       \
    uint32_t p##_width(const uint32_t *xs);                                                        \
    _Bool p##_ascending(const uint32_t *seed, const uint32_t *xs);

KERNELS(c)
KERNELS(p)
