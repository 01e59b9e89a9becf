/* The two ways of a posting list, in C with intrinsics (c_) and proved (p_). */
#include <stddef.h>
#include <stdint.h>

/* The list that the bytes spell and how many numbers it has, in memory from malloc. Null where they
   spell none, or there is no memory. */
uint32_t *c_decode(const uint8_t *bytes, size_t n, size_t *count);

/* The bytes that spell a list and how many they are, in memory from malloc. Null without memory. */
uint8_t *c_encode(const uint32_t *xs, size_t n, size_t *length);

/* How long the list or its bytes are, all ones where there are none. They are let go again. */
size_t p_decode(const uint8_t *bytes, size_t n);
size_t p_encode(const uint32_t *xs, size_t n);

/* The same copied out, into room for just that. False where there is none, or the room is other. */
_Bool p_decoded(const uint8_t *bytes, size_t n, uint32_t *out, size_t count);
_Bool p_encoded(const uint32_t *xs, size_t n, uint8_t *out, size_t length);

/* The two halves of encode: how long the bytes are, and the bytes in room for just these. */
uint32_t p_length_of(const uint32_t *xs, size_t n);
void p_encode_into(const uint32_t *xs, size_t n, uint8_t *out, size_t length);
