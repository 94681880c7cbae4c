/*
 * memcpy and memset, which the library calls: by words where both sides are aligned. To be compiled with
 * -fno-tree-loop-distribute-patterns, or the compiler makes these loops calls of themselves.
 */
#include <stddef.h>
#include <stdint.h>

typedef uint32_t __attribute__((may_alias)) word;

void *memcpy(void *restrict to, const void *restrict from, size_t len);
void *memset(void *to, int value, size_t len);

void *memcpy(void *restrict to, const void *restrict from, size_t len)
{
    uint8_t *t = to;
    const uint8_t *f = from;
    if ((((uintptr_t)t ^ (uintptr_t)f) & 3) == 0) {
        for (; len > 0 && ((uintptr_t)t & 3) != 0; len--)
            *t++ = *f++;
        for (; len >= 4; len -= 4, t += 4, f += 4)
            *(word *)(void *)t = *(const word *)(const void *)f;
    }
    for (; len > 0; len--)
        *t++ = *f++;
    return to;
}

void *memset(void *to, int value, size_t len)
{
    uint8_t *t = to;
    for (; len > 0 && ((uintptr_t)t & 3) != 0; len--)
        *t++ = (uint8_t)value;
    for (; len >= 4; len -= 4, t += 4)
        *(word *)(void *)t = (uint8_t)value * 0x01010101u;
    for (; len > 0; len--)
        *t++ = (uint8_t)value;
    return to;
}
