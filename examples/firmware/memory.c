/*
 * memory.c: the functions that compiled C code calls for blocks of memory, in the place of a C library:
 * C's own names, and those of the ARM run-time ABI.
 */
#include "memory.h"

/* A word, and four, that may stand for the bytes of anything. */
typedef uint32_t __attribute__((may_alias)) word;
typedef struct {
    word at[4];
} __attribute__((may_alias)) four;

/* Whether two addresses can be worked on by words together. */
static int in_step(const void *a, const void *b)
{
    return (((uintptr_t)a ^ (uintptr_t)b) & 3) == 0;
}

static int on_word(const void *a)
{
    return ((uintptr_t)a & 3) == 0;
}

void *memcpy(void *to, const void *from, size_t len)
{
    uint8_t *t = to;
    const uint8_t *f = from;

    if (in_step(t, f)) {
        for (; len > 0 && !on_word(t); len--)
            *t++ = *f++;
        for (; len >= 16; len -= 16, t += 16, f += 16)
            *(four *)t = *(const four *)f;
        for (; len >= 4; len -= 4, t += 4, f += 4)
            *(word *)t = *(const word *)f;
    }
    for (; len > 0; len--)
        *t++ = *f++;
    return to;
}

void *memmove(void *to, const void *from, size_t len)
{
    uint8_t *t = to;
    const uint8_t *f = from;

    if (t <= f)
        return memcpy(to, from, len);
    while (len-- > 0)
        t[len] = f[len];
    return to;
}

void *memset(void *to, int value, size_t len)
{
    uint8_t *t = to;
    uint32_t all = (uint8_t)value * 0x01010101u;

    for (; len > 0 && !on_word(t); len--)
        *t++ = (uint8_t)value;
    for (; len >= 16; len -= 16, t += 16)
        *(four *)t = (four){{all, all, all, all}};
    for (; len >= 4; len -= 4, t += 4)
        *(word *)t = all;
    for (; len > 0; len--)
        *t++ = (uint8_t)value;
    return to;
}

/* The run-time ABI has the value last, and looks at no answer. The names with 4 and 8 promise an alignment. */
void *__aeabi_memset(void *to, size_t len, int value)
{
    return memset(to, value, len);
}

void *__aeabi_memclr(void *to, size_t len)
{
    return memset(to, 0, len);
}

#define SAME_AS(name) __attribute__((alias(#name)))
void *__aeabi_memcpy(void *to, const void *from, size_t len) SAME_AS(memcpy);
void *__aeabi_memcpy4(void *to, const void *from, size_t len) SAME_AS(memcpy);
void *__aeabi_memcpy8(void *to, const void *from, size_t len) SAME_AS(memcpy);
void *__aeabi_memmove(void *to, const void *from, size_t len) SAME_AS(memmove);
void *__aeabi_memmove4(void *to, const void *from, size_t len) SAME_AS(memmove);
void *__aeabi_memmove8(void *to, const void *from, size_t len) SAME_AS(memmove);
void *__aeabi_memset4(void *to, size_t len, int value) SAME_AS(__aeabi_memset);
void *__aeabi_memset8(void *to, size_t len, int value) SAME_AS(__aeabi_memset);
void *__aeabi_memclr4(void *to, size_t len) SAME_AS(__aeabi_memclr);
void *__aeabi_memclr8(void *to, size_t len) SAME_AS(__aeabi_memclr);
