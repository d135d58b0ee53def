/* What the parts of the plain implementation share: numbers in bytes, and answers. */
#ifndef PLAIN_WORDS_H
#define PLAIN_WORDS_H

#include <stdint.h>

enum { REFUSED = 0, INTERCEPTED = 1, HOST_FAULT = 2, EXCEPTION = 4, GOOD = 5, NONE = 6 };

#define BIT(i) (0x80000000u >> (i))

/* bits 1-19 of a word, in place: a 4 KiB block's address */
#define BLOCK 0x7ffff000u

static inline uint32_t half(const uint8_t *p)
{
    return (uint32_t)p[0] << 8 | p[1];
}

static inline uint32_t word(const uint8_t *p)
{
#ifdef BYTE_LOADS /* four loads, not joined into one: what a language without wider loads has to do */
    const volatile uint8_t *v = p;
    uint32_t a = v[0], b = v[1], c = v[2], d = v[3];

    return a << 24 | b << 16 | c << 8 | d;
#else
    return (uint32_t)p[0] << 24 | (uint32_t)p[1] << 16 | (uint32_t)p[2] << 8 | p[3];
#endif
}

static inline void put32(uint8_t *p, uint32_t v)
{
    p[0] = (uint8_t)(v >> 24);
    p[1] = (uint8_t)(v >> 16);
    p[2] = (uint8_t)(v >> 8);
    p[3] = (uint8_t)v;
}

static inline uint64_t answer(uint64_t kind, uint64_t number)
{
    return kind << 56 | number << 48;
}

#endif
