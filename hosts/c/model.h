/* The exponential of document 01 with requests S-7 and S-8 in C with 128-bit integers, written from the documents alone. No jump
 * and no address depends on n. */
#ifndef MODEL_H
#define MODEL_H

#include "u128.h"

#include <stdint.h>

/* Entry j of the polynomial table is the whole part of 2^62 / j!. */
#define ENTRY(factorial) ((UINT64_C(1) << 62) / UINT64_C(factorial))
static const uint64_t model_table[21] = {
    ENTRY(1),
    ENTRY(1),
    ENTRY(2),
    ENTRY(6),
    ENTRY(24),
    ENTRY(120),
    ENTRY(720),
    ENTRY(5040),
    ENTRY(40320),
    ENTRY(362880),
    ENTRY(3628800),
    ENTRY(39916800),
    ENTRY(479001600),
    ENTRY(6227020800),
    ENTRY(87178291200),
    ENTRY(1307674368000),
    ENTRY(20922789888000),
    ENTRY(355687428096000),
    ENTRY(6402373705728000),
    ENTRY(121645100408832000),
    ENTRY(2432902008176640000),
};
#undef ENTRY

/* What the six squarings of e(n) start with, at a deviation. */
static inline uint64_t model_before_squarings(uint64_t n, uint64_t deviation)
{
    const uint64_t r = (uint64_t)(((u128)1 << 84) / (64 * 2 * deviation * deviation));
    uint64_t v = (uint64_t)((u128)n * r >> 22);
    uint64_t a = model_table[20];

    for (int j = 19; j >= 0; j--)
        a = model_table[j] - (uint64_t)((u128)a * v >> 62);
    return a;
}

static inline uint64_t model_exponential(uint64_t n, uint64_t deviation)
{
    uint64_t a = model_before_squarings(n, deviation);

    for (int i = 0; i < 6; i++)
        a = (uint64_t)(((u128)a * a + (UINT64_C(1) << 61)) >> 62);
    return a;
}

#endif
