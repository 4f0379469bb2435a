/* Secrets of a seed. No jump and no address depends on them where they are made, so that a program whose traces are compared can
 * prepare calls with them. */
#ifndef SECRETS_H
#define SECRETS_H

#include "u128.h"

#include <stdint.h>

static uint64_t secret;
static uint64_t turn;

/* The seed is one character. */
static inline void seed_secrets(const char *seed)
{
    secret = (uint64_t)seed[0] * UINT64_C(0x9e3779b97f4a7c15);
    turn = (uint64_t)seed[0];
}

static inline uint64_t next(uint64_t *state)
{
    *state = *state * UINT64_C(6364136223846793005) + UINT64_C(1442695040888963407);
    return *state ^ *state >> 29;
}

/* The whole part of a word's fraction of a bound: below the bound. */
static inline uint64_t below(uint64_t word, uint64_t bound)
{
    return (uint64_t)((u128)word * bound >> 64);
}

/* A secret word, number below a bound, or bit. */
static inline uint64_t secret_word(void)
{
    return next(&secret);
}

static inline uint64_t secret_below(uint64_t bound)
{
    return below(next(&secret), bound);
}

static inline uint64_t secret_bit(void)
{
    return next(&secret) >> 20 & 1;
}

/* The word if the bit is 1, else the other one. */
static inline uint64_t if_bit(uint64_t bit, uint64_t word, uint64_t other)
{
    return (word & -bit) | (other & ~-bit);
}

/* Any number below a bound, or as often the first or the last. */
static inline uint64_t secret_at_edges(uint64_t bound)
{
    uint64_t edge = if_bit(secret_bit(), bound - 1, 0);

    return if_bit(secret_bit(), edge, secret_below(bound));
}

/* A number below 4 that is another one for each of four seeds in a row, and goes on by 1 each time. */
static inline uint64_t secret_turn(void)
{
    return turn++ & 3;
}

#endif
