/* What the box must not do: functions with a jump or an address that depends on a secret. A check of constant time must find
 * those that it runs. */
#ifndef LEAKS_H
#define LEAKS_H

#include "draws.h"
#include "responses.h"

#define LEAK __attribute__((noinline, unused)) static uint64_t

/* The same value for every n, in a time that depends on n. */
LEAK leaking_exponential(uint64_t n)
{
    volatile uint64_t found = 0;

    while (found < n % 16)
        found++;
    return found - n % 16;
}

/* An entry of a table whose place depends on n. */
LEAK leaking_lookup(uint64_t n)
{
    return polynomial[n % BLISS_POLYNOMIAL_WORDS];
}

/* e(n) at 215, with squarings that cut, and go up by a jump where the fraction is a half or more. */
LEAK jumping_squarings(uint64_t n)
{
    volatile uint64_t a = model_before_squarings(n, 215);

    for (int i = 0; i < 6; i++) {
        u128 square = (u128)a * a;

        a = (uint64_t)(square >> 62);
        if (square >> 61 & 1)
            a++;
    }
    return a;
}

/* A word of the CDT table, by a load that the compiler keeps. */
static inline uint64_t cdt_word(size_t place)
{
    return *(const volatile uint64_t *)&cdt[place];
}

/* The number of thresholds at or below d among the first, of which these are the high words. */
static inline uint64_t at_or_below(const uint64_t *high, size_t thresholds, const uint64_t *w)
{
    uint64_t x = 0;

    for (size_t i = 0; i < thresholds; i++)
        x += two_words(high[i], cdt_word(THRESHOLDS + i)) <= two_words(low62(w[0]), low62(w[1]));
    return x;
}

/* A scan that leaves the high words at the first above d's. */
LEAK early_exit_scan(const uint64_t *w)
{
    uint64_t high[THRESHOLDS];
    size_t held = 0;

    while (held < THRESHOLDS && (high[held] = cdt_word(held)) <= low62(w[0]))
        held++;
    return at_or_below(high, held, w);
}

/* A scan that reads all high words, holds those up to d's, and reads as many low words. */
LEAK few_held_scan(const uint64_t *w)
{
    uint64_t high[THRESHOLDS];
    size_t held = 0;

    for (size_t i = 0; i < THRESHOLDS; i++) {
        high[held] = cdt_word(i);
        held += high[held] <= low62(w[0]);
    }
    return at_or_below(high, held, w);
}

/* A scan that reads and holds all high words, and of the low words those that decide, where the high words are equal. */
LEAK skipping_scan(const uint64_t *w)
{
    uint64_t high[THRESHOLDS];
    uint64_t x = 0;

    for (size_t i = 0; i < THRESHOLDS; i++)
        high[i] = cdt_word(i);
    for (size_t i = 0; i < THRESHOLDS; i++)
        if (high[i] == low62(w[0]))
            x += cdt_word(THRESHOLDS + i) <= low62(w[1]);
        else
            x += high[i] < low62(w[0]);
    return x;
}

/* A check that ends at the first value out of range. */
LEAK early_exit_check(const int32_t *values, size_t length)
{
    for (size_t i = 0; i < length; i++)
        if (values[i] < -7 || values[i] > 7)
            return 0;
    return 1;
}

/* A test of z1 that ends at the first value out of range. */
LEAK early_exit_coefficients(size_t n)
{
    int64_t sign = sign_of(lent.response_words[0] & 1);

    for (size_t i = 0; i < n; i++)
        if (is_beyond(z_at(i, sign)))
            return 0;
    return 1;
}

/* The sum of the four largest values, each of which goes into a falling list by steps that end where it fits. */
LEAK early_exit_pick(const int32_t *values, size_t length)
{
    int32_t best[5] = {INT32_MIN, INT32_MIN, INT32_MIN, INT32_MIN};
    int64_t sum = 0;

    for (size_t i = 0; i < length; i++) {
        size_t at = 4;

        for (; at > 0 && best[at - 1] < values[i]; at--)
            best[at] = best[at - 1];
        best[at] = values[i];
    }
    for (size_t at = 0; at < 4; at++)
        sum += best[at];
    return (uint64_t)sum;
}

#endif
