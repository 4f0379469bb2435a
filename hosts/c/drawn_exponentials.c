/* Finds the e(N) of draws, at each deviation and for each size of a sample, and writes deviation, N and e(N) of a size to a line.
 *
 * A draw shows of e(N) just whether u is below it, by the accept bit. So it is found by bisection, for 256 sizes at a time: a draw
 * of degree 128 with a limit of 256 attempts makes them all, however many it accepts, and its list has the bit of each. */
#include "bliss_box.h"

#include <inttypes.h>
#include <stdio.h>

enum { DEGREE = 128, ATTEMPTS = 256, BASE_SAMPLES = 11 };

static const uint64_t deviations[] = {107, 215, 250, 271};
static const uint64_t polynomial[BLISS_POLYNOMIAL_WORDS] = BLISS_POLYNOMIAL;

/* By these thresholds the high word of d, from 0 to 10, is the base sample. */
static const uint64_t cdt[BLISS_CDT_WORDS] = {1, 2, 3, 4, 5, 6, 7, 8, 9, 10};

static uint64_t words[BLISS_DRAW_WORDS(ATTEMPTS)];
static int32_t y[BLISS_SAMPLES(DEGREE)];
static uint32_t list[BLISS_DRAW_ENTRIES(ATTEMPTS)];

/* The samples accepted before an attempt; before the one behind the last, in all. */
static uint32_t accepted_before(size_t attempt)
{
    size_t entry = attempt < ATTEMPTS ? BLISS_DRAW_ENTRIES(attempt + 1) - 2 : BLISS_DRAW_ENTRIES(ATTEMPTS) - 1;

    return BLISS_ENTRY_PLACE(list[entry]);
}

/* Each e(N) of b from 0 to 255 is at least what is found. Adds a step where it is larger by as much. */
static bool take_step(uint64_t deviation, uint64_t x, uint64_t step, uint64_t *found)
{
    bliss_drawn drawn;

    for (size_t b = 0; b < ATTEMPTS; b++) {
        words[4 * b] = x;
        words[4 * b + 2] = b;
        words[4 * b + 3] = found[b] + step - 1;
    }
    drawn = bliss_draw(bliss_open(DEGREE, deviation).session, ATTEMPTS, cdt, BLISS_CDT_WORDS, polynomial, BLISS_POLYNOMIAL_WORDS,
                       words, BLISS_DRAW_WORDS(ATTEMPTS), y, BLISS_SAMPLES(DEGREE), list, BLISS_DRAW_ENTRIES(ATTEMPTS));
    for (size_t b = 0; b < ATTEMPTS; b++)
        found[b] += step * (accepted_before(b + 1) - accepted_before(b));
    return drawn.answer.refusal == BLISS_SERVED && drawn.answer.attempts == ATTEMPTS;
}

/* The steps 2^61, 2^60, .. 2, 1, and 1 once more, lead to any number up to 2^62. */
static bool find(uint64_t deviation, uint64_t x, uint64_t *found)
{
    bool served = true;

    for (unsigned shift = 0; shift < 62; shift++)
        served &= take_step(deviation, x, (UINT64_C(1) << 61) >> shift, found);
    return served & take_step(deviation, x, 1, found);
}

int main(void)
{
    bool served = true;

    for (size_t i = 0; i < sizeof deviations / sizeof *deviations; i++)
        for (uint64_t x = 0; x < BASE_SAMPLES; x++) {
            uint64_t found[ATTEMPTS] = {0};

            served &= find(deviations[i], x, found);
            for (size_t b = 0; b < ATTEMPTS; b++)
                printf("%" PRIu64 " %" PRIu64 " %" PRIu64 "\n", deviations[i], b * (b + 512 * x), found[b]);
        }
    return !served || fflush(stdout) != 0;
}
