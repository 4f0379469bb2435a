/* Draws with chosen accept bits, which are public. All else is secret: d, b, the sign, u, and whether a rejected attempt is
 * rejected by u or as a zero with sign 1. */
#ifndef DRAWS_H
#define DRAWS_H

#include "lent.h"
#include "model.h"
#include "secrets.h"

#include <string.h>

/* The deviations of draws, and the CDT table for each. */
enum { DEVIATIONS = 4 };
static const uint64_t deviations[DEVIATIONS] = {107, 215, 250, 271};
static const uint64_t cdts[DEVIATIONS][BLISS_CDT_WORDS] = {BLISS_CDT_107, BLISS_CDT_215, BLISS_CDT_250, BLISS_CDT_271};

/* What is public of a draw. An accept bit is 1 with a chance in sixteenths, by a generator, as long as fewer than `most` are. */
struct draw {
    size_t n;
    uint64_t deviation; /* and R, which a draw takes by its session alone */
    size_t limit;
    size_t most; /* 2n makes the draw full */
    uint64_t chance;
    uint64_t state; /* of the generator */
};

/* The thresholds of a CDT table: their high words stand first, and then their low words. */
enum { THRESHOLDS = BLISS_CDT_WORDS / 2 };

static inline uint64_t low62(uint64_t word)
{
    return word << 2 >> 2;
}

static inline u128 two_words(uint64_t high, uint64_t low)
{
    return (u128)high << 62 | low;
}

static inline u128 threshold(size_t i)
{
    return two_words(cdt[i], cdt[THRESHOLDS + i]);
}

static inline u128 secret_threshold(void)
{
    uint64_t chosen = secret_below(THRESHOLDS);
    u128 found = 0;

    for (size_t i = 0; i < THRESHOLDS; i++)
        found |= threshold(i) & -(u128)(i == chosen);
    return found;
}

/* The kinds of d: any number, of which the high word decides; or one with the high word of a threshold, so that the low word
 * decides: any such number, the threshold, or the number below it. So each base sample occurs, and each edge of one. */
enum { ANY_D, SAME_HIGH_WORD, AT_THRESHOLD, BELOW_THRESHOLD };

static inline u128 secret_draw(uint64_t kind)
{
    u128 near = secret_threshold() - (kind == BELOW_THRESHOLD);
    uint64_t high = if_bit(kind != ANY_D, (uint64_t)(near >> 62), low62(secret_word()));
    uint64_t low = if_bit(kind >= AT_THRESHOLD, low62((uint64_t)near), low62(secret_word()));

    return two_words(high, low);
}

static inline uint64_t base_sample(u128 d)
{
    uint64_t x = 0;

    for (size_t i = 0; i < THRESHOLDS; i++)
        x += threshold(i) <= d;
    return x;
}

/* N of an attempt with these words. */
static inline uint64_t n_of_attempt(const uint64_t *w)
{
    uint64_t b = w[2] & 255;

    return b * (b + 512 * base_sample(two_words(low62(w[0]), low62(w[1]))));
}

/* The words of an attempt with this accept bit and this kind of d; a minus zero has a d of 0. */
static inline void fill_attempt(uint64_t *w, uint64_t deviation, uint64_t bit, uint64_t kind)
{
    uint64_t minus_zero = secret_bit() & ~bit & 1;
    u128 d = secret_draw(kind) & ((u128)minus_zero - 1);
    /* A rejected attempt has b of 1 or more, so that e(N) is below 2^62; a minus zero has 0. An accepted one has at 107, where e(N)
     * is 0 from N = 999917 on, b of 188 or less. */
    uint64_t choices = !bit ? 255 : deviation == 107 ? 189 : 256;
    uint64_t b = (1 - bit + secret_below(choices)) & (minus_zero - 1);
    uint64_t x = base_sample(d);
    uint64_t sign = (secret_bit() & (256 * x + b != 0)) | minus_zero;
    uint64_t e = model_exponential(b * (b + 512 * x), deviation);
    uint64_t least = e & (bit - 1) & (minus_zero - 1);
    uint64_t bound = if_bit(bit, e, (UINT64_C(1) << 62) - least);

    w[0] = (uint64_t)(d >> 62) | secret_word() << 62;
    w[1] = low62((uint64_t)d) | secret_word() << 62;
    w[2] = b | sign << 8 | secret_word() << 9;
    w[3] = (least + secret_at_edges(bound)) | secret_word() << 62;
}

static inline void lend_cdt(uint64_t deviation)
{
    for (size_t i = 0; i < DEVIATIONS; i++)
        if (deviations[i] == deviation)
            memcpy(cdt, cdts[i], sizeof cdt);
}

/* Fills the words of a draw, each attempt with the next kind of d. Gives the samples that it will accept. */
static inline size_t prepare_draw_by(struct draw draw, uint64_t (*next_kind)(void))
{
    size_t accepted = 0;

    lend_cdt(draw.deviation);
    for (size_t t = 0; t < draw.limit && accepted < BLISS_SAMPLES(draw.n); t++) {
        uint64_t bit = below(next(&draw.state), 16) < draw.chance && accepted < draw.most;

        fill_attempt(lent.draw_words + 4 * t, draw.deviation, bit, next_kind());
        accepted += bit;
    }
    return accepted;
}

/* At each attempt four seeds in a row have the four kinds: so traces where the high word decides are compared with traces where
 * the low word does. */
static inline size_t prepare_draw(struct draw draw)
{
    return prepare_draw_by(draw, secret_turn);
}

static inline bliss_drawn made_draw(struct draw draw)
{
    return bliss_draw((bliss_session){draw.n, draw.deviation, 0}, draw.limit, cdt, BLISS_CDT_WORDS, polynomial,
                      BLISS_POLYNOMIAL_WORDS, lent.draw_words, BLISS_DRAW_WORDS(draw.limit), lent.y, BLISS_SAMPLES(draw.n), list,
                      BLISS_DRAW_ENTRIES(draw.limit));
}

/* Whether a draw came out as it was chosen. */
static inline bool draw_is_chosen(struct draw draw, size_t accepted, bliss_drawn drawn)
{
    return drawn.answer.refusal == BLISS_SERVED && drawn.answer.accepted == accepted &&
           drawn.session.drawn == (draw.most == BLISS_SAMPLES(draw.n));
}

#endif
