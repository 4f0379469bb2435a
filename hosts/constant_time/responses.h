/* Responses with chosen degree, challenge, bit and refusal, which are public. All else is secret: the words, the key, y, which
 * tests reject a rejected response, and of a refused one where the key or y has values out of range, and which. */
#ifndef RESPONSES_H
#define RESPONSES_H

#include "lent.h"
#include "secrets.h"

/* What is public of a response. The challenge has one position in each of so many parts of the degree, by a generator; that of a
 * blank response has none. */
struct response {
    size_t n;
    size_t positions;
    uint64_t bit;     /* 0 where it is refused */
    uint32_t refusal; /* 0, 9, 10 or 11 */
    uint64_t state;   /* of the generator */
};

static const uint64_t one = UINT64_C(1) << 62;

static inline bool is_blank(struct response r)
{
    return r.positions == 0;
}

static inline void fill_challenge(struct response r)
{
    for (size_t i = 0; i < r.positions; i++) {
        size_t step = r.n / r.positions;

        challenge[i] = (uint32_t)(i * step + below(next(&r.state), step));
    }
}

/* Values that are at most so far from a centre. */
static inline void fill_around(int32_t *values, size_t length, int32_t centre, int32_t distance)
{
    for (size_t i = 0; i < length; i++)
        values[i] = centre - distance + (int32_t)secret_below(2 * (uint64_t)distance + 1);
}

/* Makes three of four values zero, or about as many. */
static inline void thin(int32_t *values, size_t length)
{
    for (size_t i = 0; i < length; i++)
        values[i] *= (int32_t)(secret_bit() & secret_bit());
}

/* The tests of a response: A, Z, the range of z1, word 1 and the cosh test. */
enum { TEST_A, TEST_Z, TEST_Z1, TEST_WORD_1, TEST_COSH, TESTS };

/* Which of them are to reject a response. */
struct causes {
    uint64_t by[TESTS];
};

/* None where it is accepted; else one test, alone or with some of the others. Of four seeds in a row one has z1 alone: so traces
 * of that cause are compared with those of others. */
static inline struct causes secret_causes(struct response r)
{
    /* Of a refused response the turn decides which values are out of range. */
    uint64_t z1_alone = r.bit == 0 && r.refusal == BLISS_SERVED ? secret_turn() == 0 : 0;
    uint64_t first = if_bit(z1_alone, TEST_Z1, secret_below(TESTS));
    uint64_t with_others = secret_bit() & (1 - z1_alone);
    struct causes causes;

    for (uint64_t test = 0; test < TESTS; test++)
        causes.by[test] = (1 - r.bit) & ((test == first) | (with_others & secret_bit()));
    return causes;
}

/* The largest noise of the first half with which z1 stays in range, for a key of values up to `largest`. */
static inline int32_t fitting_noise(struct response r, int32_t largest)
{
    return BLISS_COEFFICIENT_LIMIT - largest * (int32_t)r.positions;
}

/* At degrees 4 and 8 all keys in range are used, and all noise that keeps z1 in range: A and Z stay within their limits, e(N2) is
 * above 0, and the words decide. From 16 on values are small, but where A or Z is to reject: a large key takes A over its limit,
 * large noise Z, and both 2|I|. A long challenge at a large degree has a thin key, or A would always be over its limit. A blank
 * response has any key in range at every degree: it makes no use of it, and A and I are 0. */
static inline void fill_values(struct response r, struct causes causes)
{
    int32_t large_key = (int32_t)causes.by[TEST_A];
    int32_t large_noise = (int32_t)causes.by[TEST_Z];

    if (r.n < 16 || is_blank(r))
        fill_around(lent.key, 2 * r.n, 0, 7);
    else
        fill_around(lent.key, 2 * r.n, 6 * large_key, 1);
    if (r.n < 16) {
        fill_around(lent.y, r.n, 0, fitting_noise(r, 7));
        fill_around(lent.y + r.n, r.n, 0, 2815);
    } else {
        fill_around(lent.y, r.n, (fitting_noise(r, 1) - 100) * large_noise, 100);
        fill_around(lent.y + r.n, r.n, 2715 * large_noise, 100);
    }
    if (2 * r.n * r.positions > 65536)
        thin(lent.key, 2 * r.n);
    /* As the product of a key of positive values has them. */
    for (size_t i = 0; i < 2 * r.n; i++)
        lent.y[i] *= i % r.n < r.n / 2 ? -1 : 1;
}

/* The product of key and challenge. */
static int32_t product[BLISS_SAMPLES(MOST_DEGREE)];

static inline void fill_product(struct response r)
{
    for (size_t i = 0; i < 2 * r.n; i++) {
        const int32_t *s = lent.key + i / r.n * r.n;
        size_t at = i % r.n;

        product[i] = 0;
        for (size_t j = 0; j < r.positions; j++)
            product[i] += at >= challenge[j] ? s[at - challenge[j]] : -s[at + r.n - challenge[j]];
    }
}

/* The place of the first value, of the last, or of any one, by a number below 4. */
static inline uint64_t secret_place(uint64_t where, size_t length)
{
    return if_bit(where == 1, length - 1, if_bit(where > 1, secret_below(length), 0));
}

static inline int64_t sign_of(uint64_t minus)
{
    return 1 - 2 * (int64_t)minus;
}

/* Takes z1 to an end of its range, or beyond one: in the first value, the last, any one, or a few, so that Z stays within its
 * limit. y stays in range, whatever the product is. */
static inline void stretch(struct response r, int64_t sign, uint64_t beyond)
{
    uint64_t farthest = 2815 - 7 * r.positions;
    uint64_t where = secret_below(4);
    uint64_t place = secret_place(where, r.n);

    for (size_t i = 0; i < r.n; i++) {
        uint64_t here = (i == place) | ((where == 3) & (secret_below(r.n) < 4));
        uint64_t size = BLISS_COEFFICIENT_LIMIT + beyond * (1 + secret_at_edges(farthest - BLISS_COEFFICIENT_LIMIT));
        int64_t value = sign_of(secret_bit()) * (int64_t)size;

        lent.y[i] = (int32_t)if_bit(here, (uint64_t)(value - sign * product[i]), (uint64_t)lent.y[i]);
    }
}

/* A value of z, as it is handed back. */
static inline int64_t z_at(size_t i, int64_t sign)
{
    return lent.y[i] + sign * product[i];
}

/* Whether a value of z1 is out of range. */
static inline uint64_t is_beyond(int64_t value)
{
    return (value < -BLISS_COEFFICIENT_LIMIT) | (value > BLISS_COEFFICIENT_LIMIT);
}

/* A, Z and I of a response, and whether z1 has a value out of range. */
struct measures {
    uint64_t squares;
    uint64_t norm;
    int64_t inner;
    uint64_t beyond;
};

static inline struct measures measures_of(struct response r, int64_t sign)
{
    struct measures m = {0, 0, 0, 0};

    for (size_t i = 0; i < 2 * r.n; i++) {
        int64_t value = z_at(i, sign);

        m.squares += (uint64_t)(product[i] * product[i]);
        m.norm += (uint64_t)(value * value);
        m.inner += value * product[i];
        m.beyond |= (i < r.n) & is_beyond(value);
    }
    return m;
}

/* The whole part of a / b, in as many steps for every a and b; the quotient is below 2^63. */
static inline uint64_t quotient(u128 a, u128 b)
{
    uint64_t found = 0;

    for (int shift = 62; shift >= 0; shift--) {
        uint64_t fits = (a >> shift) >= b;

        a -= (b & -(u128)fits) << shift;
        found |= fits << shift;
    }
    return found;
}

/* N1 and N2 of a response. */
static inline uint64_t n1_of(struct measures m)
{
    return if_bit(m.squares <= 46225, 46225 - m.squares, 0);
}

static inline uint64_t n2_of(struct measures m)
{
    uint64_t doubled = 2 * if_bit((uint64_t)m.inner >> 63, -(uint64_t)m.inner, (uint64_t)m.inner);

    return if_bit(doubled <= BLISS_EXPONENTIAL_LIMIT, doubled, BLISS_EXPONENTIAL_LIMIT);
}

/* e(N1): the first word 1 that does not pass; 2^62 if all do. */
static inline uint64_t first_edge(struct measures m)
{
    return bliss_exponential(n1_of(m));
}

/* The first word 2 that does not pass; 2^62 if all do. */
static inline uint64_t cosh_edge(struct measures m)
{
    uint64_t e = bliss_exponential(n2_of(m));
    u128 factor = one + (uint64_t)((u128)e * e >> 62);

    return quotient(((u128)e << 63) + factor - 1, factor);
}

/* A word whose 62 bits are below an edge, or not, where there is one. */
static inline uint64_t word_at(uint64_t edge, uint64_t is_below)
{
    uint64_t least = if_bit(is_below, 0, edge);
    uint64_t bound = if_bit(is_below, edge, one - edge);

    return ((least + secret_at_edges(bound)) & (one - 1)) | secret_word() << 62;
}

/* How many responses were prepared that are rejected by z1 alone, since they pass all other tests. */
static uint64_t rejected_by_z1_alone;

/* Words with this sign that accept, or that reject where they are to. Word 1 rejects too where no other test can: so it does where
 * A or the cosh test is to reject a blank response, since every one passes both. */
static inline void fill_words(struct response r, uint64_t minus, struct causes causes)
{
    struct measures m = measures_of(r, sign_of(minus));
    uint64_t edge = cosh_edge(m);
    uint64_t over = (m.squares > 46225) | (m.norm > 165688384);
    uint64_t by_cosh = causes.by[TEST_COSH] & (edge < one);
    uint64_t by_word_1 = causes.by[TEST_WORD_1] | ((1 - r.bit) & (1 - (over | m.beyond | by_cosh)));

    lent.response_words[0] = minus | secret_word() << 1;
    lent.response_words[1] = word_at(first_edge(m), 1 - by_word_1);
    lent.response_words[2] = word_at(edge, 1 - by_cosh);
    rejected_by_z1_alone += m.beyond & (1 - (over | by_word_1 | by_cosh));
}

/* Puts a value out of range at a place, where it is in the length, and at half of all places where there are to be several. */
static inline void spoil(int32_t *values, size_t length, uint32_t bound, uint64_t place, uint64_t several)
{
    for (size_t i = 0; i < length; i++) {
        uint64_t here = (i == place) | (several & secret_bit());
        /* From 2^31 on it is a negative value below the range; the last is -bound - 1. */
        uint64_t over = bound + 1 + secret_at_edges(UINT32_MAX - 2 * bound);

        values[i] = (int32_t)(uint32_t)if_bit(here, over, (uint32_t)values[i]);
    }
}

/* Spoils the first value, the last, any one, or several. */
static inline void spoil_somewhere(int32_t *values, size_t length, uint32_t bound)
{
    uint64_t where = secret_turn();

    spoil(values, length, bound, secret_place(where, length), where == 3);
}

/* Spoils one value or none. */
static inline void spoil_perhaps(int32_t *values, size_t length, uint32_t bound)
{
    spoil(values, length, bound, secret_below(2 * length), 0);
}

/* Of a refused response, what stands behind the refusal is secret too: y at refusal 10, both at 9. */
static inline void spoil_refused(struct response r)
{
    if (r.refusal == BLISS_REFUSED_KEY)
        spoil_somewhere(lent.key, 2 * r.n, 7);
    if (r.refusal == BLISS_REFUSED_Y)
        spoil_somewhere(lent.y, 2 * r.n, 2815);
    if (r.refusal == BLISS_REFUSED_NOT_DRAWN)
        spoil_perhaps(lent.key, 2 * r.n, 7);
    if (r.refusal == BLISS_REFUSED_NOT_DRAWN || r.refusal == BLISS_REFUSED_KEY)
        spoil_perhaps(lent.y, 2 * r.n, 2815);
}

static inline void prepare_response_by(struct response r, struct causes causes)
{
    uint64_t minus = secret_bit();

    fill_challenge(r);
    fill_values(r, causes);
    fill_product(r);
    stretch(r, sign_of(minus), causes.by[TEST_Z1]);
    fill_words(r, minus, causes);
    spoil_refused(r);
}

static inline void prepare_response(struct response r)
{
    prepare_response_by(r, secret_causes(r));
}

static inline bliss_responded made_response(struct response r)
{
    return bliss_respond((bliss_session){r.n, 215, r.refusal != BLISS_REFUSED_NOT_DRAWN}, challenge, r.positions, polynomial,
                         BLISS_POLYNOMIAL_WORDS, lent.response_words, BLISS_RESPOND_WORDS, lent.key, 2 * r.n, lent.y, 2 * r.n, z,
                         2 * r.n, list, BLISS_RESPOND_ENTRIES(r.n, r.positions));
}

/* Whether a response came out as it was chosen. */
static inline bool response_is_chosen(struct response r, bliss_responded responded)
{
    size_t entries = r.refusal == BLISS_SERVED ? BLISS_RESPOND_ENTRIES(r.n, r.positions) : 0;

    return responded.answer.refusal == r.refusal && responded.answer.bit == r.bit && responded.answer.entries == entries;
}

#endif
