/* Blank responses: to the empty challenge, so that z is y where the tests of the bit pass. Which are accepted and which are
 * rejected is worked out by hand, but for e(46225), which another program gives. Each fault of a call is refused as it is with any
 * challenge, a fault of the key too, which is not used. All that is lent is compared with what it must be after a call. */
#include "bliss_box.h"
#include "model.h"

#include <stdio.h>
#include <string.h>

enum { MOST_DEGREE = 1024, DEVIATION = 215, ENTRIES = 47, GUARDS = 9 };

/* All that is lent, with room behind what depends on the degree and behind the list, and what it must be after a call. */
struct lent {
    uint64_t polynomial[BLISS_POLYNOMIAL_WORDS];
    uint64_t words[BLISS_RESPOND_WORDS];
    uint32_t challenge[GUARDS];
    int32_t key[2 * MOST_DEGREE + GUARDS];
    int32_t y[2 * MOST_DEGREE + GUARDS];
    int32_t z[2 * MOST_DEGREE + GUARDS];
    uint32_t list[ENTRIES + GUARDS];
};
static struct lent lent, after;

static size_t claims;
static bool right = true;

static void check(bool claim, const char *text, size_t n)
{
    claims++;
    right &= claim;
    if (!claim)
        fprintf(stderr, "test_blank: at degree %zu this is false: %s\n", n, text);
}

#define CHECK(n, claim) check(claim, #claim, n)

/* What is accepted: words of 0, any key in range, and noise with values at both ends of its range, and of the range of z1. What
 * stands at the challenge is no position: it must not be looked at. */
static void prepare(size_t n)
{
    static const uint64_t polynomial[BLISS_POLYNOMIAL_WORDS] = BLISS_POLYNOMIAL;

    memset(&lent, 0xa5, sizeof lent);
    memcpy(lent.polynomial, polynomial, sizeof polynomial);
    memset(lent.words, 0, sizeof lent.words);
    for (size_t i = 0; i < 2 * n; i++) {
        lent.key[i] = (int32_t)(i * 4 % 15) - 7;
        lent.y[i] = (int32_t)(i * 37 % 201) - 100;
    }
    lent.y[0] = BLISS_COEFFICIENT_LIMIT;
    lent.y[n - 1] = -BLISS_COEFFICIENT_LIMIT;
    lent.y[n] = 2815;
    lent.y[2 * n - 1] = -2815;
}

static bliss_responded responded(bliss_session session, size_t words, size_t key, size_t list)
{
    size_t samples = BLISS_SAMPLES(session.degree);

    memcpy(&after, &lent, sizeof lent);
    return bliss_respond(session, lent.challenge, 0, lent.polynomial, BLISS_POLYNOMIAL_WORDS, lent.words, words, lent.key, key,
                         lent.y, samples, lent.z, samples, lent.list, list);
}

static void expect_list(size_t n, bool bit)
{
    uint32_t *entry = after.list;

    *entry++ = BLISS_ENTRY(BLISS_KIND_RESPONSE, n);
    for (size_t i = 0; i < 3; i++)
        *entry++ = BLISS_ENTRY(BLISS_KIND_WORD, i);
    for (size_t i = 0; i < 42; i++)
        *entry++ = BLISS_ENTRY(BLISS_KIND_POLYNOMIAL, 20 - i % 21);
    *entry = BLISS_ENTRY(BLISS_KIND_BIT, bit);
}

static bool is_as_expected(void)
{
    return memcmp(&lent, &after, sizeof lent) == 0;
}

/* Whether the response is served with this bit, and writes z, y and 47 entries alone. */
static bool has_bit(size_t n, bool bit)
{
    bliss_responded r = responded((bliss_session){n, DEVIATION, 1}, BLISS_RESPOND_WORDS, BLISS_SAMPLES(n), ENTRIES + GUARDS);

    for (size_t i = 0; i < 2 * n; i++) {
        after.z[i] = bit ? after.y[i] : 0;
        after.y[i] = 0;
    }
    expect_list(n, bit);
    return r.answer.refusal == BLISS_SERVED && r.answer.bit == bit && r.answer.entries == ENTRIES && r.session.degree == n &&
           r.session.deviation == DEVIATION && r.session.drawn == 0 && is_as_expected();
}

/* Whether the response is refused by this, and writes nothing. */
static bool is_refused(uint32_t refusal, bliss_session session, size_t words, size_t key, size_t list)
{
    bliss_responded r = responded(session, words, key, list);

    return r.answer.refusal == refusal && !r.answer.bit && r.answer.entries == 0 &&
           memcmp(&r.session, &session, sizeof session) == 0 && is_as_expected();
}

static bool words_have_bit(size_t n, uint64_t first, uint64_t second, uint64_t third, bool bit)
{
    prepare(n);
    lent.words[0] = first;
    lent.words[1] = second;
    lent.words[2] = third;
    return has_bit(n, bit);
}

/* A is 0, so that word 1 must be below e(46225), near exp(-1/2). I is 0, so that no word 2 rejects. Word 0 has the sign of a
 * product that is 0. Of words 1 and 2 the low 62 bits count. */
static void test_words(size_t n)
{
    const uint64_t e = model_exponential(46225, DEVIATION);
    const uint64_t high = UINT64_C(3) << 62;

    for (uint64_t sign = 0; sign < 2; sign++) {
        CHECK(n, words_have_bit(n, sign, e - 1, 0, true));
        CHECK(n, words_have_bit(n, sign, e, 0, false));
        CHECK(n, words_have_bit(n, sign | high, high | (e - 1), UINT64_MAX, true));
        CHECK(n, words_have_bit(n, sign | high, high | e, UINT64_MAX, false));
        CHECK(n, words_have_bit(n, sign, 0, UINT64_MAX >> 2, true));
        CHECK(n, words_have_bit(n, sign, UINT64_MAX, 0, false));
    }
}

static bool value_has_bit(size_t n, size_t place, int32_t value, bool bit)
{
    prepare(n);
    lent.y[place] = value;
    return has_bit(n, bit);
}

/* Each value of the first half may be 2100 in size, and no more; each of the second half may have any size that noise has. */
static void test_coefficients(size_t n)
{
    for (size_t i = 0; i < n; i++) {
        CHECK(n, value_has_bit(n, i, 2100, true));
        CHECK(n, value_has_bit(n, i, -2100, true));
        CHECK(n, value_has_bit(n, i, 2101, false));
        CHECK(n, value_has_bit(n, i, -2101, false));
        CHECK(n, value_has_bit(n, n + i, 2815, true));
        CHECK(n, value_has_bit(n, n + i, -2815, true));
    }
}

/* Whether noise has this bit that is 16 values of 2100 in the first half, and in the second 12 of 2815 and these four. */
static bool norm_has_bit(size_t n, int32_t a, int32_t b, int32_t c, int32_t d, bool bit)
{
    const int32_t last[4] = {a, b, c, d};

    prepare(n);
    for (size_t i = 0; i < n; i++) {
        lent.y[i] = i < 16 ? 2100 : 0;
        lent.y[n + i] = i < 12 ? 2815 : i < 16 ? last[i - 12] : 0;
    }
    return has_bit(n, bit);
}

/* Z is 16 * 2100^2 + 12 * 2815^2 = 165650700 and 37684 to the limit, 165688384. No noise of degree 4 or 8 is so long whose first
 * half is in range. */
static void test_norm(size_t n)
{
    CHECK(n, norm_has_bit(n, 194, 4, 4, 4, true));
    CHECK(n, norm_has_bit(n, -194, 4, -4, 4, true));
    CHECK(n, norm_has_bit(n, 194, 7, 0, 0, false));
    CHECK(n, norm_has_bit(n, 2815, 2815, 2815, 2815, false));
}

/* Keys that, but for small degrees, would reject every response to a position. */
static void test_keys(size_t n)
{
    for (int32_t value = -7; value <= 7; value++) {
        prepare(n);
        for (size_t i = 0; i < 2 * n; i++)
            lent.key[i] = value;
        CHECK(n, has_bit(n, true));
    }
}

/* Whether a call whose key or noise has this value, at this place, is refused by this. */
static bool value_is_refused(size_t n, int32_t *values, size_t place, int32_t value, uint32_t refusal)
{
    prepare(n);
    values[place] = value;
    return is_refused(refusal, (bliss_session){n, DEVIATION, 1}, BLISS_RESPOND_WORDS, BLISS_SAMPLES(n), ENTRIES);
}

/* Key and noise are looked at in every place. */
static void test_ranges(size_t n)
{
    for (size_t i = 0; i < 2 * n; i++) {
        CHECK(n, value_is_refused(n, lent.key, i, 8, BLISS_REFUSED_KEY));
        CHECK(n, value_is_refused(n, lent.key, i, -8, BLISS_REFUSED_KEY));
        CHECK(n, value_is_refused(n, lent.y, i, 2816, BLISS_REFUSED_Y));
        CHECK(n, value_is_refused(n, lent.y, i, -2816, BLISS_REFUSED_Y));
    }
}

static bool key_length_is_refused(size_t n, size_t length)
{
    prepare(n);
    return is_refused(BLISS_REFUSED_LENGTHS, (bliss_session){n, DEVIATION, 1}, BLISS_RESPOND_WORDS, length, ENTRIES);
}

static void test_key_lengths(size_t n)
{
    CHECK(n, key_length_is_refused(n, 0));
    CHECK(n, key_length_is_refused(n, n));
    CHECK(n, key_length_is_refused(n, 2 * n - 1));
    CHECK(n, key_length_is_refused(n, 2 * n + 1));
}

/* A set of faults has bit r where refusal r is to apply: all that a call with an empty challenge can get, and their order. */
enum { ALL_FAULTS = 1 << 1 | 1 << 16 | 1 << 17 | 1 << 2 | 1 << 4 | 1 << 7 | 1 << 8 | 1 << 9 | 1 << 10 | 1 << 11 };
static const uint32_t order[] = {1, 16, 17, 2, 4, 7, 8, 9, 10, 11};

static bool has(unsigned faults, unsigned refusal)
{
    return (faults >> refusal & 1) != 0;
}

/* None of the four, one that no response is made at, or the one that responses are made at. */
static uint64_t deviation_with(unsigned faults)
{
    if (has(faults, BLISS_REFUSED_DEVIATION))
        return DEVIATION + 1;
    return has(faults, BLISS_REFUSED_RESPONSE_DEVIATION) ? 250 : DEVIATION;
}

/* Of several faults the first counts. */
static bool first_is_refused(size_t n, unsigned faults)
{
    bliss_session session = {n - has(faults, BLISS_REFUSED_DEGREE), deviation_with(faults), !has(faults, BLISS_REFUSED_NOT_DRAWN)};
    size_t words = BLISS_RESPOND_WORDS - has(faults, BLISS_REFUSED_WORDS);
    size_t key = BLISS_SAMPLES(session.degree) - has(faults, BLISS_REFUSED_LENGTHS);
    size_t list = ENTRIES - has(faults, BLISS_REFUSED_LIST);
    const uint32_t *first = order;

    prepare(n);
    lent.polynomial[20] += has(faults, BLISS_REFUSED_POLYNOMIAL);
    lent.key[0] = has(faults, BLISS_REFUSED_KEY) ? 8 : 7;
    lent.y[0] = has(faults, BLISS_REFUSED_Y) ? 2816 : 2815;
    while (!has(faults, *first))
        first++;
    return is_refused(*first, session, words, key, list);
}

static void test_faults(size_t n)
{
    for (unsigned faults = ALL_FAULTS; faults > 0; faults = (faults - 1) & ALL_FAULTS)
        CHECK(n, first_is_refused(n, faults));
}

/* The key check still wants a position; test_record.c has the same of records. */
static void test_key_check(size_t n)
{
    bliss_key_check of_none, of_one;

    prepare(n);
    memset(lent.key, 0, sizeof lent.key);
    of_none = bliss_check_key(n, lent.key, BLISS_SAMPLES(n), 0);
    of_one = bliss_check_key(n, lent.key, BLISS_SAMPLES(n), 1);
    CHECK(n, of_none.refusal == BLISS_REFUSED_CHALLENGE && of_none.sum == 0);
    CHECK(n, of_one.refusal == BLISS_SERVED);
}

int main(void)
{
    for (size_t n = 4; n <= MOST_DEGREE; n *= 2) {
        test_words(n);
        test_coefficients(n);
        if (n >= 16)
            test_norm(n);
        test_keys(n);
        test_ranges(n);
        test_key_lengths(n);
        test_faults(n);
        test_key_check(n);
    }
    printf("blank responses: %zu claims%s\n", claims, right ? "" : ", and some are false");
    return !right;
}
