/* Draws at each deviation against document 01 with requests S-6, S-7 and S-8, once more in C and written from the documents alone:
 * the answer, the session, y and the list, and what stands behind them. Fails too where fewer than a tenth of the draws of a degree
 * at a deviation are full, or spent. */
#include "bliss_box.h"
#include "model.h"

#include <inttypes.h>
#include <stdio.h>
#include <string.h>

enum { MOST_DEGREE = 64, MOST_ATTEMPTS = BLISS_DRAW_LIMIT(MOST_DEGREE, 107), GUARDS = 9, DRAWS = 4000 };
enum { DEVIATIONS = 4, THRESHOLDS = BLISS_CDT_WORDS / 2 };

static const uint64_t deviations[DEVIATIONS] = {107, 215, 250, 271};
static const uint64_t cdts[DEVIATIONS][BLISS_CDT_WORDS] = {BLISS_CDT_107, BLISS_CDT_215, BLISS_CDT_250, BLISS_CDT_271};

/* All that is lent, with room behind what is written, and what it must be after a draw. */
static struct lent {
    uint64_t cdt[BLISS_CDT_WORDS];
    uint64_t polynomial[BLISS_POLYNOMIAL_WORDS];
    uint64_t words[BLISS_DRAW_WORDS(MOST_ATTEMPTS)];
    int32_t y[BLISS_SAMPLES(MOST_DEGREE) + GUARDS];
    uint32_t list[BLISS_DRAW_ENTRIES(MOST_ATTEMPTS) + GUARDS];
} lent, after;

static uint64_t any(void)
{
    static uint64_t state;

    state = state * UINT64_C(6364136223846793005) + UINT64_C(1442695040888963407);
    return (state ^ state >> 29) * UINT64_C(0x9e3779b97f4a7c15);
}

static uint64_t any_below(uint64_t bound)
{
    return (uint64_t)((u128)any() * bound >> 64);
}

static uint64_t low62(uint64_t word)
{
    return word & (UINT64_MAX >> 2);
}

/* ---- The rules ---- */

static u128 two_words(uint64_t high, uint64_t low)
{
    return (u128)high << 62 | low;
}

static u128 threshold(size_t i)
{
    return two_words(lent.cdt[i], lent.cdt[THRESHOLDS + i]);
}

static uint64_t base_sample(const uint64_t *w)
{
    uint64_t x = 0;

    for (size_t i = 0; i < THRESHOLDS; i++)
        x += threshold(i) <= two_words(low62(w[0]), low62(w[1]));
    return x;
}

static uint64_t e_of_attempt(const uint64_t *w, uint64_t deviation)
{
    uint64_t b = w[2] % 256;

    return model_exponential(b * (b + 512 * base_sample(w)), deviation);
}

static int32_t sample(const uint64_t *w)
{
    int32_t size = (int32_t)(256 * base_sample(w) + w[2] % 256);

    return w[2] / 256 % 2 == 1 ? -size : size;
}

static bool is_accepted(const uint64_t *w, uint64_t deviation)
{
    bool is_minus_zero = sample(w) == 0 && w[2] / 256 % 2 == 1;

    return low62(w[3]) < e_of_attempt(w, deviation) && !is_minus_zero;
}

static void expect(bliss_draw_answer *answer, uint32_t kind, size_t place)
{
    after.list[answer->entries++] = (uint32_t)(kind << 24 | place);
}

static void expect_attempt(bliss_draw_answer *answer, uint64_t deviation)
{
    const uint64_t *w = lent.words + 4 * answer->attempts;

    for (size_t i = 0; i < 4; i++)
        expect(answer, 2, 4 * answer->attempts + i);
    for (size_t i = 0; i < 20; i++)
        expect(answer, 3, i);
    for (size_t i = 0; i <= 20; i++)
        expect(answer, 4, 20 - i);
    expect(answer, 5, answer->accepted);
    if (is_accepted(w, deviation))
        after.y[answer->accepted++] = sample(w);
    answer->attempts++;
}

static bliss_draw_answer expect_draw(size_t n, uint64_t deviation, size_t limit)
{
    bliss_draw_answer answer = {BLISS_SERVED, 0, 0, 0};

    memcpy(&after, &lent, sizeof lent);
    expect(&answer, 1, n);
    while (answer.attempts < limit && answer.accepted < 2 * n)
        expect_attempt(&answer, deviation);
    expect(&answer, 6, answer.accepted);
    if (answer.accepted < 2 * n)
        memset(after.y, 0, 2 * n * sizeof *after.y);
    return answer;
}

/* ---- What is lent ---- */

/* The table of a deviation, which need not be the draw's; or one by which each base sample is as likely. */
static void fill_cdt(void)
{
    uint64_t table = any_below(2 * DEVIATIONS);

    if (table < DEVIATIONS)
        memcpy(lent.cdt, cdts[table], sizeof lent.cdt);
    else
        for (size_t i = 0; i < THRESHOLDS; i++) {
            lent.cdt[i] = (i + 1) * ((UINT64_C(1) << 62) / (THRESHOLDS + 1));
            lent.cdt[THRESHOLDS + i] = low62(any());
        }
}

/* Any words; d may be a threshold or the number below it, the sample a zero with either sign, and u the first that is rejected or
 * the last that is accepted. */
static void fill_attempt(uint64_t *w, uint64_t deviation)
{
    u128 d = threshold(any_below(THRESHOLDS)) - any_below(2);

    for (size_t i = 0; i < 4; i++)
        w[i] = any();
    if (any_below(2) == 0) {
        w[0] = (uint64_t)(d >> 62) | w[0] << 62;
        w[1] = low62((uint64_t)d) | w[1] << 62;
    }
    if (any_below(8) == 0) {
        w[0] = w[1] = 0;
        w[2] &= ~UINT64_C(255);
    }
    if (any_below(2) == 0)
        w[3] = low62(e_of_attempt(w, deviation) - any_below(2)) | w[3] << 62;
}

static void prepare(uint64_t deviation, size_t limit)
{
    static const uint64_t polynomial[BLISS_POLYNOMIAL_WORDS] = BLISS_POLYNOMIAL;

    memset(&lent, 0xa5, sizeof lent);
    memcpy(lent.polynomial, polynomial, sizeof polynomial);
    fill_cdt();
    for (size_t t = 0; t < limit; t++)
        fill_attempt(lent.words + 4 * t, deviation);
}

/* ---- The comparison ---- */

static bool right = true;

/* Gives whether the draw is full. Tells of the first draw alone that is another one. */
static bool compare(size_t n, uint64_t deviation, size_t limit)
{
    const bliss_session session = {n, deviation, any_below(3)};
    bliss_session next = session;
    bliss_draw_answer answer;
    bliss_drawn drawn;
    bool full, same;

    prepare(deviation, limit);
    answer = expect_draw(n, deviation, limit);
    full = answer.accepted == 2 * n;
    next.drawn = full;
    drawn = bliss_draw(session, limit, lent.cdt, BLISS_CDT_WORDS, lent.polynomial, BLISS_POLYNOMIAL_WORDS, lent.words,
                       BLISS_DRAW_WORDS(limit), lent.y, BLISS_SAMPLES(n), lent.list, BLISS_DRAW_ENTRIES(limit));
    same = drawn.answer.refusal == BLISS_SERVED && drawn.answer.attempts == answer.attempts &&
           drawn.answer.accepted == answer.accepted && drawn.answer.entries == answer.entries &&
           memcmp(&drawn.session, &next, sizeof next) == 0 && memcmp(&lent, &after, sizeof lent) == 0;
    if (!same && right)
        fprintf(stderr, "test_draws: a draw of degree %zu at %" PRIu64 " with limit %zu is another one\n", n, deviation, limit);
    right &= same;
    return full;
}

/* The least limit, the header's, or one between. */
static size_t any_limit(size_t n, uint64_t deviation)
{
    size_t limits[3] = {2 * n, BLISS_DRAW_LIMIT(n, deviation), 2 * n + (size_t)any_below(2 * n)};

    return limits[any_below(3)];
}

static void test_draws(size_t n, uint64_t deviation)
{
    size_t full = 0;
    bool enough;

    for (size_t i = 0; i < DRAWS; i++)
        full += compare(n, deviation, any_limit(n, deviation));
    enough = full >= DRAWS / 10 && DRAWS - full >= DRAWS / 10;
    printf("draws of degree %zu at %" PRIu64 ": %zu are full and %zu spent%s\n", n, deviation, full, DRAWS - full,
           enough ? "" : ", and one of these is too few");
    right &= enough;
}

int main(void)
{
    for (size_t i = 0; i < DEVIATIONS; i++) {
        test_draws(4, deviations[i]);
        test_draws(8, deviations[i]);
        test_draws(64, deviations[i]);
    }
    return !right;
}
