/* Sessions of any numbers, as a host could make them, in draws and responses with every set of faults, and openings by any numbers.
 * Each call gets the first refusal that applies. Refused, it hands back its session with the same bytes, and leaves all that is
 * lent; served, it keeps the degree and the deviation. Of the numbers that say whether y is drawn, 1 alone says so. */
#include "bliss_box.h"

#include <inttypes.h>
#include <stdio.h>
#include <string.h>

enum { DEGREE = 4, SAMPLES = 2 * DEGREE, LIMIT = SAMPLES, POSITIONS = 2, ENTRIES = BLISS_RESPOND_ENTRIES(DEGREE, POSITIONS) };

#define LENGTH(array) (sizeof(array) / sizeof *(array))
#define TWO_TO(power) (UINT64_C(1) << (power))

static const uint64_t degrees[] = {4, 8, 16, 32, 64, 128, 256, 512, 1024, 0, 2, 12, 2048, TWO_TO(32) + 4, TWO_TO(63), UINT64_MAX};
static const uint64_t deviations[] = {
    107, 215, 250, 271, 0, 106, 108, 214, 216, 249, 251, 270, 272, TWO_TO(32) + 215, TWO_TO(63), TWO_TO(63) + 107, UINT64_MAX};
static const uint64_t drawns[] = {1, 0, 2, 3, 255, 256, 257, TWO_TO(32), TWO_TO(32) + 1, TWO_TO(63), TWO_TO(63) + 1, UINT64_MAX};

/* All that is lent, to calls of degree 4, and a copy of it as it was before a call. */
static struct lent {
    uint64_t cdt[BLISS_CDT_WORDS];
    uint64_t polynomial[BLISS_POLYNOMIAL_WORDS];
    uint64_t words[BLISS_DRAW_WORDS(LIMIT)];
    uint32_t challenge[POSITIONS];
    int32_t key[SAMPLES];
    int32_t y[SAMPLES];
    int32_t z[SAMPLES];
    uint32_t list[BLISS_DRAW_ENTRIES(LIMIT)];
} lent, before;

static size_t calls, served;
static bool right = true;

/* Tells of the first call alone that is not right. */
static void check(bool claim, const char *call, bliss_session session, unsigned faults)
{
    calls++;
    if (!claim && right)
        fprintf(stderr, "test_sessions: %s at degree %zu, deviation %" PRIu64 ", drawn %" PRIu64 ", faults %#x is not right\n",
                call, session.degree, session.deviation, session.drawn, faults);
    right &= claim;
}

static bool is_degree(uint64_t n)
{
    return n == 4 || n == 8 || n == 16 || n == 32 || n == 64 || n == 128 || n == 256 || n == 512 || n == 1024;
}

static bool is_deviation(uint64_t deviation)
{
    return deviation == 107 || deviation == 215 || deviation == 250 || deviation == 271;
}

/* A set of faults has bit r where refusal r is to apply. */
static unsigned fault(bool applies, unsigned refusal)
{
    return (unsigned)applies << refusal;
}

static bool has(unsigned faults, unsigned refusal)
{
    return (faults >> refusal & 1) != 0;
}

/* The faults that a session makes: of the degree, by lengths of another one, of the deviation and of what is drawn. */
static unsigned faults_of(bliss_session s)
{
    return fault(!is_degree(s.degree), BLISS_REFUSED_DEGREE) | fault(s.degree != DEGREE, BLISS_REFUSED_LENGTHS) |
           fault(!is_deviation(s.deviation), BLISS_REFUSED_DEVIATION) |
           fault(s.deviation != 215, BLISS_REFUSED_RESPONSE_DEVIATION) | fault(s.drawn != 1, BLISS_REFUSED_NOT_DRAWN);
}

/* The first refusal that applies, by the order of a call, or 0. */
static uint32_t first_of(unsigned faults, const uint32_t *order, size_t length)
{
    for (size_t i = 0; i < length; i++)
        if (has(faults, order[i]))
            return order[i];
    return BLISS_SERVED;
}

/* Without faults a draw is full, by words of 0, and a response is accepted. */
static void prepare(unsigned faults)
{
    static const uint64_t cdt[BLISS_CDT_WORDS] = BLISS_CDT_215;
    static const uint64_t polynomial[BLISS_POLYNOMIAL_WORDS] = BLISS_POLYNOMIAL;

    memset(&lent, 0, sizeof lent);
    memset(lent.z, 0xa5, sizeof lent.z);
    memset(lent.list, 0xa5, sizeof lent.list);
    memcpy(lent.cdt, cdt, sizeof cdt);
    memcpy(lent.polynomial, polynomial, sizeof polynomial);
    lent.cdt[0] |= (uint64_t)has(faults, BLISS_REFUSED_CDT) << 62;
    lent.polynomial[0] += has(faults, BLISS_REFUSED_POLYNOMIAL);
    lent.challenge[1] = !has(faults, BLISS_REFUSED_CHALLENGE);
    lent.key[SAMPLES - 1] = 7 + has(faults, BLISS_REFUSED_KEY);
    lent.y[SAMPLES - 1] = 2815 + has(faults, BLISS_REFUSED_Y);
    before = lent;
}

static bool nothing_is_written(void)
{
    return memcmp(&lent, &before, sizeof lent) == 0;
}

static bool is_session(bliss_session session, uint64_t degree, uint64_t deviation, uint64_t drawn)
{
    const bliss_session expected = {degree, deviation, drawn};

    return memcmp(&session, &expected, sizeof expected) == 0;
}

static bool draw_is_right(bliss_session session, unsigned faults)
{
    static const uint32_t order[] = {1, 16, 2, 3, 4, 5, 7, 8};
    uint32_t refusal = first_of(faults_of(session) | faults, order, LENGTH(order));
    bliss_draw_answer answer;
    bliss_drawn drawn;

    prepare(faults);
    drawn = bliss_draw(session, LIMIT - has(faults, BLISS_REFUSED_LIMIT), lent.cdt, BLISS_CDT_WORDS, lent.polynomial,
                       BLISS_POLYNOMIAL_WORDS, lent.words, BLISS_DRAW_WORDS(LIMIT) - has(faults, BLISS_REFUSED_WORDS), lent.y,
                       SAMPLES - has(faults, BLISS_REFUSED_LENGTHS), lent.list,
                       BLISS_DRAW_ENTRIES(LIMIT) - has(faults, BLISS_REFUSED_LIST));
    answer = drawn.answer;
    if (refusal == BLISS_SERVED) {
        served++;
        return answer.refusal == BLISS_SERVED && is_session(drawn.session, DEGREE, session.deviation, 1);
    }
    return answer.refusal == refusal && answer.attempts == 0 && answer.accepted == 0 && answer.entries == 0 &&
           is_session(drawn.session, session.degree, session.deviation, session.drawn) && nothing_is_written();
}

static bool response_is_right(bliss_session session, unsigned faults)
{
    static const uint32_t order[] = {1, 16, 17, 2, 4, 6, 7, 8, 9, 10, 11};
    uint32_t refusal = first_of(faults_of(session) | faults, order, LENGTH(order));
    bliss_respond_answer answer;
    bliss_responded responded;

    prepare(faults);
    responded = bliss_respond(session, lent.challenge, POSITIONS, lent.polynomial, BLISS_POLYNOMIAL_WORDS, lent.words,
                              BLISS_RESPOND_WORDS - has(faults, BLISS_REFUSED_WORDS), lent.key,
                              SAMPLES - has(faults, BLISS_REFUSED_LENGTHS), lent.y, SAMPLES, lent.z, SAMPLES, lent.list,
                              ENTRIES - has(faults, BLISS_REFUSED_LIST));
    answer = responded.answer;
    if (refusal == BLISS_SERVED) {
        served++;
        return answer.refusal == BLISS_SERVED && answer.bit && is_session(responded.session, DEGREE, 215, 0);
    }
    return answer.refusal == refusal && !answer.bit && answer.entries == 0 &&
           is_session(responded.session, session.degree, session.deviation, session.drawn) && nothing_is_written();
}

/* Every set of the faults that stand in what is lent. */
static void test_session(bliss_session session)
{
    enum {
        OF_DRAW = 1 << 2 | 1 << 3 | 1 << 4 | 1 << 5 | 1 << 7 | 1 << 8,
        OF_RESPONSE = 1 << 2 | 1 << 4 | 1 << 6 | 1 << 7 | 1 << 8 | 1 << 10 | 1 << 11
    };
    unsigned faults = 0;

    do {
        check(draw_is_right(session, faults), "a draw", session, faults);
        faults = (faults - 1) & OF_DRAW;
    } while (faults != 0);
    do {
        check(response_is_right(session, faults), "a response", session, faults);
        faults = (faults - 1) & OF_RESPONSE;
    } while (faults != 0);
}

static void test_opening(uint64_t n, uint64_t deviation)
{
    bliss_opened opened = bliss_open(n, deviation);
    uint32_t refusal = !is_degree(n) ? BLISS_REFUSED_DEGREE : !is_deviation(deviation) ? BLISS_REFUSED_DEVIATION : BLISS_SERVED;
    bool is_served = refusal == BLISS_SERVED;

    served += is_served;
    check(opened.refusal == refusal && is_session(opened.session, is_served ? n : 0, is_served ? deviation : 0, 0), "an opening",
          (bliss_session){n, deviation, 0}, 0);
}

int main(void)
{
    for (size_t i = 0; i < LENGTH(degrees); i++)
        for (size_t j = 0; j < LENGTH(deviations); j++) {
            test_opening(degrees[i], deviations[j]);
            for (size_t k = 0; k < LENGTH(drawns); k++)
                test_session((bliss_session){degrees[i], deviations[j], drawns[k]});
        }
    for (uint64_t n = 0; n <= 2048; n++)
        for (uint64_t deviation = 0; deviation <= 512; deviation++)
            test_opening(n, deviation);
    printf("sessions: %zu calls, %zu of them served%s\n", calls, served, right ? "" : ", and some are not right");
    return !right;
}
