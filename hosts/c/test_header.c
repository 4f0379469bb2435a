/* Uses each name of the header, in what C99 and C++ have in common: what hosts write must compile without a warning. Linked with
 * the archive it is run too, and fails where the two do not fit. */
#include "bliss_box.h"

enum { DEGREES = 9, DEVIATIONS = 4 };
enum { DEGREE = 4, DEVIATION = 215, POSITIONS = 2, LIMIT = BLISS_DRAW_LIMIT(DEGREE, DEVIATION) };

/* Refusal 12 has no name of its own: it is told by a result of the exponential. */
static const uint32_t refusals[] = {
    BLISS_SERVED,
    BLISS_REFUSED_DEGREE,
    BLISS_REFUSED_LENGTHS,
    BLISS_REFUSED_CDT,
    BLISS_REFUSED_POLYNOMIAL,
    BLISS_REFUSED_LIMIT,
    BLISS_REFUSED_CHALLENGE,
    BLISS_REFUSED_WORDS,
    BLISS_REFUSED_LIST,
    BLISS_REFUSED_NOT_DRAWN,
    BLISS_REFUSED_KEY,
    BLISS_REFUSED_Y,
    BLISS_EXPONENTIAL_REFUSED - (UINT64_C(1) << 63),
    BLISS_REFUSED_KEY_SUM,
    BLISS_REFUSED_OUTPUT,
    BLISS_REFUSED_RECORD,
    BLISS_REFUSED_DEVIATION,
    BLISS_REFUSED_RESPONSE_DEVIATION,
};

static const uint32_t kinds[] = {
    BLISS_KIND_DRAW,     BLISS_KIND_WORD,     BLISS_KIND_CDT, BLISS_KIND_POLYNOMIAL, BLISS_KIND_ACCEPTED_BEFORE,
    BLISS_KIND_ACCEPTED, BLISS_KIND_RESPONSE, BLISS_KIND_KEY, BLISS_KIND_BIT,
};

static const uint64_t polynomial[BLISS_POLYNOMIAL_WORDS] = BLISS_POLYNOMIAL;
static const uint64_t cdt[BLISS_CDT_WORDS] = BLISS_CDT_215;
static const uint64_t deviations[DEVIATIONS] = {107, DEVIATION, 250, 271};
static const uint64_t cdts[DEVIATIONS][BLISS_CDT_WORDS] = {BLISS_CDT_107, BLISS_CDT_215, BLISS_CDT_250, BLISS_CDT_271};
static const uint32_t challenge[POSITIONS] = {0, 3};

/* An attempt with words of 0 is accepted, and its sample is 0; the first has a b of 1. A response with a key of 0 is its noise,
 * and with words of 0 it is accepted if the values of its first half are in range. */
static const uint64_t draw_words[BLISS_DRAW_WORDS(LIMIT)] = {0, 0, 1, 0};
static const uint64_t respond_words[BLISS_RESPOND_WORDS] = {0, 0, 0};
static const int32_t key[BLISS_SAMPLES(DEGREE)] = {0};

static int32_t y[BLISS_SAMPLES(DEGREE)];
static int32_t z[BLISS_SAMPLES(DEGREE)];
static uint32_t draw_list[BLISS_DRAW_ENTRIES(LIMIT)];
static uint32_t respond_list[BLISS_RESPOND_ENTRIES(DEGREE, POSITIONS)];

/* Whether refusals go up from 0, and kinds from 1. */
static bool numbers_go_up(void)
{
    for (size_t i = 0; i < sizeof refusals / sizeof *refusals; i++)
        if (refusals[i] != i)
            return false;
    for (size_t i = 0; i < sizeof kinds / sizeof *kinds; i++)
        if (kinds[i] != i + 1)
            return false;
    return true;
}

static bool entry_is_taken_apart(uint32_t kind, size_t place)
{
    uint32_t entry = BLISS_ENTRY(kind, place);

    return BLISS_ENTRY_KIND(entry) == kind && BLISS_ENTRY_PLACE(entry) == place && bliss_entry_is(entry, kind, place);
}

static bool exponential_ends_at_its_limit(void)
{
    return bliss_exponential(BLISS_EXPONENTIAL_LIMIT) != BLISS_EXPONENTIAL_REFUSED &&
           bliss_exponential(BLISS_EXPONENTIAL_LIMIT + 1) == BLISS_EXPONENTIAL_REFUSED;
}

/* Whether the limits for each deviation, at each degree from 4 on, are not below the smallest that is spent with a chance of at
 * most 2^-64, and a draw takes them. */
static bool limits_suffice(void)
{
    static const size_t smallest[DEVIATIONS][DEGREES] = {
        {99, 130, 183, 277, 448, 767, 1370, 2525, 4764},
        {62, 82, 118, 182, 302, 526, 954, 1780, 3391},
        {57, 76, 109, 170, 283, 496, 902, 1687, 3221},
        {55, 73, 105, 165, 274, 481, 877, 1643, 3140},
    };

    for (size_t d = 0; d < DEVIATIONS; d++)
        for (size_t i = 0; i < DEGREES; i++) {
            size_t n = BLISS_CAST(size_t, DEGREE) << i;
            size_t limit = BLISS_DRAW_LIMIT(n, deviations[d]);

            if (limit < smallest[d][i] || limit < 2 * n || limit > 32 * n)
                return false;
        }
    return true;
}

static bool draw_is_full(bliss_session *session, const uint64_t *table)
{
    uint64_t deviation = session->deviation;
    bliss_drawn drawn = bliss_draw(*session, LIMIT, table, BLISS_CDT_WORDS, polynomial, BLISS_POLYNOMIAL_WORDS, draw_words,
                                   BLISS_DRAW_WORDS(LIMIT), y, BLISS_SAMPLES(DEGREE), draw_list, BLISS_DRAW_ENTRIES(LIMIT));
    bliss_draw_answer answer = drawn.answer;

    *session = drawn.session;
    return answer.refusal == BLISS_SERVED && answer.accepted == BLISS_SAMPLES(DEGREE) && session->degree == DEGREE &&
           session->deviation == deviation && session->drawn == 1 &&
           bliss_draw_fits(answer, DEGREE, draw_list, BLISS_DRAW_ENTRIES(LIMIT)) &&
           !bliss_noise_is_zero(y, BLISS_SAMPLES(DEGREE));
}

/* Whether the noise in y makes a response with this bit, and whose list fits. */
static bool response_has_bit(bliss_session *session, bool bit)
{
    size_t list_length = BLISS_RESPOND_ENTRIES(DEGREE, POSITIONS);
    bliss_responded responded = bliss_respond(*session, challenge, POSITIONS, polynomial, BLISS_POLYNOMIAL_WORDS, respond_words,
                                              BLISS_RESPOND_WORDS, key, BLISS_SAMPLES(DEGREE), y, BLISS_SAMPLES(DEGREE), z,
                                              BLISS_SAMPLES(DEGREE), respond_list, list_length);
    bliss_respond_answer answer = responded.answer;

    *session = responded.session;
    return answer.refusal == BLISS_SERVED && answer.bit == bit && session->degree == DEGREE &&
           session->deviation == DEVIATION && session->drawn == 0 && bliss_noise_is_zero(y, BLISS_SAMPLES(DEGREE)) &&
           bliss_filled(respond_list, list_length, answer.entries) == list_length &&
           bliss_respond_fits(answer, DEGREE, POSITIONS, respond_list, list_length);
}

/* Whether a response has this bit whose noise is all zero but for one value: accepted it is the noise, and rejected all zero. */
static bool value_has_bit(size_t place, int32_t value, bool bit)
{
    bliss_session session = {DEGREE, DEVIATION, 1};

    y[place] = value;
    for (size_t i = 0; i < BLISS_SAMPLES(DEGREE); i++)
        z[i] = 1;
    if (!response_has_bit(&session, bit))
        return false;
    for (size_t i = 0; i < BLISS_SAMPLES(DEGREE); i++)
        if (z[i] != (bit && i == place ? value : 0))
            return false;
    return true;
}

/* In the first half; the second may have larger ones. */
static bool coefficients_end_at_their_limit(void)
{
    const int32_t limit = BLISS_COEFFICIENT_LIMIT;

    for (size_t i = 0; i < DEGREE; i++)
        if (!value_has_bit(i, limit, true) || !value_has_bit(i, -limit, true) || !value_has_bit(i, limit + 1, false) ||
            !value_has_bit(i, -limit - 1, false) || !value_has_bit(DEGREE + i, limit + 1, true) ||
            !value_has_bit(DEGREE + i, -limit - 1, true))
            return false;
    return true;
}

/* At length 1 the final sum is the sum of squares of the key: here 943 * 49 + 9 + 9, and 1 more. */
static bool key_sum_ends_at_its_limit(void)
{
    static int32_t long_key[BLISS_SAMPLES(512)] = {3, -3};
    bliss_key_check passed, refused;

    for (size_t i = 2; i < 945; i++)
        long_key[i] = 7;
    passed = bliss_check_key(512, long_key, BLISS_SAMPLES(512), 1);
    long_key[945] = 1;
    refused = bliss_check_key(512, long_key, BLISS_SAMPLES(512), 1);
    return passed.refusal == BLISS_SERVED && passed.sum == BLISS_KEY_SUM_LIMIT && refused.refusal == BLISS_REFUSED_KEY_SUM &&
           refused.sum == 0;
}

/* Values of the largest size make the longest record of all, and an output that is one byte shorter is too short for it. */
static bool record_ends_at_its_limits(void)
{
    enum { LENGTH = BLISS_RECORD_BYTES(DEGREE, POSITIONS) };
    const int32_t limit = BLISS_VALUE_LIMIT;
    int32_t z1[DEGREE] = {limit, -limit, limit, -limit};
    int32_t read[2][DEGREE] = {{0}};
    uint32_t positions[POSITIONS] = {0};
    uint8_t out[LENGTH] = {0};
    bliss_fields fields = {true, true, true};
    bliss_written written = bliss_write_record(DEGREE, fields, challenge, POSITIONS, z1, DEGREE, z1, DEGREE, out, LENGTH);
    bliss_written cut = bliss_write_record(DEGREE, fields, challenge, POSITIONS, z1, DEGREE, z1, DEGREE, out, LENGTH - 1);
    bliss_contents contents = bliss_read_record(out, LENGTH, positions, POSITIONS, read[0], DEGREE, read[1], DEGREE);

    if (written.refusal != BLISS_SERVED || written.length != LENGTH || cut.refusal != BLISS_REFUSED_OUTPUT || cut.length != 0)
        return false;
    if (contents.refusal != BLISS_SERVED || contents.map != 7 || contents.degree != DEGREE ||
        contents.positions != POSITIONS || contents.z1 != DEGREE || contents.z2 != DEGREE || positions[1] != challenge[1])
        return false;
    for (size_t i = 0; i < DEGREE; i++)
        if (read[0][i] != z1[i] || read[1][i] != z1[i])
            return false;
    z1[DEGREE - 1]--;
    written = bliss_write_record(DEGREE, fields, challenge, POSITIONS, z1, DEGREE, z1, DEGREE, out, LENGTH);
    return written.refusal == BLISS_REFUSED_RECORD;
}

static bool lengths_end_at_their_limit(void)
{
    return bliss_packed_length(0) == 9 && bliss_packed_length(BLISS_VALUE_LIMIT) == 34 &&
           bliss_packed_length(BLISS_VALUE_LIMIT + 1) == 0;
}

/* The header's CDT table in the old order: the high word and the low word of each threshold together. */
static uint64_t old_cdt[BLISS_CDT_WORDS];

static void fill_old_cdt(void)
{
    for (size_t i = 0; i < BLISS_CDT_WORDS; i++)
        old_cdt[i] = cdt[i / 2 + i % 2 * (BLISS_CDT_WORDS / 2)];
}

/* A host that still lends it is told so, and session, y and list stay as they were. */
static bool old_cdt_is_refused(void)
{
    enum { SAMPLES = BLISS_SAMPLES(DEGREE), ENTRIES = BLISS_DRAW_ENTRIES(LIMIT) };
    static int32_t noise[SAMPLES];
    static uint32_t list[ENTRIES];
    const bliss_session session = {DEGREE, DEVIATION, 1};
    bliss_drawn drawn;

    for (size_t i = 0; i < SAMPLES; i++)
        noise[i] = -1;
    for (size_t i = 0; i < ENTRIES; i++)
        list[i] = UINT32_MAX;
    drawn = bliss_draw(session, LIMIT, old_cdt, BLISS_CDT_WORDS, polynomial, BLISS_POLYNOMIAL_WORDS, draw_words,
                       BLISS_DRAW_WORDS(LIMIT), noise, SAMPLES, list, ENTRIES);
    for (size_t i = 0; i < SAMPLES; i++)
        if (noise[i] != -1)
            return false;
    for (size_t i = 0; i < ENTRIES; i++)
        if (list[i] != UINT32_MAX)
            return false;
    return drawn.answer.refusal == BLISS_REFUSED_CDT && drawn.answer.attempts == 0 && drawn.answer.accepted == 0 &&
           drawn.answer.entries == 0 && drawn.session.degree == session.degree &&
           drawn.session.deviation == session.deviation && drawn.session.drawn == session.drawn;
}

/* The loop of docs/HOST-GUIDE.md makes the header's of it. */
static bool old_cdt_is_reordered(void)
{
    uint64_t reordered[BLISS_CDT_WORDS];

    for (size_t i = 0; i < BLISS_CDT_WORDS / 2; i++) {
        reordered[i] = old_cdt[2 * i];
        reordered[BLISS_CDT_WORDS / 2 + i] = old_cdt[2 * i + 1];
    }
    for (size_t i = 0; i < BLISS_CDT_WORDS; i++)
        if (reordered[i] != cdt[i])
            return false;
    return true;
}

/* A draw is served at every deviation, and with the CDT of any. */
static bool deviations_are_served(void)
{
    for (size_t d = 0; d < DEVIATIONS; d++)
        for (size_t i = 0; i < DEVIATIONS; i++) {
            bliss_opened opened = bliss_open(DEGREE, deviations[d]);

            if (opened.refusal != BLISS_SERVED || !draw_is_full(&opened.session, cdts[i]))
                return false;
        }
    return true;
}

int main(void)
{
    bliss_opened opened;

    if (bliss_version() != BLISS_BOX_VERSION)
        return 1;
    opened = bliss_open(DEGREE, DEVIATION);
    if (opened.refusal != BLISS_SERVED || !draw_is_full(&opened.session, cdt) || !response_has_bit(&opened.session, true))
        return 2;
    if (!exponential_ends_at_its_limit() || !key_sum_ends_at_its_limit() || !coefficients_end_at_their_limit())
        return 3;
    if (!numbers_go_up() || !entry_is_taken_apart(BLISS_KIND_BIT, 1))
        return 4;
    if (!record_ends_at_its_limits() || !lengths_end_at_their_limit())
        return 5;
    fill_old_cdt();
    if (!old_cdt_is_refused() || !old_cdt_is_reordered())
        return 6;
    if (!deviations_are_served() || !limits_suffice())
        return 7;
    return POSITIONS <= BLISS_CHALLENGE_LIMIT(DEGREE) && BLISS_STACK_BYTES > 0 && BLISS_CHECK_KEY_STACK_BYTES > 0 ? 0 : 8;
}
