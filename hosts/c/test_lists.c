/* Compares the lists of draws and of responses with those that the header's kinds and lengths make. */
#include "bliss_box.h"

#include <stdio.h>
#include <string.h>

enum { DEGREE = 4, SAMPLES = 2 * DEGREE, POSITIONS = 2 };

static const uint64_t polynomial[BLISS_POLYNOMIAL_WORDS] = BLISS_POLYNOMIAL;
static const uint64_t cdt[BLISS_CDT_WORDS] = BLISS_CDT_215;
static const uint32_t challenge[POSITIONS] = {0, 3};

/* Attempts with words of 0 are accepted, so that as many of them as samples make a full draw; and so is a response with such
 * words and a key of 0, if the values of its first half are in range. */
static const uint64_t words[BLISS_DRAW_WORDS(SAMPLES)];
static const int32_t key[SAMPLES];
static int32_t y[SAMPLES];
static int32_t z[SAMPLES];

static uint32_t draw_list[BLISS_DRAW_ENTRIES(SAMPLES)];
static uint32_t respond_list[BLISS_RESPOND_ENTRIES(DEGREE, POSITIONS)];

/* The entries that are expected, of one call at a time. */
static uint32_t expected[BLISS_DRAW_ENTRIES(SAMPLES) + BLISS_RESPOND_ENTRIES(DEGREE, POSITIONS)];
static size_t count;

static void expect(uint32_t kind, size_t place)
{
    expected[count++] = BLISS_ENTRY(kind, place);
}

static void expect_polynomial(void)
{
    for (size_t j = BLISS_POLYNOMIAL_WORDS; j > 0; j--)
        expect(BLISS_KIND_POLYNOMIAL, j - 1);
}

static void expect_draw(void)
{
    count = 0;
    expect(BLISS_KIND_DRAW, DEGREE);
    for (size_t t = 0; t < SAMPLES; t++) {
        for (size_t i = BLISS_DRAW_WORDS(t); i < BLISS_DRAW_WORDS(t + 1); i++)
            expect(BLISS_KIND_WORD, i);
        for (size_t i = 0; i < BLISS_CDT_WORDS; i++)
            expect(BLISS_KIND_CDT, i);
        expect_polynomial();
        expect(BLISS_KIND_ACCEPTED_BEFORE, t);
    }
    expect(BLISS_KIND_ACCEPTED, SAMPLES);
}

/* A blank response has no positions, and so no entries of the key. */
static void expect_response(size_t positions, bool bit)
{
    count = 0;
    expect(BLISS_KIND_RESPONSE, DEGREE);
    for (size_t i = 0; i < SAMPLES; i++)
        for (size_t j = 0; j < positions; j++)
            expect(BLISS_KIND_KEY, i / DEGREE * DEGREE + (i + DEGREE - challenge[j]) % DEGREE);
    for (size_t i = 0; i < BLISS_RESPOND_WORDS; i++)
        expect(BLISS_KIND_WORD, i);
    expect_polynomial();
    expect_polynomial();
    expect(BLISS_KIND_BIT, bit);
}

/* Whether a call listed what is expected, and its list is just as long. */
static int same(const char *call, const uint32_t *list, size_t length, size_t entries)
{
    int right = entries == count && length == count && memcmp(list, expected, count * sizeof *list) == 0;

    printf("%s: %zu entries listed, %sas the header has them\n", call, entries, right ? "" : "and NOT ");
    return right;
}

/* Whether a response to so many positions, with the noise in y, lists what one with this bit does. Nothing is left of the list
 * before. */
static int same_response(const char *call, bliss_session session, size_t positions, bool bit)
{
    size_t length = BLISS_RESPOND_ENTRIES(DEGREE, positions);
    bliss_responded responded;

    memset(respond_list, 0, sizeof respond_list);
    responded = bliss_respond(session, challenge, positions, polynomial, BLISS_POLYNOMIAL_WORDS, words, BLISS_RESPOND_WORDS, key,
                              SAMPLES, y, SAMPLES, z, SAMPLES, respond_list, length);
    expect_response(positions, bit);
    return same(call, respond_list, length, responded.answer.entries);
}

/* Whether a draw at a deviation lists what every draw with its bits does: a list does not tell the deviation. */
static int same_draw(const char *call, uint64_t deviation)
{
    bliss_drawn drawn;

    memset(draw_list, 0, sizeof draw_list);
    drawn = bliss_draw(bliss_open(DEGREE, deviation).session, SAMPLES, cdt, BLISS_CDT_WORDS, polynomial, BLISS_POLYNOMIAL_WORDS,
                       words, BLISS_DRAW_WORDS(SAMPLES), y, SAMPLES, draw_list, BLISS_DRAW_ENTRIES(SAMPLES));
    expect_draw();
    return same(call, draw_list, BLISS_DRAW_ENTRIES(SAMPLES), drawn.answer.entries);
}

int main(void)
{
    const bliss_session drawn = {DEGREE, 215, 1};
    int right = same_draw("draw at 107", 107) & same_draw("draw at 215", 215) & same_draw("draw at 250", 250) &
                same_draw("draw at 271", 271);

    right &= same_response("response, accepted", drawn, POSITIONS, true);
    y[0] = BLISS_COEFFICIENT_LIMIT + 1;
    right &= same_response("response, rejected by a coefficient", drawn, POSITIONS, false);
    right &= same_response("blank response, accepted", drawn, 0, true);
    y[0] = BLISS_COEFFICIENT_LIMIT + 1;
    right &= same_response("blank response, rejected by a coefficient", drawn, 0, false);
    return !right;
}
