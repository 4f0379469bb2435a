/* The header's tests against faults: what calls give passes them, and what a fault makes of it does not. */
#include "../constant_time/draws.h"
#include "../constant_time/responses.h"
#include "bliss_box.h"

#include <stdio.h>

enum { DEGREE = 16, SAMPLES = 2 * DEGREE, POSITIONS = 3 };

static const struct draw draw = {DEGREE, 215, 64, SAMPLES, 11, 0};
static const struct response response = {DEGREE, POSITIONS, 1, BLISS_SERVED, 0};
static const struct response blank = {DEGREE, 0, 1, BLISS_SERVED, 0};

static size_t claims;
static bool right = true;

static void check(bool claim, const char *text)
{
    claims++;
    right &= claim;
    if (!claim)
        fprintf(stderr, "test_faults: this is false: %s\n", text);
}

#define CHECK(claim) check(claim, #claim)

/* One value that is not zero is enough, in any place and whichever bit it has. */
static void test_noise(void)
{
    int32_t y[SAMPLES] = {0};

    CHECK(!bliss_noise_is_zero(lent.y, SAMPLES));
    CHECK(bliss_noise_is_zero(y, SAMPLES));
    CHECK(bliss_noise_is_zero(lent.y, 0));
    for (size_t i = 0; i < SAMPLES; i++) {
        y[i] = (int32_t)(UINT32_C(1) << i);
        CHECK(!bliss_noise_is_zero(y, SAMPLES));
        CHECK(bliss_noise_is_zero(y, i));
        y[i] = 0;
    }
}

static bool draw_fits_changed(bliss_draw_answer answer, size_t more_attempts, size_t more_accepted, size_t more_entries)
{
    answer.attempts += more_attempts;
    answer.accepted += more_accepted;
    answer.entries += more_entries;
    return bliss_draw_fits(answer, DEGREE, list, sizeof list / sizeof *list);
}

static void test_draw(bliss_draw_answer answer)
{
    uint32_t *last = &list[answer.entries - 1];
    /* Of so many attempts the number of entries is 0 modulo 2^64, and the last entry would be the one before the list. */
    bliss_draw_answer endless = {BLISS_SERVED, UINT64_C(3208129404123400281), SAMPLES, 0};
    uint32_t before_the_list[2] = {BLISS_ENTRY(BLISS_KIND_ACCEPTED, SAMPLES), BLISS_ENTRY(BLISS_KIND_DRAW, DEGREE)};

    CHECK(bliss_draw_fits(answer, DEGREE, list, answer.entries));
    CHECK(!bliss_draw_fits(answer, DEGREE, list, answer.entries - 1));
    CHECK(!bliss_draw_fits(answer, 2 * DEGREE, list, answer.entries));
    CHECK(draw_fits_changed(answer, 0, 0, 0));
    CHECK(!draw_fits_changed(answer, 1, 0, 0));
    CHECK(!draw_fits_changed(answer, 1, 0, 46));
    CHECK(BLISS_DRAW_ENTRIES(answer.attempts + ((size_t)1 << 63)) == answer.entries);
    CHECK(!draw_fits_changed(answer, (size_t)1 << 63, 0, 0));
    CHECK(!draw_fits_changed(answer, 0, 1, 0));
    CHECK(!draw_fits_changed(answer, 0, (size_t)1 << 32, 0));
    CHECK(!draw_fits_changed(answer, 0, 0, 1));
    CHECK(!bliss_draw_fits((bliss_draw_answer){BLISS_REFUSED_LIMIT, 0, 0, 0}, DEGREE, list, answer.entries));
    CHECK(BLISS_DRAW_ENTRIES(endless.attempts) == 0);
    CHECK(!bliss_draw_fits(endless, DEGREE, before_the_list + 1, 0));
    list[0] ^= BLISS_ENTRY(BLISS_KIND_DRAW ^ BLISS_KIND_RESPONSE, 0);
    CHECK(!bliss_draw_fits(answer, DEGREE, list, answer.entries));
    list[0] ^= BLISS_ENTRY(BLISS_KIND_DRAW ^ BLISS_KIND_RESPONSE, 0);
    *last ^= BLISS_ENTRY(BLISS_KIND_ACCEPTED ^ BLISS_KIND_ACCEPTED_BEFORE, 0);
    CHECK(!bliss_draw_fits(answer, DEGREE, list, answer.entries));
}

static bool respond_fits_changed(bliss_respond_answer answer, size_t positions, bool other_bit, size_t more_entries)
{
    answer.bit ^= other_bit;
    answer.entries += more_entries;
    return bliss_respond_fits(answer, DEGREE, positions, list, sizeof list / sizeof *list);
}

static void test_response(bliss_respond_answer answer, size_t positions)
{
    uint32_t *last = &list[answer.entries - 1];

    CHECK(bliss_respond_fits(answer, DEGREE, positions, list, answer.entries));
    CHECK(!bliss_respond_fits(answer, DEGREE, positions, list, answer.entries - 1));
    CHECK(!bliss_respond_fits(answer, DEGREE, positions + 1, list, answer.entries));
    CHECK(!bliss_respond_fits(answer, DEGREE / 2, 2 * positions, list, answer.entries));
    CHECK(respond_fits_changed(answer, positions, false, 0));
    CHECK(!respond_fits_changed(answer, positions, true, 0));
    CHECK(!respond_fits_changed(answer, positions, false, 1));
    CHECK(!bliss_respond_fits((bliss_respond_answer){BLISS_REFUSED_KEY, false, 0}, DEGREE, positions, list, answer.entries));
    list[0] ^= BLISS_ENTRY(BLISS_KIND_DRAW ^ BLISS_KIND_RESPONSE, 0);
    CHECK(!bliss_respond_fits(answer, DEGREE, positions, list, answer.entries));
    list[0] ^= BLISS_ENTRY(BLISS_KIND_DRAW ^ BLISS_KIND_RESPONSE, 0);
    *last ^= BLISS_ENTRY(BLISS_KIND_BIT ^ BLISS_KIND_KEY, 0);
    CHECK(!bliss_respond_fits(answer, DEGREE, positions, list, answer.entries));
}

static void test_response_of(struct response r)
{
    bliss_responded responded;

    prepare_response(r);
    CHECK(!bliss_noise_is_zero(lent.y, SAMPLES));
    responded = made_response(r);
    CHECK(response_is_chosen(r, responded));
    CHECK(bliss_noise_is_zero(lent.y, SAMPLES));
    test_response(responded.answer, r.positions);
}

int main(void)
{
    bliss_drawn drawn;

    seed_secrets("1");
    CHECK(prepare_draw(draw) == SAMPLES);
    drawn = made_draw(draw);
    CHECK(draw_is_chosen(draw, SAMPLES, drawn));
    test_noise();
    test_draw(drawn.answer);
    test_response_of(response);
    test_response_of(blank);
    printf("tests against faults: %zu claims%s\n", claims, right ? "" : ", and some are false");
    return !right;
}
