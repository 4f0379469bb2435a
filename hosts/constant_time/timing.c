/* Whether the time of a call depends on its secrets, as dudect asks it: `timing [FACTOR]`. Calls with fixed and with random
 * secrets and the same public history are taken in random order and timed by the cycle counter. Welch's t says whether their mean
 * times differ: over all measurements, and over the fastest part of them, which the machine has disturbed least. The factor
 * multiplies the number of measurements. Fails only where a function that leaks is not found, or a call does not come out as it
 * was chosen: then the measurements show nothing. */
#include "bliss_box.h"
#include "draws.h"
#include "key_checks.h"
#include "leaks.h"
#include "responses.h"
#include "secrets.h"

#include <math.h>
#include <stdio.h>
#include <stdlib.h>
#include <string.h>
#include <x86intrin.h>

/* From here on |t| says that the times differ; a leak of the size that is made here goes far above. */
#define DIFFERENT 4.5
#define FAR_ABOVE 45.0

/* The parts of the measurements that are looked at, fastest first, in hundredths. */
enum { PARTS = 5 };
static const size_t parts[PARTS] = {100, 99, 90, 75, 50};

typedef uint64_t __attribute__((may_alias)) word;

/* What is timed. Its two classes differ in a stretch of what is lent, of whole words. */
struct timed {
    const char *name;
    void (*prepare_fixed)(void);
    void (*prepare_random)(void);
    uint64_t (*call)(void);
    uint64_t outcome; /* what the call gives, in either class */
    word *secrets;
    size_t size;
    size_t measurements;
    bool leaks;
};

struct measurement {
    uint64_t cycles;
    uint64_t is_random;
};

static const struct draw full = {512, 215, 2048, 1024, 11, 0};
static const struct draw full_107 = {512, 107, 2048, 1024, 11, 0};
static const struct response accepted = {512, 23, 1, BLISS_SERVED, 0};
static const struct response rejected = {512, 23, 0, BLISS_SERVED, 0};
static const struct response blank_accepted = {512, 0, 1, BLISS_SERVED, 0};
static const struct response blank_rejected = {512, 0, 0, BLISS_SERVED, 0};
static const struct key_check passed = {512, 23, BLISS_SERVED, 1, 1};
static word fixed[sizeof lent / sizeof(word)];
static volatile uint64_t found;

static void zero_n(void)
{
    lent.n = 0;
}

static void any_n(void)
{
    lent.n = secret_below(BLISS_EXPONENTIAL_LIMIT + 1);
}

static void zero_attempt(void)
{
    memset(lent.draw_words, 0, 4 * sizeof *lent.draw_words);
}

static void any_attempt(void)
{
    fill_attempt(lent.draw_words, full.deviation, 1, secret_turn());
}

static void attempt_by_low_word(void)
{
    fill_attempt(lent.draw_words, full.deviation, 1, SAME_HIGH_WORD);
}

static void any_draw(void)
{
    prepare_draw(full);
}

static void any_draw_107(void)
{
    prepare_draw(full_107);
}

static uint64_t any_d(void)
{
    return ANY_D;
}

static uint64_t same_high_word(void)
{
    return SAME_HIGH_WORD;
}

static void by_high_words(void)
{
    prepare_draw_by(full, any_d);
}

static void by_low_words(void)
{
    prepare_draw_by(full, same_high_word);
}

static void any_accepted(void)
{
    prepare_response(accepted);
}

static void any_rejected(void)
{
    prepare_response(rejected);
}

static void any_blank_accepted(void)
{
    prepare_response(blank_accepted);
}

static void any_blank_rejected(void)
{
    prepare_response(blank_rejected);
}

static void by_z1_alone(void)
{
    prepare_response_by(rejected, (struct causes){.by[TEST_Z1] = 1});
}

static void by_others(void)
{
    struct causes causes = secret_causes(rejected);

    causes.by[TEST_Z1] = 0;
    prepare_response_by(rejected, causes);
}

static void zero_key(void)
{
    memset(lent.key, 0, sizeof lent.key);
}

static void any_key(void)
{
    prepare_key_check(passed);
}

/* One value that is out of range, at a place below a bound. */
static void spoil_one(int32_t *values, uint32_t bound, uint64_t places)
{
    fill_values(accepted, (struct causes){0});
    spoil(values, 2 * accepted.n, bound, secret_below(places), 0);
}

static void bad_key_first(void)
{
    spoil_one(lent.key, 7, 1);
}

static void bad_key_any(void)
{
    spoil_one(lent.key, 7, 2 * accepted.n);
}

static void bad_y_first(void)
{
    spoil_one(lent.y, 2815, 1);
}

static void bad_y_any(void)
{
    spoil_one(lent.y, 2815, 2 * accepted.n);
}

static uint64_t call_exponential(void)
{
    return bliss_exponential(lent.n) == BLISS_EXPONENTIAL_REFUSED;
}

static uint64_t call_draw(void)
{
    return made_draw(full).answer.accepted;
}

static uint64_t call_draw_107(void)
{
    return made_draw(full_107).answer.accepted;
}

/* The bit, or 100 and the refusal. */
static uint64_t bit_or_refusal(bliss_respond_answer answer)
{
    return answer.refusal == BLISS_SERVED ? answer.bit : 100 + answer.refusal;
}

static uint64_t call_respond(void)
{
    return bit_or_refusal(made_response(accepted).answer);
}

static uint64_t call_respond_blank(void)
{
    return bit_or_refusal(made_response(blank_accepted).answer);
}

static uint64_t call_check_key(void)
{
    return made_key_check(passed).refusal;
}

static uint64_t call_leaking_exponential(void)
{
    return leaking_exponential(lent.n);
}

static uint64_t call_jumping_squarings(void)
{
    found = jumping_squarings(lent.n);
    return 0;
}

static uint64_t call_early_exit_scan(void)
{
    found = early_exit_scan(lent.draw_words);
    return 0;
}

static uint64_t call_skipping_scan(void)
{
    found = skipping_scan(lent.draw_words);
    return 0;
}

static uint64_t call_early_exit_check(void)
{
    return early_exit_check(lent.key, 2 * accepted.n);
}

#define N &lent.n, sizeof lent.n
#define ATTEMPT lent.draw_words, 4 * sizeof *lent.draw_words
#define WORDS lent.draw_words, sizeof lent.draw_words
#define RESPONSE lent.response_words, sizeof lent - offsetof(__typeof__(lent), response_words)

static const struct timed all_timed[] = {
    {"bliss_exponential: n is 0, or any", zero_n, any_n, call_exponential, 0, N, 1000000, false},
    {"bliss_draw, full", any_draw, any_draw, call_draw, 1024, WORDS, 10000, false},
    {"bliss_draw at 107, full", any_draw_107, any_draw_107, call_draw_107, 1024, WORDS, 10000, false},
    {"bliss_draw, full: by high words, or by low words", by_high_words, by_low_words, call_draw, 1024, WORDS, 10000, false},
    {"bliss_respond, bit 1", any_accepted, any_accepted, call_respond, 1, RESPONSE, 20000, false},
    {"bliss_respond, bit 0", any_rejected, any_rejected, call_respond, 0, RESPONSE, 20000, false},
    {"bliss_respond, bit 0: by z1 alone, or by others", by_z1_alone, by_others, call_respond, 0, RESPONSE, 20000, false},
    {"bliss_respond, blank, bit 1", any_blank_accepted, any_blank_accepted, call_respond_blank, 1, RESPONSE, 50000, false},
    {"bliss_respond, blank, bit 0", any_blank_rejected, any_blank_rejected, call_respond_blank, 0, RESPONSE, 50000, false},
    {"bliss_respond, refusal 10: bad first, or anywhere", bad_key_first, bad_key_any, call_respond, 110, RESPONSE, 50000, false},
    {"bliss_respond, refusal 11: bad first, or anywhere", bad_y_first, bad_y_any, call_respond, 111, RESPONSE, 50000, false},
    {"bliss_check_key: the key is 0, or any that passes", zero_key, any_key, call_check_key, 0, RESPONSE, 1000, false},
    {"bliss_check_key, refusal 10: bad first or anywhere", bad_key_first, bad_key_any, call_check_key, 10, RESPONSE, 50000, false},
    {"leaking: a loop of n mod 16 turns", zero_n, any_n, call_leaking_exponential, 0, N, 1000000, true},
    {"leaking: squarings that round by a jump", zero_n, any_n, call_jumping_squarings, 0, N, 1000000, true},
    {"leaking: a scan that ends above d", zero_attempt, any_attempt, call_early_exit_scan, 0, ATTEMPT, 1000000, true},
    {"leaking: a scan that skips low words", zero_attempt, attempt_by_low_word, call_skipping_scan, 0, ATTEMPT, 1000000, true},
    {"leaking: a check that ends at the bad value", bad_key_first, bad_key_any, call_early_exit_check, 0, RESPONSE, 50000, true},
};

static uint64_t cycle_counter(void)
{
    uint64_t cycles;

    _mm_lfence();
    cycles = __rdtsc();
    _mm_lfence();
    return cycles;
}

/* Puts the fixed secrets in the place of random ones where the class is not random. Both are read for either class. */
static void choose(const struct timed *timed, uint64_t is_random)
{
    for (size_t i = 0; i < timed->size / sizeof(word); i++)
        timed->secrets[i] = if_bit(is_random, timed->secrets[i], fixed[i]);
}

/* Random secrets are prepared for either class, so that caches and predictors have seen the same before each call. Gives whether
 * the calls came out as they were chosen. */
static bool measure(const struct timed *timed, struct measurement *measurements, size_t count)
{
    uint64_t order = 1;
    bool as_chosen = true;

    timed->prepare_fixed();
    memcpy(fixed, timed->secrets, timed->size);
    for (size_t i = 0; i < count; i++) {
        uint64_t is_random = next(&order) >> 63;
        uint64_t start, outcome;

        timed->prepare_random();
        choose(timed, is_random);
        start = cycle_counter();
        outcome = timed->call();
        measurements[i] = (struct measurement){cycle_counter() - start, is_random};
        as_chosen &= outcome == timed->outcome;
    }
    return as_chosen;
}

static int by_cycles(const void *a, const void *b)
{
    uint64_t first = ((const struct measurement *)a)->cycles;
    uint64_t second = ((const struct measurement *)b)->cycles;

    return (first > second) - (first < second);
}

/* Welch's t of the two classes: the difference of their means over its standard error. */
static double welch_t(const struct measurement *measurements, size_t count)
{
    double numbers[2] = {0, 0};
    double means[2] = {0, 0};
    double squares[2] = {0, 0};
    double error = 0;

    for (size_t i = 0; i < count; i++) {
        uint64_t class = measurements[i].is_random;
        double off = (double)measurements[i].cycles - means[class];

        numbers[class]++;
        means[class] += off / numbers[class];
        squares[class] += off * ((double)measurements[i].cycles - means[class]);
    }
    /* A part that one class fills alone tells the classes apart. */
    if (numbers[0] < 2 || numbers[1] < 2)
        return INFINITY;
    for (size_t class = 0; class < 2; class++)
        error += squares[class] / (numbers[class] - 1) / numbers[class];
    return means[1] == means[0] ? 0 : (means[1] - means[0]) / sqrt(error);
}

/* Prints t of each part of the measurements. Gives the largest |t|. */
static double print_t(const char *name, struct measurement *measurements, size_t count)
{
    double largest = 0;

    qsort(measurements, count, sizeof *measurements, by_cycles);
    printf("%-51s %8zu %7llu ", name, count, (unsigned long long)measurements[count / 2].cycles);
    for (size_t i = 0; i < PARTS; i++) {
        double t = welch_t(measurements, count * parts[i] / 100);

        printf(" %6.1f", t);
        largest = fmax(largest, fabs(t));
    }
    printf("\n");
    return largest;
}

/* Whether the measurements show something: calls came out as they were chosen, and a leak is found. */
static bool shows(const struct timed *timed, size_t factor)
{
    size_t count = factor * timed->measurements;
    struct measurement *measurements = calloc(count, sizeof *measurements);
    bool shown;

    if (measurements == NULL)
        return false;
    shown = measure(timed, measurements, count);
    shown &= print_t(timed->name, measurements, count) > FAR_ABOVE || !timed->leaks;
    if (!shown)
        fprintf(stderr, "timing: this shows nothing: %s\n", timed->name);
    free(measurements);
    return shown;
}

int main(int argc, char **argv)
{
    size_t factor = argc == 1 ? 1 : strtoul(argv[1], NULL, 10);
    bool shown = true;

    if (factor == 0 || argc > 2) {
        fprintf(stderr, "usage: timing [FACTOR]\n");
        return 2;
    }
    seed_secrets("1");
    fill_challenge(accepted);
    printf("%-51s %8s %7s  t of the fastest\n%-51s %8s %7s ", "", "", "median", "calls at degree 512", "measured", "cycles");
    for (size_t i = 0; i < PARTS; i++)
        printf(" %5zu%%", parts[i]);
    printf("\n");
    for (size_t i = 0; i < sizeof all_timed / sizeof *all_timed; i++)
        shown &= shows(&all_timed[i], factor);
    printf("|t| above %.1f says that fixed and random secrets take different times; what leaks must be far above.\n"
           "A smaller |t| says that so many measurements on this machine show no difference, and no more.\n",
           DIFFERENT);
    return !shown;
}
