/* A whole host, `example DEGREE [NUMBER]`: opens a session, checks its key, draws noise, responds to a challenge with it, and
 * starts again with new noise and a new challenge for as long as the response is rejected. Prints the tries and the response. Ends
 * with status 1 where a call is refused or a test against faults fails. Key and challenges are toys here: making keys and hashing
 * are a host's own.
 *
 * A second argument, a number, replaces the system's random words by those of a small generator, so that a test knows what is
 * printed. Such words must never meet a real key. */
#define _DEFAULT_SOURCE /* for explicit_bzero */
#include "bliss_box.h"

#include <errno.h>
#include <stdio.h>
#include <stdlib.h>
#include <string.h>
#include <sys/random.h>

static const uint64_t polynomial[BLISS_POLYNOMIAL_WORDS] = BLISS_POLYNOMIAL;

/* BLISS-I's deviation, and the CDT table for it. Noise is drawn at others too, and responses are made at this one alone. */
enum { DEVIATION = 215 };
static const uint64_t cdt[BLISS_CDT_WORDS] = BLISS_CDT_215;

/* What the host lends at one degree. The key, the words and y are secret, and so is z until it is published. */
struct buffers {
    size_t degree;
    size_t samples;
    size_t limit;
    size_t positions;
    uint32_t *challenge;
    int32_t *key;
    uint64_t *draw_words;
    uint64_t respond_words[BLISS_RESPOND_WORDS];
    int32_t *y;
    int32_t *z;
    uint32_t *draw_list;
    uint32_t *respond_list;
};

static void *allocated(size_t count, size_t size)
{
    void *memory = calloc(count, size);

    if (memory == NULL) {
        fprintf(stderr, "out of memory\n");
        exit(1);
    }
    return memory;
}

/* Buffers for degree n. A challenge has 23 positions, as BLISS-I's do, or n where that is fewer. */
static struct buffers buffers_for(size_t n)
{
    struct buffers b = {
        .degree = n, .samples = BLISS_SAMPLES(n), .limit = BLISS_DRAW_LIMIT(n, DEVIATION), .positions = n < 23 ? n : 23};

    b.challenge = allocated(b.positions, sizeof *b.challenge);
    b.key = allocated(b.samples, sizeof *b.key);
    b.draw_words = allocated(BLISS_DRAW_WORDS(b.limit), sizeof *b.draw_words);
    b.y = allocated(b.samples, sizeof *b.y);
    b.z = allocated(b.samples, sizeof *b.z);
    b.draw_list = allocated(BLISS_DRAW_ENTRIES(b.limit), sizeof *b.draw_list);
    b.respond_list = allocated(BLISS_RESPOND_ENTRIES(n, b.positions), sizeof *b.respond_list);
    return b;
}

/* Wipes what is secret, and hands everything back. */
static void release(struct buffers *b)
{
    explicit_bzero(b->key, b->samples * sizeof *b->key);
    explicit_bzero(b->draw_words, BLISS_DRAW_WORDS(b->limit) * sizeof *b->draw_words);
    explicit_bzero(b->respond_words, sizeof b->respond_words);
    explicit_bzero(b->y, b->samples * sizeof *b->y);
    explicit_bzero(b->z, b->samples * sizeof *b->z);
    free(b->challenge);
    free(b->key);
    free(b->draw_words);
    free(b->y);
    free(b->z);
    free(b->draw_list);
    free(b->respond_list);
}

/* Says what is wrong, if anything is. Once there are secrets only main ends the program, and wipes them on every way out. */
static bool right(bool is_right, const char *what_is_wrong)
{
    if (!is_right)
        fprintf(stderr, "%s\n", what_is_wrong);
    return is_right;
}

static bool served(const char *call, uint32_t refusal)
{
    if (refusal != BLISS_SERVED)
        fprintf(stderr, "%s: refusal %u\n", call, refusal);
    return refusal == BLISS_SERVED;
}

static bool fill_from_system(uint64_t *words, size_t length)
{
    unsigned char *bytes = (unsigned char *)words;
    size_t left = length * sizeof *words;

    while (left > 0) {
        ssize_t got = getrandom(bytes, left, 0);

        if (got < 0 && errno != EINTR) {
            perror("getrandom");
            return false;
        }
        if (got > 0) {
            bytes += got;
            left -= (size_t)got;
        }
    }
    return true;
}

/* 0, or the state of the small generator. */
static uint64_t generator;

/* Words that nobody has seen, each used once. */
static bool fill_with_fresh(uint64_t *words, size_t length)
{
    if (generator == 0)
        return fill_from_system(words, length);
    for (size_t i = 0; i < length; i++) {
        generator = generator * UINT64_C(6364136223846793005) + UINT64_C(1442695040888963407);
        words[i] = (generator ^ generator >> 29) * UINT64_C(0x9e3779b97f4a7c15);
    }
    return true;
}

/* A key of small values, most of them 0. No rotation of it is much like another, since 4099 is a prime above its length: so the
 * inner products of its rotations are small. */
static void fill_key(struct buffers *b)
{
    static const int32_t values[7] = {1, 0, 0, -1, 0, 0, 0};

    for (size_t i = 0; i < b->samples; i++)
        b->key[i] = values[i * i * i % 4099 % 7];
}

/* Overwrites the inner products of the key that a check leaves on the stack. It is called where the check was, and not inlined, so
 * that its array stands where the check had its memory. */
__attribute__((noinline)) static void wipe_stack(void)
{
    unsigned char left[BLISS_CHECK_KEY_STACK_BYTES];

    explicit_bzero(left, sizeof left);
}

/* A key that is refused goes into no box: some challenges may never be answered with it. The sum of one that passes is not
 * printed, since it tells something of the key. */
static bool check_key(const struct buffers *b)
{
    bliss_key_check check = bliss_check_key(b->degree, b->key, b->samples, b->positions);

    wipe_stack();
    if (!served("key check", check.refusal))
        return false;
    printf("the key can answer every challenge of %zu positions\n", b->positions);
    return true;
}

/* In a signature the challenge is a hash of the message and of what the noise commits to: another one for each try. */
static void fill_challenge(struct buffers *b, size_t try)
{
    size_t step = b->degree / b->positions;

    for (size_t i = 0; i < b->positions; i++)
        b->challenge[i] = (uint32_t)(i * step + try % step);
}

/* Draws, and prints what the draw counted. */
static bool draw(struct buffers *b, bliss_session *session, size_t try)
{
    size_t list_length = BLISS_DRAW_ENTRIES(b->limit);
    bliss_drawn drawn;

    if (!fill_with_fresh(b->draw_words, BLISS_DRAW_WORDS(b->limit)))
        return false;
    drawn = bliss_draw(*session, b->limit, cdt, BLISS_CDT_WORDS, polynomial, BLISS_POLYNOMIAL_WORDS, b->draw_words,
                       BLISS_DRAW_WORDS(b->limit), b->y, b->samples, b->draw_list, list_length);
    *session = drawn.session;
    if (!served("draw", drawn.answer.refusal))
        return false;
    printf("try %zu: %zu attempts for %zu samples, %zu entries listed\n", try, drawn.answer.attempts, drawn.answer.accepted,
           drawn.answer.entries);
    return right(bliss_draw_fits(drawn.answer, b->degree, b->draw_list, list_length),
                 "the list of the draw does not fit its answer") &&
           right(session->drawn != 1 || !bliss_noise_is_zero(b->y, b->samples), "the noise is all zero");
}

static bool respond(struct buffers *b, bliss_session *session, bliss_respond_answer *answer)
{
    size_t list_length = BLISS_RESPOND_ENTRIES(b->degree, b->positions);
    bliss_responded responded;

    /* An empty challenge would be served, and hand the noise out. */
    if (!right(b->positions > 0, "the challenge is empty") || !fill_with_fresh(b->respond_words, BLISS_RESPOND_WORDS))
        return false;
    responded = bliss_respond(*session, b->challenge, b->positions, polynomial, BLISS_POLYNOMIAL_WORDS, b->respond_words,
                              BLISS_RESPOND_WORDS, b->key, b->samples, b->y, b->samples, b->z, b->samples, b->respond_list,
                              list_length);
    *session = responded.session;
    *answer = responded.answer;
    return served("respond", answer->refusal) &&
           right(bliss_respond_fits(*answer, b->degree, b->positions, b->respond_list, list_length),
                 "the list of the response does not fit its answer");
}

/* Tries until a response is accepted, and counts the tries. Gives false where something is wrong: then nothing is published. */
static bool respond_until_accepted(struct buffers *b, bliss_session session, size_t *tries, bliss_respond_answer *answer)
{
    for (*tries = 1;; ++*tries) {
        if (!draw(b, &session, *tries))
            return false;
        if (session.drawn != 1) /* spent: there is no noise to respond with */
            continue;
        fill_challenge(b, *tries);
        if (!respond(b, &session, answer))
            return false;
        if (answer->bit)
            return true;
    }
}

static void print_response(const struct buffers *b, bliss_respond_answer answer)
{
    size_t filled = bliss_filled(b->respond_list, BLISS_RESPOND_ENTRIES(b->degree, b->positions), answer.entries);
    uint32_t first = b->respond_list[0];
    uint32_t last = b->respond_list[filled - 1];

    printf("read list of the response: %zu entries, from (%u, %u) to (%u, %u)\n", filled, BLISS_ENTRY_KIND(first),
           BLISS_ENTRY_PLACE(first), BLISS_ENTRY_KIND(last), BLISS_ENTRY_PLACE(last));
    printf("response: ");
    for (size_t i = 0; i < 8; i++)
        printf("%d, ", b->z[i]);
    printf("..\n");
}

/* A whole number from the command line. Ends the program where the text is none. */
static uint64_t number_of(const char *text)
{
    char *end;
    uint64_t number;

    errno = 0;
    number = strtoull(text, &end, 10);
    if (*text < '0' || *text > '9' || *end != '\0' || errno != 0) {
        fprintf(stderr, "usage: example DEGREE [NUMBER]\n");
        exit(2);
    }
    return number;
}

int main(int argc, char **argv)
{
    uint64_t n = number_of(argc == 2 || argc == 3 ? argv[1] : "");
    bliss_respond_answer answer;
    bliss_opened opened;
    struct buffers b;
    size_t tries;
    bool accepted;

    /* Before any other call: an archive of another version may take a session for something else. */
    if (!right(bliss_version() == BLISS_BOX_VERSION, "the header and the archive are of different versions"))
        return 1;
    opened = bliss_open(n, DEVIATION);
    if (!served("open", opened.refusal))
        return 1;
    generator = argc == 3 ? number_of(argv[2]) : 0;
    b = buffers_for(n);
    fill_key(&b);
    accepted = check_key(&b) && respond_until_accepted(&b, opened.session, &tries, &answer);
    if (accepted) {
        printf("degree %zu: accepted after %zu %s, a challenge of %zu positions\n", opened.session.degree, tries,
               tries == 1 ? "try" : "tries", b.positions);
        print_response(&b, answer);
    }
    release(&b);
    return accepted ? 0 : 1;
}
