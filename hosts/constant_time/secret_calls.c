/* Calls with secrets, whose traces are compared, and which memcheck watches: `secret_calls KIND SEED`. The seed, one character,
 * gives the secrets. What is public of the calls of a kind is the same for every seed, and no jump or address of their preparation
 * depends on the seed. Prints how many calls and attempts were made. Fails where one did not come out as it was chosen, or too few
 * were rejected by z1 alone: then traces would show nothing. */
#include "bliss_box.h"
#include "draws.h"
#include "key_checks.h"
#include "leaks.h"
#include "responses.h"
#include "secrets.h"

#include <stdio.h>
#include <string.h>
#include <valgrind/memcheck.h>

/* How often a call of a small degree is made; one of a large degree is made once. */
enum { OFTEN = 16 };

static size_t calls;
static size_t attempts;
static bool as_chosen = true;
static volatile uint64_t result;

/* Counts a call. Memcheck takes the secrets for undefined from here on, and reports each jump and each address that depends on
 * them. */
static void begin_call(void)
{
    (void)VALGRIND_MAKE_MEM_UNDEFINED(&lent, sizeof lent);
    calls++;
}

/* What is public after a call is defined again. */
static void reveal(const void *answer, size_t size)
{
    (void)VALGRIND_MAKE_MEM_DEFINED(answer, size);
}

static void call_exponential(uint64_t n, bool refused)
{
    uint64_t e;

    lent.n = n;
    begin_call();
    e = bliss_exponential(lent.n);
    reveal(&e, sizeof e);
    as_chosen &= (e == BLISS_EXPONENTIAL_REFUSED) == refused;
}

static void exponential(void)
{
    for (int i = 0; i < 200; i++)
        call_exponential(secret_at_edges(BLISS_EXPONENTIAL_LIMIT + 1), false);
}

static void refused_12(void)
{
    for (int i = 0; i < 200; i++)
        call_exponential(BLISS_EXPONENTIAL_LIMIT + 1 + secret_at_edges(UINT64_MAX - BLISS_EXPONENTIAL_LIMIT), true);
}

static void call_draw(struct draw draw)
{
    size_t accepted = prepare_draw(draw);
    bliss_drawn drawn;

    begin_call();
    drawn = made_draw(draw);
    reveal(&drawn, sizeof drawn);
    attempts += drawn.answer.attempts;
    as_chosen &= draw_is_chosen(draw, accepted, drawn);
}

/* Full before the limit, or with its last attempt. */
static void draw_full_at(uint64_t deviation)
{
    for (uint64_t i = 0; i < OFTEN; i++) {
        call_draw((struct draw){4, deviation, 128, 8, 11, i});
        call_draw((struct draw){4, deviation, 8, 8, 16, i});
    }
}

static void draw_full(void)
{
    draw_full_at(215);
    call_draw((struct draw){512, 215, 2048, 1024, 11, 0});
    call_draw((struct draw){1024, 215, 2304, 2048, 15, 0});
}

/* Spent with fewer samples, or with one too few. */
static void draw_spent_at(uint64_t deviation)
{
    for (uint64_t i = 0; i < OFTEN; i++) {
        call_draw((struct draw){4, deviation, 20, 4, 5, i});
        call_draw((struct draw){4, deviation, 40, 7, 11, i});
    }
}

static void draw_spent(void)
{
    draw_spent_at(215);
    call_draw((struct draw){512, 215, 1024, 1023, 11, 0});
    call_draw((struct draw){1024, 215, 2048, 2047, 11, 0});
}

/* Both, at another deviation. It is public, and R depends on it alone: draws at two deviations may have other traces, and those at
 * one deviation may not. */
static void draw_at(uint64_t deviation)
{
    draw_full_at(deviation);
    draw_spent_at(deviation);
    call_draw((struct draw){64, deviation, 256, 128, 11, 0});
}

static void draw_107(void)
{
    draw_at(107);
}

static void draw_250(void)
{
    draw_at(250);
}

static void draw_271(void)
{
    draw_at(271);
}

static void call_respond(struct response r)
{
    bliss_responded responded;

    prepare_response(r);
    begin_call();
    responded = made_response(r);
    reveal(&responded, sizeof responded);
    as_chosen &= response_is_chosen(r, responded);
}

static void respond(uint64_t bit, uint32_t refusal)
{
    for (uint64_t i = 0; i < OFTEN; i++) {
        call_respond((struct response){4, 4, bit, refusal, i});
        call_respond((struct response){8, 3, bit, refusal, i});
        call_respond((struct response){16, 16, bit, refusal, i});
    }
    call_respond((struct response){512, 23, bit, refusal, 0});
    call_respond((struct response){1024, 1, bit, refusal, 0});
}

/* Responses to the empty challenge. The key is checked as ever, and not used. */
static void respond_blank(uint64_t bit, uint32_t refusal)
{
    for (int i = 0; i < OFTEN; i++) {
        call_respond((struct response){4, 0, bit, refusal, 0});
        call_respond((struct response){8, 0, bit, refusal, 0});
        call_respond((struct response){16, 0, bit, refusal, 0});
    }
    call_respond((struct response){512, 0, bit, refusal, 0});
    call_respond((struct response){1024, 0, bit, refusal, 0});
}

/* The most values and positions: it takes as long as all others. */
static void respond_largest(uint64_t bit)
{
    call_respond((struct response){1024, 64, bit, BLISS_SERVED, 0});
}

static void accepted(void)
{
    respond(1, BLISS_SERVED);
    respond_largest(1);
}

/* One of four rejected calls is, by its turn, and some of the others are by chance. */
static void enough_by_z1_alone(void)
{
    as_chosen &= rejected_by_z1_alone >= calls / 4;
}

static void rejected(void)
{
    respond(0, BLISS_SERVED);
    respond_largest(0);
    enough_by_z1_alone();
}

static void blank_accepted(void)
{
    respond_blank(1, BLISS_SERVED);
}

static void blank_rejected(void)
{
    respond_blank(0, BLISS_SERVED);
    enough_by_z1_alone();
}

static void refused_9(void)
{
    respond(0, BLISS_REFUSED_NOT_DRAWN);
    respond_blank(0, BLISS_REFUSED_NOT_DRAWN);
}

static void refused_10(void)
{
    respond(0, BLISS_REFUSED_KEY);
    respond_blank(0, BLISS_REFUSED_KEY);
}

static void refused_11(void)
{
    respond(0, BLISS_REFUSED_Y);
    respond_blank(0, BLISS_REFUSED_Y);
}

static void call_check_key(struct key_check c)
{
    bliss_key_check check;

    prepare_key_check(c);
    begin_call();
    check = made_key_check(c);
    /* The sum stays secret. */
    reveal(&check.refusal, sizeof check.refusal);
    as_chosen &= key_check_is_chosen(c, check);
}

static void key_passed(void)
{
    for (int i = 0; i < OFTEN; i++) {
        call_check_key((struct key_check){4, 4, BLISS_SERVED, 7, 0});
        call_check_key((struct key_check){8, 3, BLISS_SERVED, 7, 0});
        call_check_key((struct key_check){16, 16, BLISS_SERVED, 1, 0});
    }
    call_check_key((struct key_check){64, 64, BLISS_SERVED, 1, 0});
    call_check_key((struct key_check){128, 23, BLISS_SERVED, 1, 0});
}

/* A check's work grows with the square of the degree: traces of these would take longer than all others. Memcheck makes them. */
static void key_passed_largest(void)
{
    call_check_key((struct key_check){512, 23, BLISS_SERVED, 1, 1});
    call_check_key((struct key_check){1024, 64, BLISS_SERVED, 1, 2});
}

/* No key of a small degree has so large a sum. */
static void key_refused_13(void)
{
    call_check_key((struct key_check){64, 16, BLISS_REFUSED_KEY_SUM, 7, 0});
    call_check_key((struct key_check){128, 8, BLISS_REFUSED_KEY_SUM, 7, 0});
}

static void key_refused_10(void)
{
    for (int i = 0; i < OFTEN; i++) {
        call_check_key((struct key_check){4, 4, BLISS_REFUSED_KEY, 7, 0});
        call_check_key((struct key_check){16, 16, BLISS_REFUSED_KEY, 7, 0});
    }
    call_check_key((struct key_check){512, 23, BLISS_REFUSED_KEY, 7, 0});
    call_check_key((struct key_check){1024, 64, BLISS_REFUSED_KEY, 7, 0});
}

static void leaking_n(void)
{
    for (int i = 0; i < OFTEN; i++) {
        lent.n = secret_word();
        begin_call();
        result = leaking_exponential(lent.n);
    }
}

static void leaking_place(void)
{
    for (int i = 0; i < OFTEN; i++) {
        lent.n = secret_word();
        begin_call();
        result = leaking_lookup(lent.n);
    }
}

/* The exponential at an N of a prepared call. Its value is right: the jumps are its only fault. */
static void leak_by_rounding(uint64_t n)
{
    uint64_t e;

    lent.n = n;
    begin_call();
    e = jumping_squarings(lent.n);
    reveal(&e, sizeof e);
    as_chosen &= e == bliss_exponential(n);
}

/* The words of draws decide how the squarings of their exponentials round. */
static void leaking_draw_rounding(void)
{
    for (uint64_t i = 0; i < OFTEN; i++) {
        prepare_draw((struct draw){4, 215, 128, 8, 11, i});
        leak_by_rounding(n_of_attempt(lent.draw_words));
    }
}

/* And so do the key and the noise of responses: N1 by the key, N2 by both. */
static void leak_by_response(uint64_t (*n_of)(struct measures))
{
    for (uint64_t i = 0; i < OFTEN; i++) {
        struct response r = {4, 4, 1, BLISS_SERVED, i};

        prepare_response(r);
        leak_by_rounding(n_of(measures_of(r, sign_of(lent.response_words[0] & 1))));
    }
}

static void leaking_n1_rounding(void)
{
    leak_by_response(n1_of);
}

static void leaking_n2_rounding(void)
{
    leak_by_response(n2_of);
}

/* Scans of the first attempt of a draw. */
static void leak_by_scan(uint64_t (*scan)(const uint64_t *))
{
    for (uint64_t i = 0; i < OFTEN; i++) {
        prepare_draw((struct draw){4, 215, 128, 8, 11, i});
        begin_call();
        result = scan(lent.draw_words);
    }
}

static void leaking_high_words(void)
{
    leak_by_scan(early_exit_scan);
}

static void leaking_held_words(void)
{
    leak_by_scan(few_held_scan);
}

static void leaking_low_words(void)
{
    leak_by_scan(skipping_scan);
}

static void leaking_check(void)
{
    for (uint64_t i = 0; i < OFTEN; i++) {
        prepare_response((struct response){4, 4, 0, BLISS_REFUSED_KEY, i});
        begin_call();
        result = early_exit_check(lent.key, 8);
    }
}

static void leaking_coefficients(void)
{
    for (uint64_t i = 0; i < OFTEN; i++) {
        prepare_response((struct response){4, 4, 0, BLISS_SERVED, i});
        begin_call();
        result = early_exit_coefficients(4);
    }
}

static void leaking_pick(void)
{
    for (int i = 0; i < OFTEN; i++) {
        prepare_key_check((struct key_check){16, 16, BLISS_SERVED, 1, 0});
        begin_call();
        result = early_exit_pick(lent.key, 32);
    }
}

static const struct kind {
    const char *name;
    void (*make)(void);
} kinds[] = {
    {"exponential", exponential},
    {"refused_12", refused_12},
    {"draw_full", draw_full},
    {"draw_spent", draw_spent},
    {"draw_107", draw_107},
    {"draw_250", draw_250},
    {"draw_271", draw_271},
    {"accepted", accepted},
    {"rejected", rejected},
    {"blank_accepted", blank_accepted},
    {"blank_rejected", blank_rejected},
    {"refused_9", refused_9},
    {"refused_10", refused_10},
    {"refused_11", refused_11},
    {"key_passed", key_passed},
    {"key_passed_largest", key_passed_largest},
    {"key_refused_10", key_refused_10},
    {"key_refused_13", key_refused_13},
    {"leaking_n", leaking_n},
    {"leaking_place", leaking_place},
    {"leaking_draw_rounding", leaking_draw_rounding},
    {"leaking_n1_rounding", leaking_n1_rounding},
    {"leaking_n2_rounding", leaking_n2_rounding},
    {"leaking_high_words", leaking_high_words},
    {"leaking_held_words", leaking_held_words},
    {"leaking_low_words", leaking_low_words},
    {"leaking_check", leaking_check},
    {"leaking_coefficients", leaking_coefficients},
    {"leaking_pick", leaking_pick},
};

int main(int argc, char **argv)
{
    if (argc != 3)
        return 2;
    seed_secrets(argv[2]);
    for (size_t i = 0; i < sizeof kinds / sizeof *kinds; i++)
        if (strcmp(argv[1], kinds[i].name) == 0)
            kinds[i].make();
    printf("%zu calls, %zu attempts\n", calls, attempts);
    return as_chosen && calls > 0 ? 0 : 1;
}
