/* What calls with secrets lend. What is secret stands in one record, so that it can be hidden or exchanged as a whole. */
#ifndef LENT_H
#define LENT_H

#include "bliss_box.h"

enum { MOST_DEGREE = 1024, MOST_ATTEMPTS = 2304, MOST_POSITIONS = 64 };

static const uint64_t polynomial[BLISS_POLYNOMIAL_WORDS] = BLISS_POLYNOMIAL;

/* Draws lend the table of their deviation. */
static uint64_t cdt[BLISS_CDT_WORDS] = BLISS_CDT_215;

static struct {
    uint64_t n;
    uint64_t draw_words[BLISS_DRAW_WORDS(MOST_ATTEMPTS)];
    uint64_t response_words[BLISS_RESPOND_WORDS];
    int32_t key[BLISS_SAMPLES(MOST_DEGREE)];
    int32_t y[BLISS_SAMPLES(MOST_DEGREE)];
} lent;

static uint32_t challenge[MOST_POSITIONS];
static int32_t z[BLISS_SAMPLES(MOST_DEGREE)];

/* Long enough for a draw and for a response. */
#define LARGER(a, b) ((a) > (b) ? (a) : (b))
static uint32_t list[LARGER(BLISS_DRAW_ENTRIES(MOST_ATTEMPTS), BLISS_RESPOND_ENTRIES(MOST_DEGREE, MOST_POSITIONS))];
#undef LARGER

#endif
