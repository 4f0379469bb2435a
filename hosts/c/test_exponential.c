/* Compares bliss_exponential with the model: at every n that is served, and at n that are refused. */
#include "bliss_box.h"
#include "model.h"

#include <inttypes.h>
#include <stdio.h>

static unsigned long compared;

static int same(uint64_t n, uint64_t expected)
{
    uint64_t given = bliss_exponential(n);

    compared++;
    if (given != expected)
        fprintf(stderr, "bliss_exponential(%" PRIu64 ") is %" PRIu64 ", and not %" PRIu64 "\n", n, given, expected);
    return given == expected;
}

int main(void)
{
    int right = 1;

    for (uint64_t n = 0; n <= 5534960; n++)
        right &= same(n, model_exponential(n, 215));
    for (uint64_t n = 5534961; n < 5600000; n++)
        right &= same(n, UINT64_C(9223372036854775820));
    for (unsigned shift = 23; shift < 64; shift++) {
        right &= same(UINT64_C(1) << shift, UINT64_C(9223372036854775820));
        right &= same((UINT64_C(1) << shift) + 513, UINT64_C(9223372036854775820));
    }
    right &= same(UINT64_MAX, UINT64_C(9223372036854775820));
    printf("exponential: %lu values compared with the model%s\n", compared, right ? "" : ", and some differ");
    return !right;
}
