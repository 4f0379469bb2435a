/* Reads whole numbers, one a line, and writes each with its bliss_exponential, a pair to a line. */
#include "bliss_box.h"

#include <inttypes.h>
#include <stdio.h>

int main(void)
{
    uint64_t n;

    while (scanf("%" SCNu64, &n) == 1)
        printf("%" PRIu64 " %" PRIu64 "\n", n, bliss_exponential(n));
    return !feof(stdin) || fflush(stdout) != 0;
}
