/* Prints the header's tables as a host's compiler sees them: each under its name, one word a line. */
#include "bliss_box.h"
#include <inttypes.h>
#include <stdio.h>

static void print(const char *name, const uint64_t *table, size_t length)
{
    printf("# %s\n", name);
    for (size_t i = 0; i < length; i++)
        printf("%" PRIu64 "\n", table[i]);
}

/* No length is given, so that a table has the one that the header gives it. */
#define PRINT(name)                                        \
    do {                                                   \
        static const uint64_t table[] = name;              \
        print(#name, table, sizeof table / sizeof *table); \
    } while (0)

int main(void)
{
    PRINT(BLISS_POLYNOMIAL);
    PRINT(BLISS_CDT_107);
    PRINT(BLISS_CDT_215);
    PRINT(BLISS_CDT_250);
    PRINT(BLISS_CDT_271);
    return 0;
}
