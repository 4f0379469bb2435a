/* Calls whose reads are compared with their lists: `reads box`, or a function below by its name. Says in valgrind's log, amid the
 * trace, where lent memory stands, and where each call begins and returns; writes the entries of all lists, as they are in memory.
 * Fails where a call did not come out as it was chosen: then the comparison would show nothing. */
#include "bliss_box.h"
#include "draws.h"
#include "responses.h"
#include "secrets.h"

#include <stdio.h>
#include <string.h>
#include <valgrind/valgrind.h>

/* Lent memory goes by the kind of its entries. The list has none. */
enum { LIST = 0 };

static bool as_chosen = true;

#define SHOW_LENT(kind, memory) \
    VALGRIND_PRINTF("lent %d %lu %lu %lu\n", kind, (unsigned long)(memory), sizeof(memory), sizeof *(memory))

static void show_lent(void)
{
    SHOW_LENT(LIST, list);
    SHOW_LENT(BLISS_KIND_WORD, lent.draw_words);
    SHOW_LENT(BLISS_KIND_WORD, lent.response_words);
    SHOW_LENT(BLISS_KIND_CDT, cdt);
    SHOW_LENT(BLISS_KIND_POLYNOMIAL, polynomial);
    SHOW_LENT(BLISS_KIND_KEY, lent.key);
}

static void show_list(size_t entries)
{
    VALGRIND_PRINTF("returned %lu\n", entries);
    as_chosen &= fwrite(list, sizeof *list, entries, stdout) == entries;
}

static void call_draw(struct draw draw)
{
    size_t accepted = prepare_draw(draw);
    bliss_drawn drawn;

    VALGRIND_PRINTF("call draw at degree %lu and deviation %lu, %lu of %lu samples\n", draw.n, draw.deviation, accepted,
                    BLISS_SAMPLES(draw.n));
    drawn = made_draw(draw);
    show_list(drawn.answer.entries);
    as_chosen &= draw_is_chosen(draw, accepted, drawn);
}

static void call_respond(size_t n, size_t positions, uint64_t bit)
{
    struct response r = {n, positions, bit, BLISS_SERVED, n};
    bliss_responded responded;

    prepare_response(r);
    VALGRIND_PRINTF("call respond at degree %lu, challenge of length %lu, bit %lu\n", n, positions, bit);
    responded = made_response(r);
    show_list(responded.answer.entries);
    as_chosen &= response_is_chosen(r, responded);
}

static void box(void)
{
    /* Full before the limit and with the last attempt, and spent. */
    for (size_t i = 0; i < DEVIATIONS; i++) {
        call_draw((struct draw){4, deviations[i], 128, 8, 11, 1});
        call_draw((struct draw){4, deviations[i], 8, 8, 16, 2});
        call_draw((struct draw){4, deviations[i], 20, 4, 5, 3});
        call_draw((struct draw){16, deviations[i], 64, 32, 11, 4});
        call_draw((struct draw){16, deviations[i], 64, 31, 11, 5});
    }
    call_draw((struct draw){1024, 215, 2304, 2048, 15, 6});
    /* A challenge of length 0 makes a blank response: its key is checked, and from the first entry on not read. */
    for (uint64_t bit = 0; bit < 2; bit++) {
        call_respond(4, 0, bit);
        call_respond(16, 0, bit);
        call_respond(1024, 0, bit);
        call_respond(4, 1, bit);
        call_respond(4, 4, bit);
        call_respond(16, 1, bit);
        call_respond(16, 16, bit);
        call_respond(64, 64, bit);
        call_respond(1024, 1, bit);
    }
}

/* What the box must not do: functions that list the CDT table, and but for the first read otherwise. Each access is volatile, so
 * that the compiler keeps it, and keeps it where it stands. */
static size_t entries;

static void lists(size_t place)
{
    *(volatile uint32_t *)&list[entries++] = BLISS_ENTRY(BLISS_KIND_CDT, place);
}

static void reads(size_t place)
{
    (void)*(const volatile uint64_t *)&cdt[place];
}

static void as_listed(void)
{
    for (size_t i = 0; i < BLISS_CDT_WORDS; i++) {
        lists(i);
        reads(i);
    }
}

static void out_of_order(void)
{
    for (size_t i = 0; i < BLISS_CDT_WORDS; i++) {
        lists(i);
        reads(i ^ 1);
    }
}

/* High and low word of one threshold after the other. */
static void by_thresholds(void)
{
    for (size_t i = 0; i < BLISS_CDT_WORDS; i++) {
        lists(i);
        reads(i % 2 * THRESHOLDS + i / 2);
    }
}

static void low_words_first(void)
{
    for (size_t i = 0; i < BLISS_CDT_WORDS; i++) {
        lists(i);
        reads((i + THRESHOLDS) % BLISS_CDT_WORDS);
    }
}

/* The high words are not held: each is read again where its low word comes. */
static void high_words_again(void)
{
    for (size_t i = 0; i < BLISS_CDT_WORDS; i++) {
        lists(i);
        if (i >= THRESHOLDS)
            reads(i - THRESHOLDS);
        reads(i);
    }
}

static void low_word_left_out(void)
{
    for (size_t i = 0; i < BLISS_CDT_WORDS; i++) {
        lists(i);
        if (i != THRESHOLDS)
            reads(i);
    }
}

static void twice(void)
{
    as_listed();
    reads(BLISS_CDT_WORDS - 1);
}

static void not_listed(void)
{
    lists(0);
    reads(0);
    reads(1);
}

static void not_read(void)
{
    as_listed();
    lists(0);
}

/* No check looks at words, so a read of one must be listed, also where the list has not started. */
static void too_early(void)
{
    (void)*(volatile uint64_t *)&lent.draw_words[0];
    as_listed();
}

/* One load for two entries. */
static void in_pairs(void)
{
    typedef uint64_t pair __attribute__((vector_size(16), aligned(8)));

    for (size_t i = 0; i < BLISS_CDT_WORDS; i += 2) {
        lists(i);
        lists(i + 1);
        (void)*(const volatile pair *)&cdt[i];
    }
}

static const struct function {
    const char *name;
    void (*run)(void);
} functions[] = {
    {"as_listed", as_listed},
    {"out_of_order", out_of_order},
    {"by_thresholds", by_thresholds},
    {"low_words_first", low_words_first},
    {"high_words_again", high_words_again},
    {"low_word_left_out", low_word_left_out},
    {"twice", twice},
    {"not_listed", not_listed},
    {"not_read", not_read},
    {"too_early", too_early},
    {"in_pairs", in_pairs},
};

int main(int argc, char **argv)
{
    if (argc != 2)
        return 2;
    seed_secrets("1");
    show_lent();
    if (strcmp(argv[1], "box") == 0)
        box();
    for (size_t i = 0; i < sizeof functions / sizeof *functions; i++)
        if (strcmp(argv[1], functions[i].name) == 0) {
            VALGRIND_PRINTF("call %s\n", functions[i].name);
            functions[i].run();
            show_list(entries);
        }
    return as_chosen ? 0 : 1;
}
