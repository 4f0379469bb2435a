/* Measures the stack that calls take, at the largest degree. Each runs on a stack of its own that is filled with a pattern, and
 * how deep the pattern is overwritten must be within the header's BLISS_STACK_BYTES, or BLISS_CHECK_KEY_STACK_BYTES for a key
 * check. The frame of the function that makes the call is measured with it. What a key check leaves there must be gone once it is
 * overwritten as hosts/c/example.c does.
 *
 * Link it statically: a dynamic linker that looks memset up at its first call takes stack of its own. */
#define _XOPEN_SOURCE 700
#define _DEFAULT_SOURCE /* for explicit_bzero */
#include "../constant_time/draws.h"
#include "../constant_time/key_checks.h"
#include "../constant_time/responses.h"
#include "bliss_box.h"

#include <stdio.h>
#include <string.h>
#include <ucontext.h>

enum { SIZE = 1 << 20, PATTERN = 0xa5 };

static unsigned char stack[SIZE];
static bool as_chosen = true;

/* What the calls make. */
static struct draw draw;
static size_t accepted;
static struct response response;
static struct key_check key_check;

static void make_draw(void)
{
    as_chosen &= draw_is_chosen(draw, accepted, made_draw(draw));
}

static void make_refused_draw(void)
{
    as_chosen &= made_draw(draw).answer.refusal == BLISS_REFUSED_LIMIT;
}

static void make_response(void)
{
    as_chosen &= response_is_chosen(response, made_response(response));
}

static void make_key_check(void)
{
    as_chosen &= key_check_is_chosen(key_check, made_key_check(key_check));
}

__attribute__((noinline)) static void wipe_stack(void)
{
    unsigned char left[BLISS_CHECK_KEY_STACK_BYTES];

    explicit_bzero(left, sizeof left);
}

static void make_key_check_and_wipe(void)
{
    make_key_check();
    wipe_stack();
}

/* The longest record: all values are of the largest size. */
static struct {
    uint32_t challenge[64];
    int32_t z[1024];
    uint8_t bytes[BLISS_RECORD_BYTES(1024, 64)];
} record;

static void prepare_record(void)
{
    for (size_t i = 0; i < 64; i++)
        record.challenge[i] = (uint32_t)i;
    for (size_t i = 0; i < 1024; i++)
        record.z[i] = i % 2 == 0 ? BLISS_VALUE_LIMIT : -BLISS_VALUE_LIMIT;
}

static bliss_written written_record(size_t length)
{
    bliss_fields all = {true, true, true};

    return bliss_write_record(1024, all, record.challenge, 64, record.z, 1024, record.z, 1024, record.bytes, length);
}

static bliss_contents read_record(size_t length)
{
    static uint32_t challenge[64];
    static int32_t z1[1024], z2[1024];

    return bliss_read_record(record.bytes, length, challenge, 64, z1, 1024, z2, 1024);
}

static void write_record(void)
{
    as_chosen &= written_record(sizeof record.bytes).length == sizeof record.bytes;
}

static void write_refused_record(void)
{
    as_chosen &= written_record(sizeof record.bytes - 1).refusal == BLISS_REFUSED_OUTPUT;
}

static void read_whole_record(void)
{
    as_chosen &= read_record(sizeof record.bytes).map == 7;
}

static void read_refused_record(void)
{
    as_chosen &= read_record(sizeof record.bytes - 1).refusal == BLISS_REFUSED_RECORD;
}

static void make_other_calls(void)
{
    as_chosen &= bliss_version() == BLISS_BOX_VERSION;
    as_chosen &= bliss_open(1024, 215).refusal == BLISS_SERVED;
    as_chosen &= bliss_open(1023, 215).refusal == BLISS_REFUSED_DEGREE;
    as_chosen &= bliss_open(1024, 216).refusal == BLISS_REFUSED_DEVIATION;
    as_chosen &= bliss_filled(list, 1, 1) == 1;
    as_chosen &= bliss_packed_length(BLISS_VALUE_LIMIT) == 34;
    as_chosen &= bliss_packed_length(UINT32_MAX) == 0;
    as_chosen &= bliss_exponential(0) == one;
    as_chosen &= bliss_exponential(UINT64_MAX) == BLISS_EXPONENTIAL_REFUSED;
}

/* Makes a call on a stack that is all pattern before. */
static void run(void (*call)(void))
{
    static ucontext_t here, there;

    memset(stack, PATTERN, SIZE);
    as_chosen &= getcontext(&there) == 0;
    there.uc_stack.ss_sp = stack;
    there.uc_stack.ss_size = SIZE;
    there.uc_link = &here;
    makecontext(&there, call, 0);
    as_chosen &= swapcontext(&here, &there) == 0;
}

/* How much of the stack was written, from its top, which is its end, to the deepest byte. */
static size_t written(void)
{
    size_t left = 0;

    while (left < SIZE && stack[left] == PATTERN)
        left++;
    return SIZE - left;
}

/* How many bytes of the stack are neither pattern nor 0. */
static size_t left_behind(void)
{
    size_t count = 0;

    for (size_t i = 0; i < SIZE; i++)
        count += stack[i] != PATTERN && stack[i] != 0;
    return count;
}

/* The most stack that was taken, since it was last compared with what the header states. */
static size_t most;

static void measure(const char *name, void (*call)(void))
{
    size_t bytes;

    run(call);
    bytes = written();
    printf("%s: %zu bytes of stack\n", name, bytes);
    most = bytes > most ? bytes : most;
}

static void measure_draw(const char *name, struct draw chosen)
{
    draw = chosen;
    accepted = prepare_draw(draw);
    measure(name, make_draw);
}

static void measure_response(const char *name, size_t positions, uint64_t bit, uint32_t refusal)
{
    response = (struct response){1024, positions, bit, refusal, 0};
    prepare_response(response);
    measure(name, make_response);
}

static void measure_key_check(const char *name, struct key_check chosen)
{
    key_check = chosen;
    prepare_key_check(key_check);
    measure(name, make_key_check);
}

static bool is_within(const char *calls, size_t stated)
{
    bool within = most <= stated;

    printf("%s: %zu bytes of stack at most, and the header states %zu\n", calls, most, stated);
    most = 0;
    return within;
}

/* Whether a key check leaves something, and nothing once it is overwritten but return addresses and registers of the frames. */
static bool is_wiped(void)
{
    enum { FRAMES = 64 };
    size_t before, after;

    run(make_key_check);
    before = left_behind();
    run(make_key_check_and_wipe);
    after = left_behind();
    printf("key check: %zu bytes left on the stack, and %zu once they are overwritten\n", before, after);
    return before > FRAMES && after <= FRAMES;
}

int main(void)
{
    bool within, wiped;

    seed_secrets("1");
    measure_draw("draw at 107, full", (struct draw){1024, 107, 2304, 2048, 15, 0});
    measure_draw("draw, full", (struct draw){1024, 215, 2304, 2048, 15, 0});
    measure_draw("draw, spent", (struct draw){1024, 215, 2048, 2047, 11, 0});
    draw.limit = 2047;
    measure("draw, refused", make_refused_draw);
    measure_response("response, accepted", 64, 1, BLISS_SERVED);
    measure_response("response, rejected", 64, 0, BLISS_SERVED);
    measure_response("blank response, accepted", 0, 1, BLISS_SERVED);
    measure_response("blank response, rejected", 0, 0, BLISS_SERVED);
    measure_response("response, refusal 9", 64, 0, BLISS_REFUSED_NOT_DRAWN);
    measure_response("response, refusal 10", 64, 0, BLISS_REFUSED_KEY);
    measure_response("response, refusal 11", 64, 0, BLISS_REFUSED_Y);
    prepare_record();
    measure("record written", write_record);
    measure("record written, refusal 14", write_refused_record);
    measure("record read", read_whole_record);
    measure("record read, refusal 15", read_refused_record);
    measure("other calls", make_other_calls);
    within = is_within("calls but the key check", BLISS_STACK_BYTES);
    measure_key_check("key check, passed", (struct key_check){1024, 64, BLISS_SERVED, 1, 2});
    measure_key_check("key check, refusal 10", (struct key_check){1024, 64, BLISS_REFUSED_KEY, 7, 0});
    measure_key_check("key check, refusal 13", (struct key_check){1024, 64, BLISS_REFUSED_KEY_SUM, 7, 0});
    within &= is_within("key check", BLISS_CHECK_KEY_STACK_BYTES);
    wiped = is_wiped();
    if (!as_chosen)
        fprintf(stderr, "test_stack: a call did not come out as it was chosen\n");
    if (!wiped)
        fprintf(stderr, "test_stack: overwriting what a key check leaves shows nothing, or leaves some of it\n");
    return !(as_chosen && within && wiped);
}
