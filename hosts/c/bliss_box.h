/* The BLISS-I sampling box, for a host in C (C99 on) or C++ (C++11 on). Link libbliss_box.a, which `scripts/archive` proves
 * and writes to target/staticlib; once ./install has put both in their places, pkg-config knows them as bliss_box.
 *
 * Layouts may change with any version: build header and archive from one version, and compare bliss_version() with
 * BLISS_BOX_VERSION at the host's start.
 *
 * A call takes any numbers and any contents, keeps no state of its own, uses no heap and at most BLISS_STACK_BYTES of stack, a key
 * check at most BLISS_CHECK_KEY_STACK_BYTES, and always returns. A call that can't be served gives the number of the first refusal
 * that applies, and leaves all memory and the session as they were.
 *
 * The host must guarantee what the types say, and no compiler sees: each pointer is aligned and valid for its length, for writing
 * too where it is not const; none is null, also with a length of 0; a buffer that is written overlaps no other; each bool of
 * bliss_fields is 0 or 1. docs/HOST-GUIDE.md says more.
 *
 * Calls may run at the same time in any threads, as long as no buffer that one of them writes is used by another: nothing else is
 * shared, and a session is a value.
 *
 * What calls have in common comes first. Then each call has a section: its lengths and tables, its answer, the call itself and its
 * tests against faults. What stands under Time, and the size of the stack, is tested on the archive, and not proved.
 *
 * The calls are proved as they are written; a source of words that fails unnoticed, a machine that skips an instruction and a host
 * that hands on the wrong buffer are outside of the proof. So a host makes the tests against faults after each call. Where one
 * finds a fault, the host neither uses the noise nor publishes the response. */
#ifndef BLISS_BOX_H
#define BLISS_BOX_H

#include <stdbool.h>
#include <stddef.h>
#include <stdint.h>

#ifdef __cplusplus
extern "C" {
#endif

/* ==== Common to all calls ================================================================================================= */

/* gcc and clang warn of a result that is not used, and of a null pointer. */
#ifdef __GNUC__
#define BLISS_MUST_USE __attribute__((warn_unused_result))
#define BLISS_NONNULL __attribute__((nonnull))
#else
#define BLISS_MUST_USE
#define BLISS_NONNULL
#endif

/* A cast that C++ does not call an old one. */
#ifdef __cplusplus
#define BLISS_CAST(type, value) static_cast<type>(value)
#else
#define BLISS_CAST(type, value) ((type)(value))
#endif

/* A claim about the layout that the archive has, on x86-64. A false claim makes an array of length -1, which no compiler takes:
 * C99 has no static assertions. */
#define BLISS_LAYOUT(name, claim) typedef char bliss_layout_of_##name[(claim) ? 1 : -1]

/* The version of this header, 10000 * major + 100 * minor + patch: 0.10.0. */
#define BLISS_BOX_VERSION 1000

/* The version of the archive, by the same rule. A host compares it with BLISS_BOX_VERSION at its start, before any other call,
 * and ends where they differ: a session travels by value, and an archive of another version may take its bytes for something
 * else. This declaration never changes. */
BLISS_MUST_USE
uint32_t bliss_version(void);

/* The most stack that a call takes, in bytes; the key check has a number of its own. A dynamic linker that looks memset up at its
 * first call takes more, that one time; one that has been told to look it up at the start (-Wl,-z,now) does not. */
#define BLISS_STACK_BYTES 1024

/* Refusals. 0 is a call that is served. */
enum {
    BLISS_SERVED = 0,
    BLISS_REFUSED_DEGREE = 1,      /* the degree is not a power of two from 4 to 1024 */
    BLISS_REFUSED_LENGTHS = 2,     /* the CDT is not 20 words, the polynomial table not 21, y, z or the key not 2n, or z1 or z2 of
                                      a record not n */
    BLISS_REFUSED_CDT = 3,         /* a CDT word is 2^62 or more, or a threshold is below the one before */
    BLISS_REFUSED_POLYNOMIAL = 4,  /* an entry of the polynomial table is not the whole part of 2^62 / j! */
    BLISS_REFUSED_LIMIT = 5,       /* the limit is outside 2n to 32n */
    BLISS_REFUSED_CHALLENGE = 6,   /* the challenge is longer than 64 or than n, has a position of n or more, or does not ascend
                                      strictly; an empty one too, but for a response */
    BLISS_REFUSED_WORDS = 7,       /* there are fewer than 4 words for each attempt of a draw, or than 3 for a response */
    BLISS_REFUSED_LIST = 8,        /* the list is shorter than 46 entries for each attempt of a draw and 2 more, or than 2n for
                                      each position of a challenge and 47 more */
    BLISS_REFUSED_NOT_DRAWN = 9,   /* a response while nothing is drawn */
    BLISS_REFUSED_KEY = 10,        /* a value of the key is outside -7 to 7 */
    BLISS_REFUSED_Y = 11,          /* a value of y is outside -2815 to 2815 */
    BLISS_REFUSED_KEY_SUM = 13,    /* the final sum of the key check is above 46225 */
    BLISS_REFUSED_OUTPUT = 14,     /* the output is too short for the record, or for one of its fields */
    BLISS_REFUSED_RECORD = 15,     /* a value to be recorded is outside -3263 to 3263, or the bytes are no record */
    BLISS_REFUSED_DEVIATION = 16,  /* the deviation, asked for or held by the session, is not 107, 215, 250 or 271 */
    BLISS_REFUSED_RESPONSE_DEVIATION = 17
                                   /* a response at another deviation than 215 */
};

/* A degree, the deviation of the noise, and whether y is drawn. Each call takes a session and hands back the next one, of the same
 * degree and deviation: use that one from then on. A call takes any numbers here too. */
typedef struct {
    size_t degree;
    uint64_t deviation;
    uint64_t drawn; /* 1: y is drawn; any other number: it is not */
} bliss_session;
BLISS_LAYOUT(session, sizeof(bliss_session) == 24 && offsetof(bliss_session, deviation) == 8 &&
                          offsetof(bliss_session, drawn) == 16);

/* The length of y, of z and of the key, at degree n. */
#define BLISS_SAMPLES(n) (2 * BLISS_CAST(size_t, n))

/* The polynomial table: entry j is the whole part of 2^62 / j!. */
#define BLISS_POLYNOMIAL_WORDS 21
#define BLISS_POLYNOMIAL                                                                                                  \
    {                                                                                                                     \
        UINT64_C(4611686018427387904), UINT64_C(4611686018427387904), UINT64_C(2305843009213693952),                      \
            UINT64_C(768614336404564650), UINT64_C(192153584101141162), UINT64_C(38430716820228232),                      \
            UINT64_C(6405119470038038), UINT64_C(915017067148291), UINT64_C(114377133393536), UINT64_C(12708570377059),   \
            UINT64_C(1270857037705), UINT64_C(115532457973), UINT64_C(9627704831), UINT64_C(740592679),                   \
            UINT64_C(52899477), UINT64_C(3526631), UINT64_C(220414), UINT64_C(12965), UINT64_C(720), UINT64_C(37),        \
            UINT64_C(1)                                                                                                   \
    }

/* ==== Read lists ========================================================================================================== */

/* The kinds of entries in a read list, by what the place of an entry is. */
enum {
    BLISS_KIND_DRAW = 1,            /* the degree of a draw: its first entry */
    BLISS_KIND_WORD = 2,            /* the place of a word that is read */
    BLISS_KIND_CDT = 3,             /* the place of a CDT word that is read */
    BLISS_KIND_POLYNOMIAL = 4,      /* the place of an entry of the polynomial table that is read */
    BLISS_KIND_ACCEPTED_BEFORE = 5, /* the samples accepted before an attempt: its last entry */
    BLISS_KIND_ACCEPTED = 6,        /* the samples accepted in all: a draw's last entry */
    BLISS_KIND_RESPONSE = 7,        /* the degree of a response: its first entry */
    BLISS_KIND_KEY = 8,             /* the place of a key value that is read */
    BLISS_KIND_BIT = 9              /* the bit of a response: its last entry */
};

/* An entry is kind * 2^24 + place. */
#define BLISS_ENTRY(kind, place) (BLISS_CAST(uint32_t, kind) << 24 | BLISS_CAST(uint32_t, place))
#define BLISS_ENTRY_KIND(entry) (BLISS_CAST(uint32_t, entry) >> 24)
#define BLISS_ENTRY_PLACE(entry) (BLISS_CAST(uint32_t, entry) & 0xffffff)

/* Whether an entry has this kind and this place. */
BLISS_MUST_USE
static inline bool bliss_entry_is(uint32_t entry, uint32_t kind, size_t place)
{
    return BLISS_ENTRY_KIND(entry) == kind && BLISS_ENTRY_PLACE(entry) == place;
}

/* The length of the filled part of a list, for the count of entries of an answer. The part starts where the list starts.
 * Gives: the count; 0 where it is over the list's length. */
BLISS_MUST_USE BLISS_NONNULL
size_t bliss_filled(const uint32_t *list, size_t list_length, size_t count);

/* ==== Open ================================================================================================================ */

typedef struct {
    uint32_t refusal;
    bliss_session session;
} bliss_opened;
BLISS_LAYOUT(opened, sizeof(bliss_opened) == 32 && offsetof(bliss_opened, session) == 8);

/* Opens a session of degree n, for noise of a deviation: 107, 215, 250 or 271. BLISS-I's is 215.
 * Gives:   a session with nothing drawn; refused, one of degree 0 and deviation 0.
 * Refuses: 1, 16, in this order. */
BLISS_MUST_USE
bliss_opened bliss_open(size_t n, uint64_t deviation);

/* ==== Draw ================================================================================================================ */

/* A limit of attempts for degree n and one of the four deviations: with the deviation's CDT table a draw of so many is spent with a
 * chance of at most 2^-64, at every degree. At 107 more attempts are rejected than at the others. */
#define BLISS_DRAW_LIMIT(n, deviation) \
    ((deviation) < 215 ? 6 * BLISS_CAST(size_t, n) + 88 : 4 * BLISS_CAST(size_t, n) + 56)

/* The lengths of words and list that a draw asks for, with a limit of attempts. */
#define BLISS_DRAW_WORDS(limit) (4 * BLISS_CAST(size_t, limit))
#define BLISS_DRAW_ENTRIES(limit) (46 * BLISS_CAST(size_t, limit) + 2)

/* The CDT tables for the four deviations: the high words of ten thresholds, and then their ten low words. Threshold i,
 * high * 2^62 + low, is the nearest whole number to 2^124 times the chance that the base sample is below i, where j has the weight
 * exp(-65536 j^2 / (2 * deviation^2)), j = 0 to 10; and at most 2^124 - 1, the most that a table can hold. A draw can't know for
 * which deviation a table was made: lend it the one of the session's. */
#define BLISS_CDT_WORDS 20
#define BLISS_CDT_107                                                             \
    {                                                                             \
        UINT64_C(4362334117998305760), UINT64_C(4611639484469154925),             \
            UINT64_C(4611686018399019608), UINT64_C(4611686018427387903),         \
            UINT64_C(4611686018427387903), UINT64_C(4611686018427387903),         \
            UINT64_C(4611686018427387903), UINT64_C(4611686018427387903),         \
            UINT64_C(4611686018427387903), UINT64_C(4611686018427387903),         \
            UINT64_C(4459253979531052748), UINT64_C(341877689026041016),          \
            UINT64_C(3482958706539764376), UINT64_C(4351201523473180849),         \
            UINT64_C(4611686018425693971), UINT64_C(4611686018427387903),         \
            UINT64_C(4611686018427387903), UINT64_C(4611686018427387903),         \
            UINT64_C(4611686018427387903), UINT64_C(4611686018427387903)          \
    }
#define BLISS_CDT_215                                                             \
    {                                                                             \
        UINT64_C(2970318119077987601), UINT64_C(4432293587828485953),             \
            UINT64_C(4606615286148199816), UINT64_C(4611650721831976652),         \
            UINT64_C(4611685958667561403), UINT64_C(4611686018402853103),         \
            UINT64_C(4611686018427385463), UINT64_C(4611686018427387903),         \
            UINT64_C(4611686018427387903), UINT64_C(4611686018427387903),         \
            UINT64_C(139537425007862173), UINT64_C(2218333992557025118),          \
            UINT64_C(2870311867292663647), UINT64_C(3044458817194566665),         \
            UINT64_C(456626370962175178), UINT64_C(3423392530604428891),          \
            UINT64_C(918063073876867824), UINT64_C(4340391528176902920),          \
            UINT64_C(4611684434372927295), UINT64_C(4611686018425147250)          \
    }
#define BLISS_CDT_250                                                             \
    {                                                                             \
        UINT64_C(2675085605605972179), UINT64_C(4258673959350441631),             \
            UINT64_C(4587189669578005161), UINT64_C(4611072138238256055),         \
            UINT64_C(4611680569498353447), UINT64_C(4611686001414427737),         \
            UINT64_C(4611686018408748558), UINT64_C(4611686018427380744),         \
            UINT64_C(4611686018427387903), UINT64_C(4611686018427387903),         \
            UINT64_C(957117754528701170), UINT64_C(724612935823953863),           \
            UINT64_C(997982647608990581), UINT64_C(4224445832033440418),          \
            UINT64_C(3977757405515990552), UINT64_C(4054080003283946421),         \
            UINT64_C(3140065669762998680), UINT64_C(1636595794121743658),         \
            UINT64_C(166482033584069584), UINT64_C(4611476289235807308)           \
    }
#define BLISS_CDT_271                                                             \
    {                                                                             \
        UINT64_C(2524529751101998032), UINT64_C(4140399764830615248),             \
            UINT64_C(4564124880824976219), UINT64_C(4609646096313030979),         \
            UINT64_C(4611649624005570070), UINT64_C(4611685750739980131),         \
            UINT64_C(4611686017618684231), UINT64_C(4611686018426385920),         \
            UINT64_C(4611686018427387395), UINT64_C(4611686018427387903),         \
            UINT64_C(3204779551084325017), UINT64_C(3319086818929260536),         \
            UINT64_C(470140555163569302), UINT64_C(1285599737452868265),          \
            UINT64_C(4139614732298831022), UINT64_C(173583279901606865),          \
            UINT64_C(3301493546787991521), UINT64_C(2850465363819686751),         \
            UINT64_C(792812352446800470), UINT64_C(4123446333076847937)           \
    }

/* What a draw counted; all 0 where it is refused. */
typedef struct {
    uint32_t refusal;
    size_t attempts;
    size_t accepted; /* 2n if the draw is full, fewer if it is spent */
    size_t entries;  /* written from the start of the list */
} bliss_draw_answer;
BLISS_LAYOUT(draw_answer, sizeof(bliss_draw_answer) == 32 && offsetof(bliss_draw_answer, attempts) == 8 &&
                              offsetof(bliss_draw_answer, accepted) == 16 && offsetof(bliss_draw_answer, entries) == 24);

typedef struct {
    bliss_draw_answer answer;
    bliss_session session;
} bliss_drawn;
BLISS_LAYOUT(drawn, sizeof(bliss_drawn) == 56 && offsetof(bliss_drawn, session) == 32);

/* Draws 2n samples of Gaussian noise into y.
 * Needs:   y and list writable, and apart from each other and from the rest.
 * Gives:   full, as soon as 2n samples are accepted: y has them in the order of acceptance, and the next session is drawn; or
 *          spent, after `limit` attempts with fewer: y is all zero, and the next session is not drawn. After the checks, each
 *          read of cdt, polynomial and words is listed from the start of the list; bliss_filled gives the filled part.
 * Refuses: 1, 16, 2, 3, 4, 5, 7, 8, in this order.
 * Leaves:  the list behind the entries, the tables and the words; refused, everything.
 * Time:    no jump and no address depends on a word or a sample, except by the accept bits of the attempts, which the list
 *          shows.
 * The words must be fresh random words, used for this draw alone. */
BLISS_MUST_USE BLISS_NONNULL
bliss_drawn bliss_draw(bliss_session session, size_t limit,                  //
                       const uint64_t *cdt, size_t cdt_length,               //
                       const uint64_t *polynomial, size_t polynomial_length, //
                       const uint64_t *words, size_t words_length,           //
                       int32_t *y, size_t y_length,                          //
                       uint32_t *list, size_t list_length);

/* Whether the noise is all zero, after a draw that is full. A response would then be the product of key and challenge alone, and
 * some of those give the key away. All values are joined before the one test, so that no jump depends on a single value. */
BLISS_MUST_USE BLISS_NONNULL
static inline bool bliss_noise_is_zero(const int32_t *y, size_t y_length)
{
    int32_t joined = 0;

    for (size_t i = 0; i < y_length; i++)
        joined |= y[i];
    return joined == 0;
}

/* Whether the list of a draw at degree n fits its answer: in the number of its entries, and in the first and the last of them.
 * Gives: false where the draw is refused. Nothing behind the list's length is read, whatever the answer says. */
BLISS_MUST_USE BLISS_NONNULL
static inline bool bliss_draw_fits(bliss_draw_answer answer, size_t n, const uint32_t *list, size_t list_length)
{
    size_t filled = bliss_filled(list, list_length, answer.entries);

    /* There are fewer attempts than entries; of more, the number of entries could be above 2^64, and cut off. */
    return answer.attempts < filled && filled == BLISS_DRAW_ENTRIES(answer.attempts) &&
           bliss_entry_is(list[0], BLISS_KIND_DRAW, n) &&
           bliss_entry_is(list[filled - 1], BLISS_KIND_ACCEPTED, answer.accepted);
}

/* ==== Respond ============================================================================================================= */

/* The most positions of a challenge, at degree n. */
#define BLISS_CHALLENGE_LIMIT(n) (BLISS_CAST(size_t, n) < 64 ? BLISS_CAST(size_t, n) : BLISS_CAST(size_t, 64))

/* The lengths of words and list that a response asks for, at degree n with a challenge of so many positions. */
#define BLISS_RESPOND_WORDS 3
#define BLISS_RESPOND_ENTRIES(n, positions) (2 * BLISS_CAST(size_t, n) * BLISS_CAST(size_t, positions) + 47)

/* The largest size of a value of z1, the first n values of z, where the bit is true: BLISS-I's verification takes no larger. */
#define BLISS_COEFFICIENT_LIMIT 2100

/* What a response came to; refused, the bit is false and the count 0. */
typedef struct {
    uint32_t refusal;
    bool bit;       /* true: z is the response; false: it is rejected */
    size_t entries; /* written from the start of the list */
} bliss_respond_answer;
BLISS_LAYOUT(respond_answer, sizeof(bliss_respond_answer) == 16 && offsetof(bliss_respond_answer, bit) == 4 &&
                                 offsetof(bliss_respond_answer, entries) == 8);

typedef struct {
    bliss_respond_answer answer;
    bliss_session session;
} bliss_responded;
BLISS_LAYOUT(responded, sizeof(bliss_responded) == 40 && offsetof(bliss_responded, session) == 16);

/* Turns the noise y, a key and a challenge into a response z, or into a rejection.
 * Needs:   y, z and list writable, and apart from each other and from the rest: z must not overlap y. The key is s1 and then s2,
 *          the challenge its positions in ascending order.
 * Gives:   bit true: z is y plus or minus the product of key and challenge modulo X^n + 1, and each of its first n values is from
 *          -BLISS_COEFFICIENT_LIMIT to BLISS_COEFFICIENT_LIMIT; the second half is not tested: the host rounds it, and tests it
 *          itself. Or bit false, a rejection: z is all zero. Either way y is all zero and the next session is not drawn, so that
 *          the noise is used once: a rejection wants a new draw. After the checks, each read of the key, the words and the
 *          polynomial is listed from the start of the list, and last the bit; bliss_filled gives the filled part.
 * Blank:   an empty challenge, of length 0, is served, for bench work. Its product is zero: bit true hands the noise back, z being
 *          what y was, and no read of the key is listed. The key must be a key all the same. A signer tests the length of its
 *          challenge before this call, so that a hash that failed hands no noise out.
 * Refuses: 1, 16, 17, 2, 4, 6, 7, 8, 9, 10, 11, in this order. The tests of a response are those of BLISS-I, whose deviation is
 *          215: at another one there is none.
 * Leaves:  the list behind the entries, the challenge, the polynomial, the words and the key; refused, everything.
 * Time:    no jump and no address depends on words, key, y or z, except by the response's bit, which the list shows, and by
 *          refusals 10 and 11. The challenge shows, that of a rejection too.
 * The words must be fresh random words, used for this response alone. */
BLISS_MUST_USE BLISS_NONNULL
bliss_responded bliss_respond(bliss_session session,                                //
                              const uint32_t *challenge, size_t challenge_length,   //
                              const uint64_t *polynomial, size_t polynomial_length, //
                              const uint64_t *words, size_t words_length,           //
                              const int32_t *key, size_t key_length,                //
                              int32_t *y, size_t y_length,                          //
                              int32_t *z, size_t z_length,                          //
                              uint32_t *list, size_t list_length);

/* Whether the list of a response at degree n to a challenge of so many positions fits its answer: in the number of its entries,
 * and in the first and the last of them.
 * Gives: false where the response is refused. Nothing behind the list's length is read, whatever the answer says. */
BLISS_MUST_USE BLISS_NONNULL
static inline bool bliss_respond_fits(bliss_respond_answer answer, size_t n, size_t positions, const uint32_t *list,
                                      size_t list_length)
{
    size_t filled = bliss_filled(list, list_length, answer.entries);

    return filled > 0 && filled == BLISS_RESPOND_ENTRIES(n, positions) &&
           bliss_entry_is(list[0], BLISS_KIND_RESPONSE, n) &&
           bliss_entry_is(list[filled - 1], BLISS_KIND_BIT, answer.bit);
}

/* ==== Key check =========================================================================================================== */

/* The most that the final sum of a key may be. A response is rejected where A, the sum of squares of the product of key and
 * challenge, is larger. */
#define BLISS_KEY_SUM_LIMIT 46225

/* The most stack that the key check takes, in bytes: it holds a row of 1024 inner products, and the sums of as many rows. */
#define BLISS_CHECK_KEY_STACK_BYTES 10240

typedef struct {
    uint32_t refusal;
    uint32_t sum; /* 0 where the key is refused */
} bliss_key_check;
BLISS_LAYOUT(key_check, sizeof(bliss_key_check) == 8 && offsetof(bliss_key_check, sum) == 4);

/* Checks, before a key goes into a box, whether it can always sign at one challenge length.
 * Needs:   the key is s1 and then s2.
 * Gives:   the key's final sum, at most BLISS_KEY_SUM_LIMIT: no challenge of just this length has an A above that limit, so that
 *          no response to one is rejected for A. It says nothing of challenges of other lengths.
 *          The final sum is taken from the table of inner products of the key's n rotations, where rotation j is both halves
 *          times X^j modulo X^n + 1, as one vector: of each row the largest entries are summed, with their signs, as many as the
 *          challenge is long, and then as many of the largest of these sums.
 * Refuses: 1, 2, 6, 10, 13, in this order: 6 for a length outside 1 to 64 or above n, 13 for a final sum above the limit. With 13
 *          some challenge of this length may never be answered: make another key.
 * Leaves:  everything. Inner products of the key stay on the stack, which is the host's to overwrite.
 * Time:    no jump and no address depends on the key, except by refusals 10 and 13.
 * The sum tells something of the key, and is the host's to keep. */
BLISS_MUST_USE BLISS_NONNULL
bliss_key_check bliss_check_key(size_t n, const int32_t *key, size_t key_length, size_t challenge_length);

/* ==== Records ============================================================================================================= */

/* A record is a signature as bytes, with the fields that the host wants of it: the challenge, z1, which is the first half of a
 * response, and z2, the second, as the host has it, rounded or not. Fields that can be written have just one record, and bytes
 * that can be read are the record of just one choice of fields: equal signatures are stored as equal bytes, and the other way
 * round. All of it is public, and the calls take a time that depends on it. */

/* The largest size of a value of z1 and of z2 in a record. Each value of a response is within it. */
#define BLISS_VALUE_LIMIT 3263

/* The most bytes of a record of degree n: with a challenge of so many positions, z1 and z2, at 34 bits a value. */
#define BLISS_RECORD_BYTES(n, positions) \
    (4 + 2 * BLISS_CAST(size_t, positions) + (68 * BLISS_CAST(size_t, n) + 7) / 8)

/* Which fields a record is to have. */
typedef struct {
    bool challenge;
    bool z1;
    bool z2;
} bliss_fields;
BLISS_LAYOUT(fields, sizeof(bliss_fields) == 3 && offsetof(bliss_fields, z1) == 1 && offsetof(bliss_fields, z2) == 2);

typedef struct {
    uint32_t refusal;
    size_t length; /* written from the start of the output; 0 where the call is refused */
} bliss_written;
BLISS_LAYOUT(written, sizeof(bliss_written) == 16 && offsetof(bliss_written, length) == 8);

/* Writes the record of the fields that are told.
 * Needs:   out writable, and apart from the rest. The challenge is its positions in ascending order. A field that is not told is
 *          not looked at: it may have any length and any contents.
 * Gives:   the record, from the start of out, and its length in bytes, which is at most
 *          BLISS_RECORD_BYTES(n, challenge_length). It starts with a byte of 1 for the challenge, 2 for z1 and 4 for z2, added up,
 *          and with n in two bytes, the high one first.
 * Refuses: 1, 2, 6, 15, 14, in this order: 2 for a z1 or a z2 that is not n values, 6 for the challenge, 15 for a value of z1 or
 *          z2 outside -BLISS_VALUE_LIMIT to BLISS_VALUE_LIMIT, and 14 for an out that is too short, each for what is told alone.
 * Leaves:  out behind the record, and the fields; refused, everything. */
BLISS_MUST_USE BLISS_NONNULL
bliss_written bliss_write_record(size_t n, bliss_fields fields,                      //
                                 const uint32_t *challenge, size_t challenge_length, //
                                 const int32_t *z1, size_t z1_length,                //
                                 const int32_t *z2, size_t z2_length,                //
                                 uint8_t *out, size_t out_length);

/* What a record has; where the call is refused, all 0 but the refusal. */
typedef struct {
    uint32_t refusal;
    uint32_t map;     /* 1 for the challenge, 2 for z1 and 4 for z2, added up */
    size_t degree;
    size_t positions; /* of the challenge; 0 without it */
    size_t z1;        /* n, or 0 without z1 */
    size_t z2;        /* n, or 0 without z2 */
} bliss_contents;
BLISS_LAYOUT(contents, sizeof(bliss_contents) == 40 && offsetof(bliss_contents, map) == 4 &&
                           offsetof(bliss_contents, degree) == 8 && offsetof(bliss_contents, positions) == 16 &&
                           offsetof(bliss_contents, z1) == 24 && offsetof(bliss_contents, z2) == 32);

/* Reads a record.
 * Needs:   challenge, z1 and z2 writable, and apart from each other and from the bytes. Outputs of 64, 1024 and 1024 values are
 *          long enough for every record.
 * Gives:   which fields the record has, their lengths, and the degree; each of these fields from the start of its output. The
 *          output of a field that the record does not have may be too short for it.
 * Refuses: 15, 14, in this order: 15 for bytes that bliss_write_record does not give for any fields, and 14 for an output that
 *          is shorter than its field.
 * Leaves:  each output behind its field, the output of a field that the record does not have, and the bytes; refused,
 *          everything. */
BLISS_MUST_USE BLISS_NONNULL
bliss_contents bliss_read_record(const uint8_t *bytes, size_t bytes_length,    //
                                 uint32_t *challenge, size_t challenge_length, //
                                 int32_t *z1, size_t z1_length,                //
                                 int32_t *z2, size_t z2_length);

/* The packed length of a value of z1 or z2: how many bits it takes in a record, by its size, which is the value without its sign.
 * Gives:   the entry at size / 128 of the table by which records are written and read, 9 to 34, for a size from 0 to
 *          BLISS_VALUE_LIMIT; 0, which is no length, for any other.
 * Time:    jumps and addresses depend on the size, which must be that of a value that is published. */
BLISS_MUST_USE
size_t bliss_packed_length(uint32_t size);

/* ==== Exponential ========================================================================================================= */

/* The largest n that bliss_exponential serves. */
#define BLISS_EXPONENTIAL_LIMIT UINT64_C(5534960)

/* What bliss_exponential gives for a larger n: refusal 12. It is no value of e, which is at most 2^62. */
#define BLISS_EXPONENTIAL_REFUSED ((UINT64_C(1) << 63) + 12)

/* e(n) at deviation 215, near exp(-n / 92450), as a whole number of units of 2^-62: 0 to 2^62.
 * Gives:   e(n) for n from 0 to BLISS_EXPONENTIAL_LIMIT, within 960 units of the 64th power of the sum over j = 0..20 of
 *          (-n / 5916800)^j / j!.
 * Refuses: any other n, by BLISS_EXPONENTIAL_REFUSED.
 * Time:    apart from the test of the limit, no jump and no address depends on n. */
BLISS_MUST_USE
uint64_t bliss_exponential(uint64_t n);

#undef BLISS_MUST_USE
#undef BLISS_NONNULL
#undef BLISS_LAYOUT

#ifdef __cplusplus
}
#endif

#endif
