/* Records as bytes that are worked out by hand: written, read, and refused. Each buffer that is lent stands between guards, and
 * what a call must leave is compared. Then the packed length of every size. */
#include "bliss_box.h"

#include <stdio.h>
#include <string.h>

enum { DEGREE = 4, POSITIONS = 2, GUARDS = 8, ROOM = 64 };

/* The fields of the records below. 3263 is 25 * 128 + 63. */
static const uint32_t challenge[POSITIONS] = {0, 3};
static const int32_t z1[DEGREE] = {0, 1, -1, 127};
static const int32_t z2[DEGREE] = {128, -128, BLISS_VALUE_LIMIT, -BLISS_VALUE_LIMIT};

struct bytes {
    const char *name;
    size_t length;
    uint8_t bytes[ROOM];
};

/* z1 is 0 0000000 1, 0 0000001 1, 1 0000001 1 and 0 1111111 1; z2 is 0 0000000 01, 1 0000000 01, and 0 0111111 and 1 0111111,
 * each with 25 zeros and a one. So z1 is 36 bits, and z2 88. */
static const struct bytes records[] = {
    {"map 0", 3, {0, 0, 4}},
    {"map 1", 8, {1, 0, 4, 2, 0, 0, 0, 3}},
    {"map 2", 8, {2, 0, 4, 0x00, 0x80, 0xe0, 0x6f, 0xf0}},
    {"map 3", 13, {3, 0, 4, 2, 0, 0, 0, 3, 0x00, 0x80, 0xe0, 0x6f, 0xf0}},
    {"map 4", 14, {4, 0, 4, 0x00, 0x60, 0x13, 0xf0, 0x00, 0x00, 0x06, 0xfc, 0x00, 0x00, 0x01}},
    {"map 5", 19, {5, 0, 4, 2, 0, 0, 0, 3, 0x00, 0x60, 0x13, 0xf0, 0x00, 0x00, 0x06, 0xfc, 0x00, 0x00, 0x01}},
    {"map 6", 19, {6, 0, 4, 0x00, 0x80, 0xe0, 0x6f, 0xf0, 0x06, 0x01, 0x3f, 0x00, 0x00, 0x00, 0x6f, 0xc0, 0x00, 0x00, 0x10}},
    {"map 7", 24, {7,    0,    4,    2,    0,    0,    0,    3,    0x00, 0x80, 0xe0, 0x6f,
                   0xf0, 0x06, 0x01, 0x3f, 0x00, 0x00, 0x00, 0x6f, 0xc0, 0x00, 0x00, 0x10}},
};

/* Four values of 0 are 0x00, 0x80, 0x40, 0x20, 0x10. */
static const struct bytes no_records[] = {
    {"no byte", 0, {0}},
    {"half a degree, which would be 1024 with a 0 behind it", 2, {0, 4}},
    {"degree 12", 3, {0, 0, 12}},
    {"degree 4, low byte first", 8, {2, 4, 0, 0x00, 0x80, 0x40, 0x20, 0x10}},
    {"bit 3 of the map", 3, {8, 0, 4}},
    {"bit 7 of the map", 3, {128, 0, 4}},
    {"no position", 4, {1, 0, 4, 0}},
    {"equal positions", 8, {1, 0, 4, 2, 0, 1, 0, 1}},
    {"falling positions", 8, {1, 0, 4, 2, 0, 1, 0, 0}},
    {"position 4 of 4", 6, {1, 0, 4, 1, 0, 4}},
    {"position 256 of 4", 6, {1, 0, 4, 1, 1, 0}},
    {"5 positions of 4", 14, {1, 0, 4, 5, 0, 0, 0, 1, 0, 2, 0, 3, 0, 4}},
    {"minus zero", 8, {2, 0, 4, 0x80, 0x80, 0x40, 0x20, 0x10}},
    {"size 3264", 11, {2, 0, 4, 0x40, 0x00, 0x00, 0x00, 0x40, 0x20, 0x10, 0x08}},
    {"size 3264, negative", 11, {2, 0, 4, 0xc0, 0x00, 0x00, 0x00, 0x40, 0x20, 0x10, 0x08}},
    {"26 zeros", 11, {2, 0, 4, 0x00, 0x00, 0x00, 0x00, 0x20, 0x10, 0x08, 0x04}},
    {"a one at the start of the pad", 8, {2, 0, 4, 0x00, 0x80, 0x40, 0x20, 0x18}},
    {"a one at the end of the pad", 8, {2, 0, 4, 0x00, 0x80, 0x40, 0x20, 0x11}},
    {"a byte of 0 too many", 9, {2, 0, 4, 0x00, 0x80, 0x40, 0x20, 0x10, 0x00}},
    {"a byte too few", 7, {2, 0, 4, 0x00, 0x80, 0x40, 0x20}},
};

static size_t claims;
static bool right = true;

static void check(bool claim, const char *text, const char *name)
{
    claims++;
    right &= claim;
    if (!claim)
        fprintf(stderr, "test_record: %s: this is false: %s\n", name, text);
}

#define CHECK(name, claim) check(claim, #claim, name)

/* What is lent for writing, each between guards, and a copy of it as it was before a call. */
struct lent {
    uint8_t out[GUARDS + ROOM + GUARDS];
    uint32_t challenge[GUARDS + ROOM + GUARDS];
    int32_t z1[GUARDS + ROOM + GUARDS];
    int32_t z2[GUARDS + ROOM + GUARDS];
};
static struct lent lent, before;

/* Fills all of it with values that differ from their neighbours. */
static void prepare(void)
{
    for (size_t i = 0; i < sizeof lent.out; i++) {
        lent.out[i] = (uint8_t)(3 * i + 1);
        lent.challenge[i] = (uint32_t)(1000000 + i);
        lent.z1[i] = (int32_t)(-1000000 - 2 * (int32_t)i);
        lent.z2[i] = (int32_t)(2000000 + 3 * (int32_t)i);
    }
    before = lent;
}

/* The fields of a record, by its map. */
static bliss_fields fields_of(const struct bytes *record)
{
    bliss_fields fields = {(record->bytes[0] & 1) != 0, (record->bytes[0] & 2) != 0, (record->bytes[0] & 4) != 0};

    return fields;
}

static bool nothing_is_written(void)
{
    return memcmp(&lent, &before, sizeof lent) == 0;
}

/* Whether the record alone is written, from the start of the output. */
static bool record_is_written(const struct bytes *record)
{
    memcpy(before.out + GUARDS, record->bytes, record->length);
    return nothing_is_written();
}

/* Whether the fields of a record alone are written, each from the start of its output. */
static bool fields_are_written(bliss_fields fields)
{
    if (fields.challenge)
        memcpy(before.challenge + GUARDS, challenge, sizeof challenge);
    if (fields.z1)
        memcpy(before.z1 + GUARDS, z1, sizeof z1);
    if (fields.z2)
        memcpy(before.z2 + GUARDS, z2, sizeof z2);
    return nothing_is_written();
}

/* Writes to the start of the output, with fields that are told and, for those that are not, ones that would be refused. */
static bliss_written written(bliss_fields fields, size_t out_length)
{
    static const uint32_t no_challenge[3] = {UINT32_MAX, 5, 5};
    static const int32_t no_half[DEGREE + 1] = {INT32_MIN, INT32_MAX, 3264, -3264, 0};

    prepare();
    return bliss_write_record(DEGREE, fields, fields.challenge ? challenge : no_challenge, fields.challenge ? POSITIONS : 3,
                              fields.z1 ? z1 : no_half, fields.z1 ? DEGREE : DEGREE + 1, fields.z2 ? z2 : no_half,
                              fields.z2 ? DEGREE : 1, lent.out + GUARDS, out_length);
}

static bliss_contents contents_of(const uint8_t *bytes, size_t length, size_t positions, size_t n1, size_t n2)
{
    prepare();
    return bliss_read_record(bytes, length, lent.challenge + GUARDS, positions, lent.z1 + GUARDS, n1, lent.z2 + GUARDS, n2);
}

static bool is_refused(bliss_contents contents, uint32_t refusal)
{
    return contents.refusal == refusal && contents.map == 0 && contents.degree == 0 && contents.positions == 0 &&
           contents.z1 == 0 && contents.z2 == 0 && nothing_is_written();
}

static bool has_fields(bliss_contents contents, const struct bytes *record)
{
    bliss_fields fields = fields_of(record);

    return contents.refusal == BLISS_SERVED && contents.map == record->bytes[0] && contents.degree == DEGREE &&
           contents.positions == (fields.challenge ? POSITIONS : 0) && contents.z1 == (fields.z1 ? DEGREE : 0) &&
           contents.z2 == (fields.z2 ? DEGREE : 0) && fields_are_written(fields);
}

/* Outputs that are just long enough, longer, and all that are shorter. */
static void test_written(const struct bytes *record)
{
    bliss_fields fields = fields_of(record);
    bliss_written answer = written(fields, record->length);

    CHECK(record->name, answer.refusal == BLISS_SERVED && answer.length == record->length && record_is_written(record));
    answer = written(fields, ROOM);
    CHECK(record->name, answer.refusal == BLISS_SERVED && answer.length == record->length && record_is_written(record));
    for (size_t length = 0; length < record->length; length++) {
        answer = written(fields, length);
        CHECK(record->name, answer.refusal == BLISS_REFUSED_OUTPUT && answer.length == 0 && nothing_is_written());
    }
}

/* The output of a field that the record does not have may be empty; of one that it has it may be longer, and not shorter. */
static void test_read(const struct bytes *record)
{
    bliss_fields fields = fields_of(record);
    const uint8_t *bytes = record->bytes;
    size_t length = record->length;
    size_t positions = fields.challenge ? POSITIONS : 0;
    size_t n1 = fields.z1 ? DEGREE : 0;
    size_t n2 = fields.z2 ? DEGREE : 0;

    CHECK(record->name, has_fields(contents_of(bytes, length, positions, n1, n2), record));
    CHECK(record->name, has_fields(contents_of(bytes, length, ROOM, ROOM, ROOM), record));
    if (fields.challenge)
        CHECK(record->name, is_refused(contents_of(bytes, length, POSITIONS - 1, ROOM, ROOM), BLISS_REFUSED_OUTPUT));
    if (fields.z1)
        CHECK(record->name, is_refused(contents_of(bytes, length, ROOM, DEGREE - 1, ROOM), BLISS_REFUSED_OUTPUT));
    if (fields.z2)
        CHECK(record->name, is_refused(contents_of(bytes, length, ROOM, ROOM, DEGREE - 1), BLISS_REFUSED_OUTPUT));
}

/* Every cut, and a byte of 0 or of 1 more. A bit of the map that is turned over leaves no record either. */
static void test_changed(const struct bytes *record)
{
    uint8_t bytes[ROOM] = {0};

    memcpy(bytes, record->bytes, record->length);
    for (size_t length = 0; length < record->length; length++)
        CHECK(record->name, is_refused(contents_of(bytes, length, ROOM, ROOM, ROOM), BLISS_REFUSED_RECORD));
    CHECK(record->name, is_refused(contents_of(bytes, record->length + 1, ROOM, ROOM, ROOM), BLISS_REFUSED_RECORD));
    bytes[record->length] = 1;
    CHECK(record->name, is_refused(contents_of(bytes, record->length + 1, ROOM, ROOM, ROOM), BLISS_REFUSED_RECORD));
    for (unsigned bit = 0; bit < 8; bit++) {
        bytes[0] ^= (uint8_t)(1u << bit);
        CHECK(record->name, is_refused(contents_of(bytes, record->length, ROOM, ROOM, ROOM), BLISS_REFUSED_RECORD));
        bytes[0] ^= (uint8_t)(1u << bit);
    }
}

/* z1 is not padded: behind four values of 0 the four bits that would pad it start z2, with 0 0000000, four zeros and a one. */
static void test_halves(void)
{
    static const uint8_t bytes[] = {6, 0, 4, 0x00, 0x80, 0x40, 0x20, 0x10, 0x00, 0x80, 0x40, 0x20, 0x10};
    bliss_contents contents = contents_of(bytes, sizeof bytes, 0, DEGREE, DEGREE);

    memset(before.z1 + GUARDS, 0, sizeof z1);
    memset(before.z2 + GUARDS, 0, sizeof z2);
    before.z2[GUARDS] = 512;
    CHECK("halves", contents.refusal == BLISS_SERVED && contents.map == 6 && nothing_is_written());
}

/* Of all sequences of three bytes, those are records that have no field, and a degree: nine. Of shorter ones, none. */
static void test_short(void)
{
    uint8_t bytes[3];
    size_t taken = 0;

    for (uint32_t number = 0; number < UINT32_C(1) << 24; number++) {
        bytes[0] = (uint8_t)(number >> 16);
        bytes[1] = (uint8_t)(number >> 8);
        bytes[2] = (uint8_t)number;
        taken += bliss_read_record(bytes, 3, lent.challenge, ROOM, lent.z1, ROOM, lent.z2, ROOM).refusal == BLISS_SERVED;
    }
    CHECK("three bytes", taken == 9);
    taken = 0;
    for (uint32_t number = 0; number < UINT32_C(1) << 16; number++) {
        bytes[0] = (uint8_t)(number >> 8);
        bytes[1] = (uint8_t)number;
        for (size_t length = 0; length < 3; length++)
            taken += bliss_read_record(bytes, length, lent.challenge, ROOM, lent.z1, ROOM, lent.z2, ROOM).refusal == BLISS_SERVED;
    }
    CHECK("two bytes, one and none", taken == 0);
}

/* Whether writing gives this refusal, for these fields. */
static bool write_is_refused(uint32_t refusal, size_t n, const uint32_t *positions, size_t count, const int32_t *first,
                             size_t first_length, const int32_t *second, size_t second_length, size_t out_length)
{
    bliss_fields all = {true, true, true};
    bliss_written answer;

    prepare();
    answer =
        bliss_write_record(n, all, positions, count, first, first_length, second, second_length, lent.out + GUARDS, out_length);
    return answer.refusal == refusal && answer.length == 0 && nothing_is_written();
}

/* Each refusal goes before all that come after it: 1, 2, 6, 15, 14. */
static void test_order(void)
{
    static const uint32_t equal[POSITIONS] = {3, 3};
    static const int32_t great[DEGREE] = {0, 0, 0, BLISS_VALUE_LIMIT + 1};
    static const int32_t small[DEGREE] = {0, 0, 0, -BLISS_VALUE_LIMIT - 1};
    static const int32_t least[DEGREE] = {INT32_MIN, 0, 0, 0};

    CHECK("1", write_is_refused(BLISS_REFUSED_DEGREE, 12, equal, POSITIONS, great, DEGREE, great, DEGREE - 1, 0));
    CHECK("1",
          write_is_refused(BLISS_REFUSED_DEGREE, ((size_t)1 << 32) + DEGREE, challenge, POSITIONS, z1, DEGREE, z2, DEGREE, ROOM));
    CHECK("2", write_is_refused(BLISS_REFUSED_LENGTHS, DEGREE, equal, POSITIONS, great, DEGREE - 1, great, DEGREE, 0));
    CHECK("2", write_is_refused(BLISS_REFUSED_LENGTHS, DEGREE, equal, POSITIONS, great, DEGREE, great, DEGREE - 1, 0));
    CHECK("6", write_is_refused(BLISS_REFUSED_CHALLENGE, DEGREE, equal, POSITIONS, great, DEGREE, great, DEGREE, 0));
    CHECK("6", write_is_refused(BLISS_REFUSED_CHALLENGE, DEGREE, equal, 0, z1, DEGREE, z2, DEGREE, ROOM));
    CHECK("15", write_is_refused(BLISS_REFUSED_RECORD, DEGREE, challenge, POSITIONS, great, DEGREE, z2, DEGREE, 0));
    CHECK("15", write_is_refused(BLISS_REFUSED_RECORD, DEGREE, challenge, POSITIONS, z1, DEGREE, small, DEGREE, 0));
    CHECK("15", write_is_refused(BLISS_REFUSED_RECORD, DEGREE, challenge, POSITIONS, least, DEGREE, z2, DEGREE, ROOM));
    CHECK("14", write_is_refused(BLISS_REFUSED_OUTPUT, DEGREE, challenge, POSITIONS, z1, DEGREE, z2, DEGREE, 23));
}

/* Entry k of the table of packed lengths is 9 + k, for 128 sizes; the last of the 26 is for 64. Above that there is none. */
static void test_lengths(void)
{
    enum { ENTRIES = 26, SIZES = 128 };
    static const uint32_t others[] = {3264, 3327, 3328, 1 << 16, (1 << 16) + 1, INT32_MAX, UINT32_C(1) << 31, UINT32_MAX};
    uint32_t size = 0;

    for (size_t k = 0; k < ENTRIES; k++)
        for (; size <= BLISS_VALUE_LIMIT && size < SIZES * (k + 1); size++)
            CHECK("packed length", bliss_packed_length(size) == 9 + k);
    CHECK("packed length", size == BLISS_VALUE_LIMIT + 1);
    for (size_t i = 0; i < sizeof others / sizeof *others; i++)
        CHECK("no packed length", bliss_packed_length(others[i]) == 0);
}

int main(void)
{
    for (size_t i = 0; i < sizeof records / sizeof *records; i++) {
        test_written(&records[i]);
        test_read(&records[i]);
        test_changed(&records[i]);
    }
    /* Outputs that are too short don't hide that the bytes are no record. */
    for (size_t i = 0; i < sizeof no_records / sizeof *no_records; i++) {
        const struct bytes *none = &no_records[i];

        CHECK(none->name, is_refused(contents_of(none->bytes, none->length, ROOM, ROOM, ROOM), BLISS_REFUSED_RECORD));
        CHECK(none->name, is_refused(contents_of(none->bytes, none->length, 0, 0, 0), BLISS_REFUSED_RECORD));
    }
    test_halves();
    test_short();
    test_order();
    test_lengths();
    printf("records: %zu claims%s\n", claims, right ? "" : ", and some are false");
    return !right;
}
