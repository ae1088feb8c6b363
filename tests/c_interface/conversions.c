/*
 * The two conversions in C, and the calls on a record of version 2: station A in both versions, with outputs of every length, and with a
 * basic right that version 1 has no room for. tests/c_interface/run builds and runs it; it exits with 0 and prints nothing where all is
 * right.
 */
#include <stdio.h>
#include <string.h>

#include "bunvespo.h"
#include "station_a.h"

/* Station A in version 2. */
static const uint8_t wide[55] = {
    2, 0, 0, 0, 0x32, 3, 1,                         /* version, L, n, p */
    0, 0, 0, 2, 0, 0, 0, 1, 0, 0, 0, 0, 0, 0, 0, 0, /* row 0 */
    0, 0, 0, 0, 0, 0, 0, 2, 0, 0, 0, 1, 0, 0, 0, 0, /* row 1 */
    0, 0, 0, 0, 0, 0, 0, 0, 0, 0, 0, 2, 0, 0, 0, 1, /* row 2 */
};

static int failures = 0;

/* Counts and prints a test that fails. */
static void expect(const char *what, int right)
{
    if (!right) {
        printf("conversions: %s\n", what);
        failures++;
    }
}

typedef bunvespo_answer (*conversion)(const uint8_t *, size_t, uint8_t *, size_t);

/* Whether a conversion gives this refusal with an output of this length, and leaves all of it, and the record, as they were. */
static int is_refused(conversion convert, const uint8_t *record, size_t length, size_t room, uint64_t refusal)
{
    uint8_t lent[64], out[64], before[64];
    memcpy(lent, record, length);
    memset(out, 0xEE, sizeof out);
    memcpy(before, out, sizeof before);
    bunvespo_answer got = convert(lent, length, out, room);
    return got.refusal == refusal && got.value == 0 && memcmp(out, before, sizeof out) == 0 && memcmp(lent, record, length) == 0;
}

/* Whether a conversion writes this new record at the start of an output of this length, and nothing else. */
static int is_written(conversion convert, const uint8_t *record, size_t length, size_t room, const uint8_t *new_record, size_t new_length)
{
    uint8_t lent[64], out[64], expected[64];
    memcpy(lent, record, length);
    memset(out, 0xEE, sizeof out);
    memset(expected, 0xEE, sizeof expected);
    memcpy(expected, new_record, new_length);
    bunvespo_answer got = convert(lent, length, out, room);
    return got.refusal == BUNVESPO_ANSWERED && got.value == new_length && memcmp(out, expected, sizeof out) == 0
           && memcmp(lent, record, length) == 0;
}

/* Outputs of every length, for a record of either version: 15 while the output is shorter than the new record, else the new record. */
static void test_lengths(const uint8_t *record, size_t length)
{
    for (size_t room = 0; room <= 64; room++) {
        if (room < sizeof station_a)
            expect("to version 1, short", is_refused(bunvespo_to_version_1, record, length, room, BUNVESPO_REFUSED_BUFFER_SHORT));
        else
            expect("to version 1", is_written(bunvespo_to_version_1, record, length, room, station_a, sizeof station_a));
        if (room < sizeof wide)
            expect("to version 2, short", is_refused(bunvespo_to_version_2, record, length, room, BUNVESPO_REFUSED_BUFFER_SHORT));
        else
            expect("to version 2", is_written(bunvespo_to_version_2, record, length, room, wide, sizeof wide));
    }
}

/* A basic right of 7 to 14, plain or starred: granted and held at version 2, and 18 when the record is to become version 1. */
static void test_high_right(int k, uint64_t code, uint64_t right)
{
    uint8_t record[sizeof wide];
    memcpy(record, wide, sizeof record);
    expect("a grant at version 2", bunvespo_command(record, sizeof record, code, 2, 0, 3, (uint64_t)k).refusal == BUNVESPO_ANSWERED);
    expect("held at version 2", bunvespo_held(record, sizeof record, 0, 3, right).value == 1);
    expect("not held by another", bunvespo_held(record, sizeof record, 1, 3, right).value == 0);
    for (size_t room = 0; room <= 64; room++)
        expect("18", is_refused(bunvespo_to_version_1, record, sizeof record, room, BUNVESPO_REFUSED_HIGH_RIGHT));
    expect("a copy", is_written(bunvespo_to_version_2, record, sizeof record, sizeof record, record, sizeof record));
    uint8_t first[sizeof station_a];
    memcpy(first, station_a, sizeof first);
    expect("7 at version 1", bunvespo_command(first, sizeof first, code, 2, 0, 3, (uint64_t)k).refusal == BUNVESPO_REFUSED_BOUNDS);
    expect("7 at version 1, held", bunvespo_held(first, sizeof first, 0, 3, right).refusal == BUNVESPO_REFUSED_BOUNDS);
}

/* Subject 2 owns log 3 and has no other bit over it: it holds every right of the version over it but control, and subject 1 holds none. */
static void test_owner(const uint8_t *record, size_t length, uint64_t rights)
{
    for (uint64_t right = 0; right < rights; right++) {
        expect("held by the owner", bunvespo_held(record, length, 2, 3, right).value == (right != BUNVESPO_CONTROL));
        expect("held by nobody else", bunvespo_held(record, length, 1, 3, right).value == 0);
    }
}

/* Records that 1 to 5 turn down, whatever the output. */
static void test_refused(conversion convert)
{
    uint8_t record[sizeof wide];
    expect("1", is_refused(convert, wide, 6, 64, BUNVESPO_REFUSED_RECORD_SHORT));
    memcpy(record, wide, sizeof record);
    record[0] = 0;
    expect("2", is_refused(convert, record, sizeof record, 64, BUNVESPO_REFUSED_VERSION));
    record[0] = 3;
    expect("2", is_refused(convert, record, sizeof record, 0, BUNVESPO_REFUSED_VERSION));
    record[0] = 1;
    expect("4, the L of version 2", is_refused(convert, record, sizeof record, 64, BUNVESPO_REFUSED_RECORD_LENGTH));
    record[0] = 2;
    record[5] = 41;
    expect("3", is_refused(convert, record, sizeof record, 0, BUNVESPO_REFUSED_COUNTS));
    expect("4", is_refused(convert, wide, sizeof wide - 1, 64, BUNVESPO_REFUSED_RECORD_LENGTH));
    memcpy(record, wide, sizeof record);
    record[8] = 1;
    record[10] = 0;
    expect("5 before 18", is_refused(convert, record, sizeof record, 0, BUNVESPO_REFUSED_NOT_VALID));
}

int main(void)
{
    test_lengths(station_a, sizeof station_a);
    test_lengths(wide, sizeof wide);
    for (int k = 7; k <= 14; k++) {
        test_high_right(k, BUNVESPO_GRANT, BUNVESPO_PLAIN(k));
        test_high_right(k, BUNVESPO_GRANT_STARRED, BUNVESPO_STARRED(k));
    }
    test_owner(station_a, sizeof station_a, 16);
    test_owner(wide, sizeof wide, 32);
    test_refused(bunvespo_to_version_1);
    test_refused(bunvespo_to_version_2);
    return failures != 0;
}
