/*
 * Prints each refusal's number and words, for tests/c_interface/run to compare with the file refusal_words, and tests the rest of what
 * the header has besides the calls: words of other numbers, codes of rights, sizes of buffers, the version; and the deletes that get 19. It is built together with
 * other_unit.c, which includes the header too, as C and as C++.
 */
#include <inttypes.h>
#include <stdio.h>
#include <string.h>

#include "bunvespo.h"
#include "other_unit.h"

#ifdef BUNVESPO_VERSION
#error "BUNVESPO_VERSION was a refusal once, and must mean nothing else now"
#endif
#if BUNVESPO_LIBRARY_VERSION < 6000
#error "the version can't be tested by #if"
#endif

static int failures = 0;

/* Counts and prints a test that fails. */
static void expect(const char *what, int right)
{
    if (!right) {
        fprintf(stderr, "refusals: %s\n", what);
        failures++;
    }
}

/* Whether a number has these words, and the same in the other unit. */
static int has_words(uint64_t number, const char *words)
{
    return strcmp(bunvespo_refusal_words(number), words) == 0 && strcmp(words_elsewhere(number), words) == 0;
}

/* The words of all refusals, and of numbers that are none. */
static void test_words(void)
{
    for (uint64_t number = 1; number <= 19; number++) {
        printf("%" PRIu64 " %s\n", number, bunvespo_refusal_words(number));
        expect("words differ in the other unit", has_words(number, bunvespo_refusal_words(number)));
    }
    expect("the words of 0", has_words(BUNVESPO_ANSWERED, "not refused"));
    const uint64_t unknown[] = {20, 255, 256, UINT64_C(0x100000001), UINT64_MAX};
    for (size_t j = 0; j < sizeof unknown / sizeof unknown[0]; j++) {
        expect("the words of an unknown number", has_words(unknown[j], "no refusal has this number"));
    }
}

/* The codes of rights; a k out of range is no right, whatever its type. */
static void test_rights(void)
{
    const uint64_t starred_constant = BUNVESPO_STARRED(14);
    expect("own and control", BUNVESPO_OWN == 0 && BUNVESPO_CONTROL == 1);
    expect("the last right of version 1", BUNVESPO_PLAIN(6) == 14 && BUNVESPO_STARRED(6) == 15);
    expect("the last right of version 2", BUNVESPO_PLAIN(14) == 30 && starred_constant == 31);
    for (int k = 0; k <= 14; k++) {
        expect("a basic right", BUNVESPO_PLAIN(k) == (uint64_t)(2 + 2 * k) && BUNVESPO_STARRED(k) == (uint64_t)(3 + 2 * k));
    }
    int negative = -1;
    unsigned wide = 0x7FFFFFFFu;
    expect("k = 15", BUNVESPO_PLAIN(15) == BUNVESPO_NO_RIGHT && BUNVESPO_STARRED(15) == BUNVESPO_NO_RIGHT);
    expect("k = -1", BUNVESPO_PLAIN(negative) == BUNVESPO_NO_RIGHT && BUNVESPO_STARRED(negative) == BUNVESPO_NO_RIGHT);
    expect("2 + 2 k beyond 32 bits", BUNVESPO_PLAIN(wide) == BUNVESPO_NO_RIGHT);
    expect("2 + 2 k beyond 64 bits", BUNVESPO_PLAIN(UINT64_MAX) == BUNVESPO_NO_RIGHT);
    expect("no right is refused", held_elsewhere(BUNVESPO_NO_RIGHT).refusal == BUNVESPO_REFUSED_BOUNDS);
    expect("a right of version 2 is refused at version 1", held_elsewhere(BUNVESPO_PLAIN(7)).refusal == BUNVESPO_REFUSED_BOUNDS);
    expect("the last right of version 1 is answered there", held_elsewhere(BUNVESPO_STARRED(6)).refusal == BUNVESPO_ANSWERED);
    expect("U has control of itself", held_elsewhere(BUNVESPO_CONTROL).value == 1);
}

/* A basic right is deleted once, and only by the bit that is named: 19 for one who owns the log, and for the other form; no byte changes. */
static void test_deletes(void)
{
    uint8_t record[] = {1, 0, 0, 0, 26, 3, 1, 0, 2, 0, 1, 0, 0, 0, 0, 0, 0, 0, 2, 0, 1, 0, 4, 0, 0, 0, 0, 0, 2, 0, 1};
    uint8_t before[sizeof record];
    memcpy(before, record, sizeof record);
    const uint64_t unset = BUNVESPO_REFUSED_NOT_SET;
    expect("the other form", bunvespo_command(record, sizeof record, BUNVESPO_DELETE_STARRED, 2, 1, 3, 0).refusal == unset);
    expect("a right held by own", bunvespo_command(record, sizeof record, BUNVESPO_DELETE, 2, 2, 3, 0).refusal == unset);
    expect("12 comes first", bunvespo_command(record, sizeof record, BUNVESPO_DELETE_STARRED, 0, 1, 3, 0).refusal == 12);
    expect("no byte changes", memcmp(before, record, sizeof record) == 0);
    expect("a right that is set", bunvespo_command(record, sizeof record, BUNVESPO_DELETE, 2, 1, 3, 0).refusal == BUNVESPO_ANSWERED);
    expect("is gone", record[22] == 0);
    expect("and not deleted again", bunvespo_command(record, sizeof record, BUNVESPO_DELETE, 2, 1, 3, 0).refusal == unset);
}

int main(void)
{
    static uint8_t out[BUNVESPO_BUFFER_SIZE(BUNVESPO_MOST_SUBJECTS)];
    test_words();
    test_rights();
    test_deletes();
    expect("the buffer for the largest record", sizeof out == 257);
    expect("the largest record", BUNVESPO_MOST_RECORD_BYTES
                                     == 7 + 4 * BUNVESPO_MOST_SUBJECTS * (BUNVESPO_MOST_SUBJECTS + BUNVESPO_MOST_PLAIN));
    expect("the buffer for 1 subject", BUNVESPO_BUFFER_SIZE(1) == 23);
    expect("the buffer for more subjects than a record has", BUNVESPO_BUFFER_SIZE(BUNVESPO_MOST_SUBJECTS + 1) == sizeof out);
    expect("a buffer's size never wraps", BUNVESPO_BUFFER_SIZE(SIZE_MAX) == sizeof out);
    return failures != 0;
}
