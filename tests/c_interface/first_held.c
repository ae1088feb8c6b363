/*
 * The first command of a list after which a right is held, in C: station A in both versions, with copies of every length.
 * tests/c_interface/run builds and runs it; it exits with 0 and prints nothing where all is right.
 */
#include <stdio.h>
#include <string.h>

#include "bunvespo.h"
#include "station_a.h"

/* Subject 2 gives subject 1 r0 over the log and U r1*, takes r0 again, and gives it once more. All are accepted. */
static const uint8_t accepted[29] = {
    1, 0, 0, 0, 24,     /* version, L */
    5, 4, 2, 1, 3, 0,   /* grant r0 */
    5, 5, 2, 0, 3, 1,   /* grant r1* */
    5, 8, 2, 1, 3, 0,   /* delete r0 */
    5, 4, 2, 1, 3, 0,   /* grant r0 */
};

/* Subject 2 gives subject 1 r0 over the log; U, who does not own it, gives nothing; what comes after that is not tried. */
static const uint8_t ended[23] = {
    1, 0, 0, 0, 18,     /* version, L */
    5, 4, 2, 1, 3, 0,   /* grant r0 */
    5, 4, 0, 1, 3, 2,   /* grant r2, refused by 12 */
    5, 5, 2, 0, 3, 1,   /* grant r1* */
};

static const uint8_t empty[5] = {1, 0, 0, 0, 0};

/* What a search is asked for, but for the copy. */
typedef struct {
    const uint8_t *record;
    size_t record_len;
    const uint8_t *list;
    size_t list_len;
    uint64_t s, o, right;
} search;

static int failures = 0;

/* Asks with a copy of so many bytes. Counts and prints another answer than this, and bytes that changed: of the record, of the list, of
   the copy on a refusal, and else of what comes after the record's length in it. */
static void expect(const char *what, search asked, size_t room, uint64_t refusal, uint64_t value)
{
    uint8_t record[64], list[32], copy[96], before[96];
    memcpy(record, asked.record, asked.record_len);
    memcpy(list, asked.list, asked.list_len);
    memset(copy, 0xEE, sizeof copy);
    memcpy(before, copy, sizeof before);
    bunvespo_answer got = bunvespo_first_held(record, asked.record_len, list, asked.list_len, asked.s, asked.o, asked.right, copy, room);
    size_t free_len = got.refusal == BUNVESPO_ANSWERED ? asked.record_len : 0;
    if (got.refusal != refusal || got.value != value || memcmp(record, asked.record, asked.record_len) != 0
        || memcmp(list, asked.list, asked.list_len) != 0 || memcmp(copy + free_len, before + free_len, sizeof copy - free_len) != 0) {
        printf("first_held, %s: refusal %d, value %d\n", what, (int)got.refusal, (int)got.value);
        failures++;
    }
}

/* The answer to a question about the log, with copies of every length: 15 while the copy is shorter than the record. */
static void expect_value(const char *what, search asked, uint64_t s, uint64_t right, uint64_t value)
{
    asked.s = s;
    asked.o = 3;
    asked.right = right;
    for (size_t room = 0; room < asked.record_len; room++)
        expect(what, asked, room, BUNVESPO_REFUSED_BUFFER_SHORT, 0);
    for (size_t room = asked.record_len; room <= 96; room++)
        expect(what, asked, room, BUNVESPO_ANSWERED, value);
}

static void test_answers(const uint8_t *record, size_t length)
{
    search all = {record, length, accepted, sizeof accepted, 0, 0, 0};
    expect_value("held at the start, by own", all, 2, BUNVESPO_PLAIN(6), 1);
    expect_value("by the first command, lost and given again", all, 1, BUNVESPO_PLAIN(0), 2);
    expect_value("by the second command", all, 0, BUNVESPO_STARRED(1), 3);
    expect_value("by the second command, by the star", all, 0, BUNVESPO_PLAIN(1), 3);
    expect_value("never", all, 1, BUNVESPO_STARRED(0), 0);
    search refused = {record, length, ended, sizeof ended, 0, 0, 0};
    expect_value("before the refused command", refused, 1, BUNVESPO_PLAIN(0), 2);
    expect_value("what the refused command would give", refused, 1, BUNVESPO_PLAIN(2), 0);
    expect_value("what comes after the refused command", refused, 0, BUNVESPO_STARRED(1), 0);
    search none = {record, length, empty, sizeof empty, 0, 0, 0};
    expect_value("held at the start, no command", none, 2, BUNVESPO_OWN, 1);
    expect_value("not held, no command", none, 1, BUNVESPO_OWN, 0);
}

/* 7, then 15, then 16, whatever holds of those after it. */
static void test_order(const uint8_t *record, size_t length, uint64_t rights)
{
    search asked = {record, length, accepted, sizeof accepted, 0, 3, 0};
    search beyond[] = {asked, asked, asked, asked};
    beyond[0].s = 3;
    beyond[1].o = 4;
    beyond[2].right = rights;
    beyond[3].right = BUNVESPO_NO_RIGHT;
    for (size_t j = 0; j < sizeof beyond / sizeof beyond[0]; j++) {
        expect("7", beyond[j], length, BUNVESPO_REFUSED_BOUNDS, 0);
        expect("7 before 15", beyond[j], length - 1, BUNVESPO_REFUSED_BOUNDS, 0);
        beyond[j].list_len--;
        expect("7 before 16", beyond[j], length, BUNVESPO_REFUSED_BOUNDS, 0);
        expect("7 before 15 and 16", beyond[j], 0, BUNVESPO_REFUSED_BOUNDS, 0);
    }
    for (asked.list_len = 0; asked.list_len < sizeof accepted; asked.list_len++) {
        expect("15 before 16", asked, length - 1, BUNVESPO_REFUSED_BUFFER_SHORT, 0);
        expect("16", asked, length, BUNVESPO_REFUSED_LIST_FORM, 0);
    }
}

/* 1 to 5 come before 7, 15 and 16. */
static void test_record(const uint8_t *record, size_t length)
{
    uint8_t wrong[64];
    search asked = {wrong, length, accepted, 4, 3, 4, BUNVESPO_NO_RIGHT};
    memcpy(wrong, record, length);
    asked.record_len = 6;
    expect("1", asked, 0, BUNVESPO_REFUSED_RECORD_SHORT, 0);
    asked.record_len = length - 1;
    expect("4", asked, 0, BUNVESPO_REFUSED_RECORD_LENGTH, 0);
    asked.record_len = length;
    wrong[length - 1] = 2;
    expect("5", asked, 0, BUNVESPO_REFUSED_NOT_VALID, 0);
    wrong[5] = 41;
    expect("3", asked, 0, BUNVESPO_REFUSED_COUNTS, 0);
    wrong[0] = 3;
    expect("2", asked, 0, BUNVESPO_REFUSED_VERSION, 0);
}

int main(void)
{
    uint8_t wide[55];
    failures += bunvespo_to_version_2(station_a, sizeof station_a, wide, sizeof wide).refusal != BUNVESPO_ANSWERED;
    test_answers(station_a, sizeof station_a);
    test_answers(wide, sizeof wide);
    test_order(station_a, sizeof station_a, 16);
    test_order(wide, sizeof wide, 32);
    test_record(station_a, sizeof station_a);
    test_record(wide, sizeof wide);
    return failures != 0;
}
