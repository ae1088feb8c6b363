/*
 * Every call with NULL and length 0 for each slice, and with an empty slice that isn't NULL: the answers are those of an
 * empty slice. tests/c_interface/run builds and runs it; it exits with 0 and prints nothing where all answers are right.
 */
#include <stdio.h>
#include <string.h>

#include "bunvespo.h"
#include "station_a.h"

static int failures = 0;

/* Counts and prints an answer that isn't the expected one. */
static void expect(const char *what, bunvespo_answer got, uint64_t refusal, uint64_t value)
{
    if (got.refusal != refusal || got.value != value) {
        printf("%s: refusal %d, value %d\n", what, (int)got.refusal, (int)got.value);
        failures++;
    }
}

/* Every call with an empty record: 0 for validity, refusal 1 for the others. */
static void empty_record(const char *what, uint8_t *at)
{
    uint8_t list[5] = {1, 0, 0, 0, 0};
    uint8_t out[BUNVESPO_BUFFER_SIZE(BUNVESPO_MOST_SUBJECTS)];
    memset(out, 0xEE, sizeof out);
    bunvespo_answer validity = {0, bunvespo_valid(at, 0)};
    expect(what, validity, 0, 0);
    expect(what, bunvespo_held(at, 0, 0, 0, 0), BUNVESPO_REFUSED_RECORD_SHORT, 0);
    expect(what, bunvespo_command(at, 0, 12, 0, 1, 0, 0), BUNVESPO_REFUSED_RECORD_SHORT, 0);
    expect(what, bunvespo_run(at, 0, list, sizeof list), BUNVESPO_REFUSED_RECORD_SHORT, 0);
    expect(what, bunvespo_safety(at, 0, 0, 0, 0, 0, out, sizeof out), BUNVESPO_REFUSED_RECORD_SHORT, 0);
    expect(what, bunvespo_first_held(at, 0, list, sizeof list, 0, 0, 0, out, sizeof out), BUNVESPO_REFUSED_RECORD_SHORT, 0);
    expect(what, bunvespo_to_version_1(at, 0, out, sizeof out), BUNVESPO_REFUSED_RECORD_SHORT, 0);
    expect(what, bunvespo_to_version_2(at, 0, out, sizeof out), BUNVESPO_REFUSED_RECORD_SHORT, 0);
    for (size_t j = 0; j < sizeof out; j++) {
        failures += out[j] != 0xEE;
    }
}

/* An empty list on a valid record, to be run and to be searched, then both slices empty. */
static void empty_list(const char *what, const uint8_t *at, uint8_t *record_at)
{
    uint8_t record[sizeof station_a], copy[sizeof station_a];
    memcpy(record, station_a, sizeof record);
    memcpy(copy, station_a, sizeof copy);
    expect(what, bunvespo_run(record, sizeof record, at, 0), BUNVESPO_REFUSED_LIST_FORM, 0);
    expect(what, bunvespo_run(record_at, 0, at, 0), BUNVESPO_REFUSED_RECORD_SHORT, 0);
    expect(what, bunvespo_first_held(record, sizeof record, at, 0, 2, 3, 0, copy, sizeof copy), BUNVESPO_REFUSED_LIST_FORM, 0);
    expect(what, bunvespo_first_held(record, sizeof record, at, 0, 3, 3, 0, copy, sizeof copy), BUNVESPO_REFUSED_BOUNDS, 0);
    expect(what, bunvespo_first_held(record_at, 0, at, 0, 2, 3, 0, copy, sizeof copy), BUNVESPO_REFUSED_RECORD_SHORT, 0);
    failures += memcmp(record, station_a, sizeof record) != 0;
    failures += memcmp(copy, station_a, sizeof copy) != 0;
}

/* An empty copy on a valid record, with a list and an empty one, where the right is held at the start and where it is not in range; then
   all slices empty. */
static void empty_copy(const char *what, uint8_t *at, const uint8_t *other_at)
{
    const uint8_t list[5] = {1, 0, 0, 0, 0};
    const uint64_t is_short = BUNVESPO_REFUSED_BUFFER_SHORT, unfit = BUNVESPO_REFUSED_BOUNDS;
    expect(what, bunvespo_first_held(station_a, sizeof station_a, list, sizeof list, 2, 3, 0, at, 0), is_short, 0);
    expect(what, bunvespo_first_held(station_a, sizeof station_a, other_at, 0, 2, 3, 0, at, 0), is_short, 0);
    expect(what, bunvespo_first_held(station_a, sizeof station_a, list, sizeof list, 2, 4, 0, at, 0), unfit, 0);
    expect(what, bunvespo_first_held(station_a, sizeof station_a, other_at, 0, 2, 3, 16, at, 0), unfit, 0);
    expect(what, bunvespo_first_held(other_at, 0, other_at, 0, 3, 4, 16, at, 0), BUNVESPO_REFUSED_RECORD_SHORT, 0);
}

/* An empty buffer on a valid record, where the answer would be safe and where it would be leaks; then both slices empty. */
static void empty_buffer(const char *what, uint8_t *at, const uint8_t *record_at)
{
    expect(what, bunvespo_safety(station_a, sizeof station_a, 7, 1, 3, 2, at, 0), BUNVESPO_REFUSED_BUFFER_SHORT, 0);
    expect(what, bunvespo_safety(station_a, sizeof station_a, 5, 1, 3, 2, at, 0), BUNVESPO_REFUSED_BUFFER_SHORT, 0);
    expect(what, bunvespo_safety(station_a, sizeof station_a, 8, 1, 3, 2, at, 0), BUNVESPO_REFUSED_BOUNDS, 0);
    expect(what, bunvespo_safety(record_at, 0, 0, 0, 0, 0, at, 0), BUNVESPO_REFUSED_RECORD_SHORT, 0);
}

/* An empty output on a valid record of version 1, and on one of version 2 without a basic right above 6 and with one; then both slices
   empty. */
static void empty_output(const char *what, uint8_t *at, const uint8_t *record_at)
{
    uint8_t wide[11] = {2, 0, 0, 0, 6, 1, 0, 0, 0, 0, 2};
    expect(what, bunvespo_to_version_1(station_a, sizeof station_a, at, 0), BUNVESPO_REFUSED_BUFFER_SHORT, 0);
    expect(what, bunvespo_to_version_2(station_a, sizeof station_a, at, 0), BUNVESPO_REFUSED_BUFFER_SHORT, 0);
    expect(what, bunvespo_to_version_1(wide, sizeof wide, at, 0), BUNVESPO_REFUSED_BUFFER_SHORT, 0);
    expect(what, bunvespo_to_version_2(wide, sizeof wide, at, 0), BUNVESPO_REFUSED_BUFFER_SHORT, 0);
    wide[8] = 1;
    expect(what, bunvespo_to_version_1(wide, sizeof wide, at, 0), BUNVESPO_REFUSED_HIGH_RIGHT, 0);
    expect(what, bunvespo_to_version_2(wide, sizeof wide, at, 0), BUNVESPO_REFUSED_BUFFER_SHORT, 0);
    expect(what, bunvespo_to_version_1(record_at, 0, at, 0), BUNVESPO_REFUSED_RECORD_SHORT, 0);
    expect(what, bunvespo_to_version_2(record_at, 0, at, 0), BUNVESPO_REFUSED_RECORD_SHORT, 0);
}

/* An empty window: 17 as ever, and else answered. */
static void empty_window(const char *what, uint8_t *at)
{
    bunvespo_window_empty(at, 0);
    expect(what, bunvespo_window_put(at, 0, 63, 12), BUNVESPO_ANSWERED, 0);
    expect(what, bunvespo_window_put(at, 0, 64, 12), BUNVESPO_REFUSED_WINDOW_NUMBER, 0);
    failures += bunvespo_window_count(at, 0, 63).refusal != BUNVESPO_ANSWERED;
    expect(what, bunvespo_window_count(at, 0, 64), BUNVESPO_REFUSED_WINDOW_NUMBER, 0);
}

int main(void)
{
    uint8_t bytes[1] = {0xEE};
    empty_record("record NULL", NULL);
    empty_record("record empty", bytes);
    empty_list("list NULL", NULL, NULL);
    empty_list("list empty", bytes, bytes);
    empty_copy("copy NULL", NULL, NULL);
    empty_copy("copy empty", bytes, bytes);
    empty_buffer("buffer NULL", NULL, NULL);
    empty_buffer("buffer empty", bytes, bytes);
    empty_output("output NULL", NULL, NULL);
    empty_output("output empty", bytes, bytes);
    empty_window("window NULL", NULL);
    empty_window("window empty", bytes);
    failures += bytes[0] != 0xEE;
    return failures != 0;
}
