/*
 * The window of late refusals in C: counts, 17, and the bytes that the header describes. tests/c_interface/run builds and runs it; it exits
 * with 0 and prints nothing where all is right.
 */
#include <stdio.h>
#include <string.h>

#include "bunvespo.h"

static int failures = 0;

/* Counts and prints a test that fails. */
static void expect(const char *what, int right)
{
    if (!right) {
        printf("window: %s\n", what);
        failures++;
    }
}

/* Puts so many entries of an initiator, which are not refused. */
static void put(uint8_t *window, int entries, uint64_t initiator, uint64_t outcome)
{
    for (int j = 0; j < entries; j++) {
        bunvespo_answer got = bunvespo_window_put(window, BUNVESPO_WINDOW_SIZE, initiator, outcome);
        expect("an entry is taken", got.refusal == BUNVESPO_ANSWERED && got.value == 0);
    }
}

static uint64_t count(const uint8_t *window, uint64_t number)
{
    bunvespo_answer got = bunvespo_window_count(window, BUNVESPO_WINDOW_SIZE, number);
    expect("a count is read", got.refusal == BUNVESPO_ANSWERED);
    return got.value;
}

/* An entry or a number of 64 or more changes nothing, whatever the bytes. */
static void test_refused(uint8_t *window)
{
    const uint64_t numbers[] = {64, 255, 256, UINT64_C(0x100000005), UINT64_MAX};
    uint8_t before[BUNVESPO_WINDOW_SIZE];
    memcpy(before, window, sizeof before);
    for (size_t j = 0; j < sizeof numbers / sizeof numbers[0]; j++) {
        bunvespo_answer entry = bunvespo_window_put(window, sizeof before, numbers[j], 12);
        bunvespo_answer read = bunvespo_window_count(window, sizeof before, numbers[j]);
        expect("an initiator is refused", entry.refusal == BUNVESPO_REFUSED_WINDOW_NUMBER && entry.value == 0);
        expect("a number is refused", read.refusal == BUNVESPO_REFUSED_WINDOW_NUMBER && read.value == 0);
    }
    expect("a refusal changes nothing", memcmp(before, window, sizeof before) == 0);
}

/* Bytes of another length are never written. */
static void test_other_lengths(void)
{
    uint8_t bytes[2 * BUNVESPO_WINDOW_SIZE], before[2 * BUNVESPO_WINDOW_SIZE];
    memset(bytes, 0xEE, sizeof bytes);
    memcpy(before, bytes, sizeof before);
    for (size_t length = 0; length <= sizeof bytes; length++) {
        if (length != BUNVESPO_WINDOW_SIZE) {
            bunvespo_window_empty(bytes, length);
            expect("an entry is answered", bunvespo_window_put(bytes, length, 5, 1).refusal == BUNVESPO_ANSWERED);
            expect("a count is answered", bunvespo_window_count(bytes, length, 5).refusal == BUNVESPO_ANSWERED);
        }
    }
    expect("nothing is written", memcmp(before, bytes, sizeof before) == 0);
}

int main(void)
{
    uint8_t window[BUNVESPO_WINDOW_SIZE], zero[BUNVESPO_WINDOW_SIZE] = {0};
    memset(window, 0xEE, sizeof window);
    test_refused(window);
    bunvespo_window_empty(window, sizeof window);
    expect("an empty window is zero", memcmp(window, zero, sizeof window) == 0);
    put(window, 1, 63, 17);
    put(window, 255, 5, UINT64_MAX);
    expect("counts while there are 256", count(window, 63) == 1 && count(window, 5) == 255 && count(window, 0) == 0);
    expect("entries stand in their bytes", window[0] == 64 && window[1] == 6 && window[255] == 6 && window[384] == 0);
    put(window, 1, 5, 1);
    expect("256 of one number", count(window, 63) == 0 && count(window, 5) == 256);
    expect("a count of 256 has two bytes", window[266] == 1 && window[267] == 0 && window[384] == 1);
    put(window, 2, 9, 0);
    expect("accepted entries push others out", count(window, 5) == 254 && count(window, 9) == 0);
    test_refused(window);
    test_other_lengths();
    return failures != 0;
}
