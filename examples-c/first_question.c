/*
 * A first question: can subject 1 of station A come to hold basic right 0 over log 3? It is asked with everybody trusted, with
 * subjects 0 and 2 trusted, and with a trust mask that names a subject beyond the record.
 * Build here: gcc -std=c99 -Wall -Wextra -Iinclude examples-c/first_question.c target/staticlib/libbunvespo.a -o first_question
 * After ./install PREFIX, with PREFIX/lib/pkgconfig in PKG_CONFIG_PATH:
 *             gcc -std=c99 -Wall -Wextra $(pkg-config --cflags bunvespo) first_question.c $(pkg-config --libs bunvespo) -o first_question
 */
#include <inttypes.h>
#include <stdio.h>

#include "bunvespo.h"

/* Station A: U owns subject 1, subject 1 owns subject 2, and subject 2 owns log 3. */
static const uint8_t station_a[31] = {
    1, 0, 0, 0, 0x1A, 3, 1, /* version, L, n, p */
    0, 2, 0, 1, 0, 0, 0, 0, /* row 0 */
    0, 0, 0, 2, 0, 1, 0, 0, /* row 1 */
    0, 0, 0, 0, 0, 2, 0, 1, /* row 2 */
};

/* Prints the commands of a list, one on a line: code, i, s, o, k. */
static void print_list(const uint8_t *list, uint64_t count)
{
    for (uint64_t j = 0; j < count; j++) {
        const uint8_t *c = list + 5 + 6 * j;
        printf("%d %d %d %d %d\n", c[1], c[2], c[3], c[4], c[5]);
    }
}

/* Asks the question with a trust mask and prints the answer, with the list of commands where it leaks. */
static void ask(uint64_t trust)
{
    uint8_t out[BUNVESPO_BUFFER_SIZE(3)];
    bunvespo_answer answer = bunvespo_safety(station_a, sizeof station_a, trust, 1, 3, BUNVESPO_PLAIN(0), out, sizeof out);
    if (answer.refusal != BUNVESPO_ANSWERED) {
        printf("trust %" PRIu64 ": refused %" PRIu64 ": %s\n", trust, answer.refusal, bunvespo_refusal_words(answer.refusal));
    } else if (answer.value == 0) {
        printf("trust %" PRIu64 ": safe\n", trust);
    } else {
        printf("trust %" PRIu64 ": leaks %" PRIu64 "\n", trust, answer.value - 1);
        print_list(out, answer.value - 1);
    }
}

int main(void)
{
    ask(7);
    ask(5);
    ask(8);
    return 0;
}
