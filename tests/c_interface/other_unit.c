/* The second translation unit of refusals.c. */
#include "other_unit.h"

const char *words_elsewhere(uint64_t refusal)
{
    return bunvespo_refusal_words(refusal);
}

bunvespo_answer held_elsewhere(uint64_t right)
{
    const uint8_t smallest[9] = {1, 0, 0, 0, 4, 1, 0, 0, 2};
    return bunvespo_held(smallest, sizeof smallest, 0, 0, right);
}
