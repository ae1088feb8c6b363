/* What other_unit.c offers: the header's words, and a call, from a second translation unit. */
#ifndef OTHER_UNIT_H
#define OTHER_UNIT_H

#include "bunvespo.h"

/* bunvespo_refusal_words of the other unit. */
const char *words_elsewhere(uint64_t refusal);

/* Whether U of the smallest station holds a right over itself. */
bunvespo_answer held_elsewhere(uint64_t right);

#endif
