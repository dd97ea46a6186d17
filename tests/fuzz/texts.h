/* The sentences of the refusals, in a table apart from the library. */
#ifndef TEXTS_H
#define TEXTS_H

#include <stdint.h>

/* The sentence of a refusal; the empty one for a number that no refusal has. */
const char *sentence_of(uint64_t refusal);

#endif
