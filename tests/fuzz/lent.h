/*
 * Slices as they are lent to the library. It is not instrumented, so that no sanitizer sees what it reads and writes; the place of a slice does:
 * - AT_END and AT_START: the slice ends, or begins, at a page that cannot be read or written;
 * - BETWEEN: it lies among guard bytes, at any alignment;
 * - ON_HEAP: it is a block of its own, of its exact length, for valgrind.
 * All other bytes of its pages are guard bytes in the first three, and a slice that is lent to read is seen through pages that cannot be
 * written.
 */
#ifndef LENT_H
#define LENT_H

#include "bytes.h"

enum lent { SESSION, TEXT, STORE, LENT };
enum place { AT_END, AT_START, BETWEEN, ON_HEAP, PLACES };

/* Makes the pages; once, before all else. With only_heap every place is ON_HEAP. */
void lent_setup(int only_heap);

/* Lends a copy of the bytes, to write or to read. where is a place by its remainder; the rest of it picks the guard bytes. */
uint8_t *lend(enum lent which, unsigned where, const struct bytes *from);
const uint8_t *lend_const(enum lent which, unsigned where, const struct bytes *from);

/* Looks at the guard bytes, and takes the bytes as they are now. */
void take_back(enum lent which, struct bytes *now);

#endif
