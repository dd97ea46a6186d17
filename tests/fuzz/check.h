/* What must hold, and what was met. */
#ifndef CHECK_H
#define CHECK_H

#include <stddef.h>
#include <stdint.h>

enum call { FRESH, LINE, ALIAS, REMEMBERED, TOKENS, REFUSAL_TEXT, COMMAND_NAME, VERSION, CALLS };

/* Says what does not hold and aborts; the fuzzer then keeps the input. */
void must(int holds, const char *what);

/* Counts an answer that is looked at, and shows it to the fuzzer as coverage: the library itself is not instrumented. */
void met_answer(enum call call, uint64_t refusal);

/* The same for an accepted record: its kind, and a number that its cases make, however large its own numbers are. */
void met_record(unsigned kind, uint32_t shape);

/* The same for readings; limit is how many the line can take at most. */
void met_readings(uint64_t readings, uint64_t limit);

/* The same for a token: its kind, and that of the one before it, or as many as there are kinds where it is the first. */
void met_token(unsigned before, unsigned kind);

/* Prints the counts. */
void met_print(void);

#endif
