/*
 * The tokens of a line, written in C from document 01, section Reading, and from include/pagyolint.h, not from the library.
 *
 * A text is the line, or the argument of a prefix, which is a text of its own: it goes up to the first 0x0A. The tokens of a text are those of
 * what stands before the argument, then those of the argument, told apart as a list is, then those of what stands behind it.
 */
#ifndef TOKENS_H
#define TOKENS_H

#include "bytes.h"
#include "pagyolint.h"

struct token {
    enum pagyolint_token_kind kind;
    size_t start, stop;
};

/* No more tokens than a line has bytes. */
struct tokens {
    struct token list[PAGYOLINT_LINE_BYTES];
    size_t count;
};

/* The tokens of a line that is not too long, by the words of a sound session. */
void tokens_of(const struct bytes *session, const struct bytes *line, struct tokens *out);

/* The bytes that they stand in a store as, PAGYOLINT_TOKEN_BYTES each. */
void write_tokens(const struct tokens *tokens, uint8_t *to);

/* How many of them are of a kind. */
size_t tokens_with(const struct tokens *tokens, enum pagyolint_token_kind kind);

#endif
