/*
 * A fuzz input is a list of steps. A step is eight bytes and a text:
 *   0     what it does: enum step_kind, by the remainder
 *   1     where the slices are lent (lent.h)
 *   2, 3  the number a
 *   4, 5  the number b
 *   6, 7  how many bytes of text follow; fewer where the input ends
 * Numbers stand low byte first, and bytes that are missing are 0: every input is a list of steps. Those past the first 64 are left out.
 *
 * The steps start from a fresh session.
 *   a line       the text; where b is not 0, the text over and over, b % 1101 bytes in all. a picks the store's length (store_len).
 *   an alias     the command in eight bytes, low byte first; then the word, where b is not 0 over and over, b % 41 bytes in all.
 *   remembered   a picks the store's length.
 *   fresh        nothing more.
 *   damage       the text is written over the session from byte a on, as far as the session goes; over and over where b's second bit is set.
 *   a length     the session is a % 2201 bytes long: cut, or with the text over and over behind it.
 *   tokens       as a line, but for the store's lengths.
 *   a sentence   of the refusal with the number in the first eight bytes, low byte first; a picks the store's length.
 *   a name       of the command with that number, in the same way.
 *   a version    nothing more.
 * Where b's first bit is set, damage and length hold for the next call only.
 */
#ifndef STEPS_H
#define STEPS_H

#include "bytes.h"

#define MOST_STEPS 64
#define STEP_HEAD 8

/* Bits of b, of damage and length. */
#define ONCE 1
#define OVER 2

enum step_kind {
    STEP_LINE, STEP_ALIAS, STEP_REMEMBERED, STEP_FRESH, STEP_DAMAGE, STEP_LENGTH, STEP_TOKENS, STEP_SENTENCE, STEP_NAME, STEP_VERSION, STEP_KINDS
};

struct step {
    enum step_kind kind;
    uint8_t where;
    size_t a, b;
    const uint8_t *text;
    size_t len;
};

struct steps {
    struct step list[MOST_STEPS];
    size_t count;
};

/* The steps of an input; their texts are parts of it. */
void read_steps(const uint8_t *input, size_t len, struct steps *out);

/* Makes the calls. */
void run_steps(const struct steps *steps);

#endif
