/* Bytes that the driver keeps for itself: a session, a line or word, or a store, before or after a call. */
#ifndef BYTES_H
#define BYTES_H

#include <stddef.h>
#include <stdint.h>

/* The longest of each that is tried; a store for tokens is longer than the others. */
#define MOST_SESSION 2200
#define MOST_LINE 1100
#define MOST_STORE 1200
#define MOST_TOKENS 5600
#define MOST MOST_TOKENS

struct bytes {
    uint8_t at[MOST];
    size_t len;
};

/* A number in two bytes, low byte first. */
static inline size_t two_at(const uint8_t *b) { return b[0] + 256u * b[1]; }

static inline void put_two(uint8_t *b, size_t n) {
    b[0] = (uint8_t)(n % 256);
    b[1] = (uint8_t)(n / 256);
}

#endif
