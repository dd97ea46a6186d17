/*
 * A table of words with their commands, as it stands in bytes, written from docs/SESSION-BYTES.md and not from the library:
 *   at                  how many words there are
 *   at + 1, .. + 24     how many of them have 1, 2, .. 24 bytes
 *   at + 25, ..         their commands, a byte each
 *   at + 25 + room, ..  the words, one after the other
 * Shorter words come first; of two that are equally long the one whose last byte is lower, or the one before it, and so on.
 */
#ifndef TABLE_H
#define TABLE_H

#include <stddef.h>
#include <stdint.h>

#define MOST_WORD 24
#define MOST_ROOM 128

/* The bytes of a table with so much room. */
#define TABLE_BYTES(room) (1 + MOST_WORD + (1 + MOST_WORD) * (room))

/* Where a table stands, and how many words it has room for. */
struct table {
    size_t at, room;
};

/* A word and its command. */
struct row {
    const uint8_t *word;
    size_t len;
    uint64_t command;
};

/* Rows in the order in which they stand, with room for a new one. */
struct rows {
    struct row list[MOST_ROOM + 1];
    size_t count;
};

/* Where the counts, the commands and the words stand. The count of words of len bytes is the one at counts_at + len - 1. */
static inline size_t counts_at(struct table t) { return t.at + 1; }
static inline size_t commands_at(struct table t) { return counts_at(t) + MOST_WORD; }
static inline size_t words_at(struct table t) { return commands_at(t) + t.room; }

/* Below 0, 0 or above 0. */
int row_order(const struct row *a, const struct row *b);

/* 1 to 24 word characters. */
int is_alias(const uint8_t *word, size_t len);

/* Whether the bytes keep the rules of a table. */
int is_table(const uint8_t *bytes, struct table t);

/* The rows that bytes are read as, whatever the bytes are. Where the counts are too few, words are empty; where there are more words than
   room, so are all. The words stay where they are. */
void read_rows(const uint8_t *bytes, struct table t, struct rows *out);

/* Whether a table may have these rows. */
int are_good(const struct rows *rows, struct table t);

/* Writes the rows; no byte that is free afterwards changes. */
void write_rows(uint8_t *bytes, struct table t, const struct rows *rows);

/* Puts a row into its place, or over the one with its word; 0 where it is new and there is no room. */
int insert_row(struct rows *rows, struct table t, const struct row *row);

/* The row with this word, or null. */
const struct row *find_row(const struct rows *rows, const uint8_t *word, size_t len);

/* Sets used to 1 for each byte that a good table uses. */
void mark_table(const uint8_t *bytes, struct table t, uint8_t *used);

#endif
