/*
 * What a session is and what a call makes of it, written in C from document 01 and docs/SESSION-BYTES.md, not from the library.
 * Of a line it has the checks and the bytes afterwards; what the readings answer is not here.
 */
#ifndef MODEL_H
#define MODEL_H

#include "bytes.h"
#include "pagyolint.h"
#include "table.h"

/* The line, behind its length in two bytes, and the table of the added aliases. */
#define LINE_AT 2
#define ADDED_AT (LINE_AT + PAGYOLINT_LINE_BYTES)
#define MOST_ALIASES 32

static const struct table added_table = {ADDED_AT, MOST_ALIASES};

/* UTF-8 by RFC 3629. */
int is_utf8(const uint8_t *text, size_t len);

/* Whether bytes keep the rules of docs/SESSION-BYTES.md. All others are refusal 99. */
int is_sound(const struct bytes *session);

/* The same in other words: whether there are as many as a session has, and a well-formed session, the one that they are read as, is written
   as them. */
int is_written(const struct bytes *session);

/* As many bytes as a session has become a fresh one. */
void make_fresh(struct bytes *session);

/* The rest is about sound sessions. */

/* The length of the remembered line. */
size_t line_len(const struct bytes *session);

/* The command that a word leads to, an added alias before a shipped word; -1 for none. */
int command_of(const struct bytes *session, const uint8_t *word, size_t len);

/* A shortest word that leads to a prefix; its command is as in the session. 0 where there is none. */
int shortest_prefix(const struct bytes *session, struct row *out);

/* How many readings a line of so many bytes can take. */
uint64_t readings_limit(const struct bytes *session, size_t len);

/* The session once this line is remembered. */
void remember(struct bytes *session, const struct bytes *line);

/* What adding an alias answers; where that is 0, it is added. */
uint64_t add_alias(struct bytes *session, const struct bytes *word, uint64_t command);

/* Sets used, as long as a session, to 1 for each byte that is used and to 0 for each that is free. */
void mark_used(const struct bytes *session, uint8_t *used);

/* Other bytes wherever bytes are free: it is the same session. */
void change_free(struct bytes *session);

#endif
