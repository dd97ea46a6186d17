/*
 * Pagyolint over C: a session that rests in the caller's bytes and the calls on it; the tokens of a line, for tools that highlight it; the
 * texts that go with refusals and commands; and the version.
 *
 * docs/RULES.md says what a line means, docs/RECORD.md how a record is read, docs/SESSION-BYTES.md how a session's bytes lie.
 * crates/pagyolint/src/lib.rt has the contracts that the functions are proved to meet. They take all arguments that keep the rules below,
 * allocate nothing, and keep nothing from one call to the next.
 *
 * A slice is a pointer and a count of bytes. No function can check these rules; the caller keeps them:
 * - a pointer is not null, and is good for as many bytes as its count says;
 * - all these bytes are initialised, those of a store too;
 * - the slices of one call share no byte with each other;
 * - during the call nothing else reads or writes a slice without const, and nothing writes one with const.
 *
 * The first rule holds for a count of 0 too: the language that the functions are written in has no null pointer. A caller who may have a
 * null pointer with a count of 0 passes any other pointer in its place, with the same 0:
 *
 *     pagyolint_line(session, sizeof session, line ? line : (const uint8_t *)"", line_len, store, sizeof store)
 *
 * What a call writes to a store stands at its front; no other byte of the store changes. A refused call changes nothing, save what is said
 * at pagyolint_line.
 *
 * Word characters are the ASCII letters and # & * < = > @ ~
 */
#ifndef PAGYOLINT_H
#define PAGYOLINT_H

#include <stddef.h>
#include <stdint.h>

/* The version of this header. pagyolint_version() answers the library's, in the form of PAGYOLINT_VERSION_NUMBER. */
#define PAGYOLINT_VERSION_MAJOR 1
#define PAGYOLINT_VERSION_MINOR 0
#define PAGYOLINT_VERSION_PATCH 0
#define PAGYOLINT_VERSION "1.0.0"
#define PAGYOLINT_VERSION_NUMBER (PAGYOLINT_VERSION_MAJOR * 1000000 + PAGYOLINT_VERSION_MINOR * 1000 + PAGYOLINT_VERSION_PATCH)

/* A session has so many bytes, no more and no fewer. */
#define PAGYOLINT_SESSION_BYTES 1851

/* A line has at most so many bytes. */
#define PAGYOLINT_LINE_BYTES 1024

/* A store of so many bytes is enough for every line: a line needs 40 bytes more than it has itself. */
#define PAGYOLINT_STORE_BYTES 1064

/* An alias has at most so many bytes, and a session has at most so many aliases. */
#define PAGYOLINT_WORD_BYTES 24
#define PAGYOLINT_ALIASES 32

/* A token takes so many bytes in a store. As a line has no more tokens than bytes, the second is enough for the tokens of every line. */
#define PAGYOLINT_TOKEN_BYTES 5
#define PAGYOLINT_TOKENS_BYTES 5120

/* A store of so many bytes is enough for every refusal's sentence and for every command's name. */
#define PAGYOLINT_TEXT_BYTES 64

#ifdef __cplusplus
extern "C" {
#endif

/* What a call answers: 0, or the number of a refusal. */
enum pagyolint_refusal {
    PAGYOLINT_ACCEPTED = 0,          /* not refused */
    PAGYOLINT_LINE_TOO_LONG = 1,     /* the line is above 1,024 bytes */
    PAGYOLINT_NOT_UTF8 = 2,          /* the line is not UTF-8 by RFC 3629 */
    PAGYOLINT_PARSE_FAILED = 3,      /* a line, list or range does not parse */
    PAGYOLINT_NUMBER_TOO_LARGE = 4,  /* digits above 18446744073709551615 */
    PAGYOLINT_INVALID_ARGUMENT = 5,  /* an argument that the command does not take */
    PAGYOLINT_INVALID_RANGE = 6,     /* a range that the command does not take */
    PAGYOLINT_SUM_TOO_LARGE = 7,     /* a sum of offsets passes 18446744073709551615 */
    PAGYOLINT_BAD_ALIAS = 8,         /* the alias is not 1 to 24 word characters */
    PAGYOLINT_BAD_COMMAND = 9,       /* the command's number is above 27 */
    PAGYOLINT_UNKNOWN_WORD = 10,     /* no command has the word; the store starts with it */
    PAGYOLINT_UNIMPLEMENTED = 11,    /* !, &, read, print and substitute */
    PAGYOLINT_STORE_TOO_SHORT = 12,  /* the store is shorter than what the call needs */
    PAGYOLINT_ALIASES_FULL = 13,     /* a new alias when 32 are there */
    PAGYOLINT_NOT_A_SESSION = 99     /* bytes of another length, or that no session is written as */
};

/* The commands, by their numbers. A later version may have more of them, more refusals, and more kinds of tokens. */
enum pagyolint_command {
    PAGYOLINT_FILTER = 0,             /* ! */
    PAGYOLINT_SUBSTITUTE_REPEAT = 1,  /* & */
    PAGYOLINT_READ = 2,
    PAGYOLINT_PRINT = 3,
    PAGYOLINT_SUBSTITUTE = 4,
    PAGYOLINT_CLOSE = 5,
    PAGYOLINT_ONLY = 6,
    PAGYOLINT_QUIT = 7,
    PAGYOLINT_QUITALL = 8,
    PAGYOLINT_RESIZE = 9,
    PAGYOLINT_SPLIT = 10,
    PAGYOLINT_VSPLIT = 11,
    PAGYOLINT_VIEW = 12,
    PAGYOLINT_TAB = 13,
    PAGYOLINT_TABCLOSE = 14,
    PAGYOLINT_TABEDIT = 15,
    PAGYOLINT_TABMOVE = 16,
    PAGYOLINT_TABNEXT = 17,
    PAGYOLINT_TABONLY = 18,
    PAGYOLINT_TABPREVIOUS = 19,
    PAGYOLINT_TABFIRST = 20,
    PAGYOLINT_TABLAST = 21,
    PAGYOLINT_WRITE = 22,
    PAGYOLINT_WALL = 23,
    PAGYOLINT_HORIZONTAL = 24,
    PAGYOLINT_VERTICAL = 25,
    PAGYOLINT_ABOVELEFT = 26,
    PAGYOLINT_BELOWRIGHT = 27
};

/* What a token is. */
enum pagyolint_token_kind {
    PAGYOLINT_TOKEN_SPACE = 0,     /* spaces and tabs */
    PAGYOLINT_TOKEN_COLON = 1,     /* the colons before a range or word */
    PAGYOLINT_TOKEN_RANGE = 2,     /* the range before a word */
    PAGYOLINT_TOKEN_WORD = 3,      /* the word, if it names no prefix */
    PAGYOLINT_TOKEN_BANG = 4,      /* the ! behind a word */
    PAGYOLINT_TOKEN_TEXT = 5,      /* plain text of an argument */
    PAGYOLINT_TOKEN_QUOTED = 6,    /* quoted text of an argument, with its quotes */
    PAGYOLINT_TOKEN_NEWLINE = 7,   /* a 0x0A that a reading consumes */
    PAGYOLINT_TOKEN_UNLISTED = 8,  /* the rest of an argument that is no list */
    PAGYOLINT_TOKEN_LEFT = 9,      /* what a reading that fails leaves over */
    PAGYOLINT_TOKEN_PREFIX = 10    /* a word that names a prefix: the tokens of the next reading follow */
};

/* What a line answers: the refusal or 0; how many readings were begun; and how many bytes were written to the store. */
struct pagyolint_line_reply {
    uint64_t refusal;
    uint64_t readings;
    uint64_t count;
};

/* What the other calls with a store answer: the refusal or 0, and how much was written, tokens or bytes; 0 where refused. */
struct pagyolint_count_reply {
    uint64_t refusal;
    uint64_t count;
};

/*
 * Writes a fresh session, which remembers the empty line and has no added alias. It is the first call on a session's bytes.
 * session: to write; any bytes. Only their count is checked. Bytes 0, 1 and 1,026 are written, all others stay.
 * Answers 0, or 99.
 */
uint64_t pagyolint_fresh(uint8_t *session, size_t session_len);

/*
 * Runs a line.
 * session: to read and write. The line is remembered once checks 1, 12 and 2 pass, even if it is then refused.
 * line:    to read; any bytes, with no zero at their end.
 * store:   to write; PAGYOLINT_STORE_BYTES are enough for every line.
 * An accepted line writes its record; refusal 10 writes the word as a name of the record's form; other refused lines write nothing.
 * Checks come in this order: 99, 1, 12, 2, and then what the readings meet.
 */
struct pagyolint_line_reply pagyolint_line(uint8_t *session, size_t session_len, const uint8_t *line, size_t line_len, uint8_t *store, size_t store_len);

/*
 * Adds an alias for a command, or replaces the one with this word.
 * session: to read and write.
 * word:    to read; any bytes, with no zero at their end. It is taken if it is 1 to 24 word characters.
 * command: a number of enum pagyolint_command.
 * Answers 0, or the first of 99, 8, 9 and 13 that holds.
 */
uint64_t pagyolint_alias(uint8_t *session, size_t session_len, const uint8_t *word, size_t word_len, uint64_t command);

/*
 * Copies the remembered line to the front of the store, and answers how many bytes it has.
 * session: to read.
 * store:   to write; PAGYOLINT_LINE_BYTES are enough for every line.
 * Refused by 99, then 12, for a store that is shorter than the line.
 */
struct pagyolint_count_reply pagyolint_remembered(const uint8_t *session, size_t session_len, uint8_t *store, size_t store_len);

/*
 * Writes the tokens of a line to the front of the store, and answers how many they are. They cover the line in order, without overlap,
 * and none is empty, whether the line would be accepted or not. The argument of a prefix is read as the next text, and so has tokens as a
 * line has. The line is not run, and need not be UTF-8.
 * session: to read; its aliases tell which words name prefixes.
 * line:    to read; any bytes, with no zero at their end.
 * store:   to write; PAGYOLINT_TOKENS_BYTES are enough for every line.
 * Token number i, from 0 on, takes PAGYOLINT_TOKEN_BYTES bytes from i * PAGYOLINT_TOKEN_BYTES on: one for its kind, enum
 * pagyolint_token_kind; two for the place of its first byte in the line; two for the place past its last. Both have their low byte first.
 * Refused by the first of 99; 1, for a line above 1,024 bytes; and 12, for a store of fewer than PAGYOLINT_TOKEN_BYTES bytes for each byte
 * of the line.
 */
struct pagyolint_count_reply pagyolint_tokens(const uint8_t *session, size_t session_len, const uint8_t *line, size_t line_len, uint8_t *store, size_t store_len);

/*
 * Writes a refusal's sentence to the front of the store, in ASCII with no zero at its end, and answers how many bytes it has. A number that
 * no refusal has, as 0, is not refused: it answers 0 bytes, and nothing is written.
 * store: to write; PAGYOLINT_TEXT_BYTES are enough.
 * Refused by 12, for a store that is shorter than the sentence.
 */
struct pagyolint_count_reply pagyolint_refusal_text(uint64_t refusal, uint8_t *store, size_t store_len);

/*
 * Writes a command's name to the front of the store, in ASCII with no zero at its end, and answers how many bytes it has.
 * store: to write; PAGYOLINT_TEXT_BYTES are enough.
 * Refused by 9, for a number above 27; then 12, for a store that is shorter than the name.
 */
struct pagyolint_count_reply pagyolint_command_name(uint64_t command, uint8_t *store, size_t store_len);

/*
 * Answers the version of the library: PAGYOLINT_VERSION_NUMBER where header and library are of one version.
 */
uint64_t pagyolint_version(void);

#ifdef __cplusplus
}
#endif

#endif
