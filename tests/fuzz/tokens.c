/* The tokens of a line. */
#include "tokens.h"

#include <string.h>

#include "check.h"
#include "model.h"
#include "words.h"

/* No byte: what stands at the end of a text. */
#define NONE (-1)

/* A text that is read: it goes up to end, and all before at has its tokens. */
struct reader {
    const struct bytes *session, *line;
    size_t at, end;
    struct tokens *out;
};

static int byte_at(const struct reader *r, size_t i) { return i < r->end ? r->line->at[i] : NONE; }

static int is_one_of(int c, const char *bytes) { return c > 0 && strchr(bytes, c) != NULL; }

static int is_digit(int c) { return '0' <= c && c <= '9'; }

static int is_letter(int c) { return ('a' <= c && c <= 'z') || ('A' <= c && c <= 'Z'); }

static int is_space(int c) { return c == ' ' || c == '\t'; }

/* What stands up to a place is a token, if that is further on. */
static void take(struct reader *r, enum pagyolint_token_kind kind, size_t stop) {
    if (stop == r->at)
        return;
    must(r->at < stop && stop <= r->end && r->out->count < PAGYOLINT_LINE_BYTES, "the model has a token that is none");
    r->out->list[r->out->count++] = (struct token){kind, r->at, stop};
    r->at = stop;
}

static void take_spaces(struct reader *r) {
    size_t i = r->at;
    while (is_space(byte_at(r, i)))
        i++;
    take(r, PAGYOLINT_TOKEN_SPACE, i);
}

static void take_colons(struct reader *r) {
    size_t i = r->at;
    while (byte_at(r, i) == ':')
        i++;
    take(r, PAGYOLINT_TOKEN_COLON, i);
}

/* Goes past digits, or none; 0 where they pass 2^64 - 1. */
static int pass_digits(const struct reader *r, size_t *i) {
    uint64_t n = 0;
    for (; is_digit(byte_at(r, *i)); (*i)++) {
        uint64_t digit = (uint64_t)(byte_at(r, *i) - '0');
        if (n > (UINT64_MAX - digit) / 10)
            return 0;
        n = n * 10 + digit;
    }
    return 1;
}

/* The length of an atom that is no number. */
static size_t sign_len(const struct reader *r, size_t i) {
    int first = byte_at(r, i), next = byte_at(r, i + 1);
    if (is_one_of(first, ".%$"))
        return 1;
    if (first == '\\')
        return is_one_of(next, "/?&") ? 2 : 0;
    if (first == '\'')
        return is_letter(next) || is_digit(next) || is_one_of(next, "<>[]'^.\"`") ? 2 : 0;
    return 0;
}

/* Goes past an end of a range, or nothing: an atom or none, and offsets. 0 where a number is too large. */
static int pass_end(const struct reader *r, size_t *i) {
    if (is_digit(byte_at(r, *i))) {
        if (!pass_digits(r, i))
            return 0;
    } else {
        *i += sign_len(r, *i);
    }
    while (is_one_of(byte_at(r, *i), "+-")) {
        (*i)++;
        if (!pass_digits(r, i))
            return 0;
    }
    return 1;
}

/* The range, or none; 0 where a number is too large: then there is no token. */
static int take_range(struct reader *r) {
    size_t i = r->at;
    if (!pass_end(r, &i))
        return 0;
    if (is_one_of(byte_at(r, i), ",;")) {
        i++;
        if (!pass_end(r, &i))
            return 0;
    }
    take(r, PAGYOLINT_TOKEN_RANGE, i);
    return 1;
}

/* What a word does: it cannot be read, it names a prefix, or neither. */
enum named { NO_WORD, PREFIX, OTHER };

static enum named take_word(struct reader *r) {
    size_t i = r->at;
    if (byte_at(r, i) == '!')
        i++;
    else
        while (i < r->end && is_word_byte(r->line->at[i]))
            i++;
    if (i == r->at) {
        /* The empty word: at the end, or by the 0x0A that it consumes. */
        if (i < r->end && byte_at(r, i) != '\n')
            return NO_WORD;
        take(r, PAGYOLINT_TOKEN_NEWLINE, i < r->end ? i + 1 : i);
        return OTHER;
    }
    int command = command_of(r->session, r->line->at + r->at, i - r->at);
    enum named named = command >= 0 && is_prefix((unsigned)command) ? PREFIX : OTHER;
    take(r, named == PREFIX ? PAGYOLINT_TOKEN_PREFIX : PAGYOLINT_TOKEN_WORD, i);
    return named;
}

/* What stands before the argument. Where it cannot be read, the rest of the text is left over. */
static enum named take_lead(struct reader *r) {
    take_spaces(r);
    take_colons(r);
    take_spaces(r);
    enum named named = take_range(r) ? take_word(r) : NO_WORD;
    if (named == NO_WORD) {
        take(r, PAGYOLINT_TOKEN_LEFT, r->end);
        return NO_WORD;
    }
    if (byte_at(r, r->at) == '!')
        take(r, PAGYOLINT_TOKEN_BANG, r->at + 1);
    take_spaces(r);
    return named;
}

/* Past a quoted item, its quotes among it, or where it stands if it is none. */
static size_t past_quoted(const struct reader *r) {
    size_t i = r->at + 1;
    for (;;) {
        int c = byte_at(r, i);
        if (c == '"')
            return i == r->at + 1 ? r->at : i + 1;
        if (c == NONE || c == '\t' || c == '\n' || (c == '\\' && !is_one_of(byte_at(r, i + 1), "trn\\\"")))
            return r->at;
        i += c == '\\' ? 2 : 1;
    }
}

/* Past a plain item, or where it stands if it is none. */
static size_t past_plain(const struct reader *r) {
    size_t i = r->at;
    for (;;) {
        int c = byte_at(r, i);
        if (c == NONE || is_one_of(c, "\t\n |\"") || (c == '\\' && !is_one_of(byte_at(r, i + 1), "\\ #%|\"")))
            return i;
        i += c == '\\' ? 2 : 1;
    }
}

/* The first 0x0A from where it stands on, or the end. */
static size_t next_newline(const struct reader *r) {
    size_t i = r->at;
    while (i < r->end && byte_at(r, i) != '\n')
        i++;
    return i;
}

/* The argument: items parted by spaces; from where none can be read, its rest. */
static void take_argument(struct reader *r) {
    while (r->at < r->end && byte_at(r, r->at) != '\n') {
        int quoted = byte_at(r, r->at) == '"';
        size_t stop = quoted ? past_quoted(r) : past_plain(r);
        int next = byte_at(r, stop);
        if (stop > r->at && (next == NONE || next == '\n' || is_space(next)))
            take(r, quoted ? PAGYOLINT_TOKEN_QUOTED : PAGYOLINT_TOKEN_TEXT, stop);
        else
            take(r, PAGYOLINT_TOKEN_UNLISTED, next_newline(r));
        take_spaces(r);
    }
}

void tokens_of(const struct bytes *session, const struct bytes *line, struct tokens *out) {
    struct reader r = {session, line, 0, line->len, out};
    enum named named;
    out->count = 0;
    while ((named = take_lead(&r)) == PREFIX)
        r.end = next_newline(&r);
    if (named == OTHER)
        take_argument(&r);
    /* Behind the argument stands nothing, a 0x0A that ends the line, or a 0x0A and what is left over. */
    r.end = line->len;
    take(&r, r.at + 1 == r.end ? PAGYOLINT_TOKEN_NEWLINE : PAGYOLINT_TOKEN_LEFT, r.end);
}

void write_tokens(const struct tokens *tokens, uint8_t *to) {
    for (size_t i = 0; i < tokens->count; i++, to += PAGYOLINT_TOKEN_BYTES) {
        to[0] = (uint8_t)tokens->list[i].kind;
        put_two(to + 1, tokens->list[i].start);
        put_two(to + 3, tokens->list[i].stop);
    }
}

size_t tokens_with(const struct tokens *tokens, enum pagyolint_token_kind kind) {
    size_t n = 0;
    for (size_t i = 0; i < tokens->count; i++)
        n += tokens->list[i].kind == kind;
    return n;
}
