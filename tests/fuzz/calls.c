/*
 * The calls. Each is made three times: on the bytes; again, elsewhere in memory, which must give the same; and on a session whose free bytes
 * are others, with other bytes in the store, which must give the same but for these bytes.
 */
#include "calls.h"

#include <string.h>

#include "check.h"
#include "lent.h"
#include "model.h"
#include "pagyolint.h"
#include "record.h"
#include "texts.h"
#include "tokens.h"
#include "words.h"

/* All that a call leaves. */
struct after {
    uint64_t refusal, readings, count;
    struct bytes session, store;
};

static int same(const struct bytes *a, const struct bytes *b) { return a->len == b->len && memcmp(a->at, b->at, a->len) == 0; }

static int same_reply(const struct after *a, const struct after *b) {
    return a->refusal == b->refusal && a->readings == b->readings && a->count == b->count;
}

static void must_repeat(const struct after *a, const struct after *b) {
    must(same_reply(a, b) && same(&a->session, &b->session) && same(&a->store, &b->store), "the same call gave something else elsewhere");
}

/* Where free bytes and the store had other bytes. What the session and the rest of the store are was looked at already. */
static void must_agree(const struct after *a, const struct after *b) {
    must(same_reply(a, b) && memcmp(a->store.at, b->store.at, a->count) == 0, "the answer depends on free bytes or on the store's bytes");
}

/* The same session, by other bytes where it has free ones. */
static struct bytes other_session(const struct bytes *session) {
    struct bytes s = *session;
    if (is_sound(&s))
        change_free(&s);
    return s;
}

static struct bytes other_store(const struct bytes *store) {
    struct bytes s = *store;
    for (size_t i = 0; i < s.len; i++)
        s.at[i] ^= 0xFF;
    return s;
}

/* The store is as it was, but for so many bytes at its front. */
static void must_stay(const struct bytes *before, const struct bytes *now, size_t count) {
    must(count <= before->len, "more bytes written than the store has");
    must(memcmp(before->at + count, now->at + count, before->len - count) == 0, "a byte of the store behind those written has changed");
}

/* A fresh session. */

static struct after call_fresh(const struct bytes *session, unsigned where) {
    struct after a = {0};
    uint8_t *s = lend(SESSION, where, session);
    a.refusal = pagyolint_fresh(s, session->len);
    take_back(SESSION, &a.session);
    return a;
}

void try_fresh(struct bytes *session, unsigned where) {
    struct after a = call_fresh(session, where), b = call_fresh(session, where + 1);
    struct bytes want = *session;
    int good = session->len == PAGYOLINT_SESSION_BYTES;
    met_answer(FRESH, a.refusal);
    must(a.refusal == (good ? PAGYOLINT_ACCEPTED : PAGYOLINT_NOT_A_SESSION), "fresh: the wrong answer");
    if (good)
        make_fresh(&want);
    must(same(&want, &a.session), "fresh: the wrong session");
    must(is_sound(&a.session) == good, "fresh: not a session");
    must_repeat(&a, &b);
    *session = a.session;
}

/* A line. */

static struct after call_line(const struct bytes *session, const struct bytes *line, const struct bytes *store, unsigned where) {
    struct after a;
    struct bytes l;
    uint8_t *s = lend(SESSION, where, session), *t = lend(STORE, where, store);
    const uint8_t *text = lend_const(TEXT, where, line);
    struct pagyolint_line_reply r = pagyolint_line(s, session->len, text, line->len, t, store->len);
    a.refusal = r.refusal;
    a.readings = r.readings;
    a.count = r.count;
    take_back(SESSION, &a.session);
    take_back(TEXT, &l);
    take_back(STORE, &a.store);
    must(same(line, &l), "line: the line has changed");
    return a;
}

/* The first of 99, 1, 12 and 2; 0 where all pass. */
static uint64_t first_checks(const struct bytes *session, const struct bytes *line, const struct bytes *store) {
    if (!is_sound(session))
        return PAGYOLINT_NOT_A_SESSION;
    if (line->len > PAGYOLINT_LINE_BYTES)
        return PAGYOLINT_LINE_TOO_LONG;
    if (store->len < line->len + 40)
        return PAGYOLINT_STORE_TOO_SHORT;
    return is_utf8(line->at, line->len) ? PAGYOLINT_ACCEPTED : PAGYOLINT_NOT_UTF8;
}

/* The word of the line's last reading: the one token of that kind. */
static int is_the_word(const struct bytes *line, const struct tokens *tokens, const uint8_t *word, size_t len) {
    for (size_t i = 0; i < tokens->count; i++) {
        const struct token *t = &tokens->list[i];
        if (t->kind == PAGYOLINT_TOKEN_WORD)
            return t->stop - t->start == len && memcmp(line->at + t->start, word, len) == 0;
    }
    return 0;
}

/* Refusal 10: the store starts with the word of the line's last reading, as a name, and no command has that word. */
static void must_be_unknown(const struct bytes *session, const struct bytes *line, const struct tokens *tokens, const struct after *a) {
    uint64_t n;
    size_t used = read_number(a->store.at, a->count, &n);
    must(used > 0 && n >= 1 && used + n == a->count, "line: no name at refusal 10");
    const uint8_t *word = a->store.at + used;
    for (size_t i = 0; i < n; i++)
        must(is_word_byte(word[i]), "line: the word at refusal 10 is none");
    must(is_the_word(line, tokens, word, n), "line: the word at refusal 10 is not the line's");
    must(command_of(session, word, n) < 0, "line: the word at refusal 10 is known");
}

/* What holds of the answer once 99, 1, 12 and 2 pass. */
static void must_be_read(const struct bytes *session, const struct bytes *line, const struct after *a) {
    struct tokens tokens;
    uint64_t limit = readings_limit(session, line->len), prefixes;
    tokens_of(session, line, &tokens);
    prefixes = tokens_with(&tokens, PAGYOLINT_TOKEN_PREFIX);
    met_readings(a->readings, limit);
    must(1 <= a->readings, "line: no reading");
    must(a->readings <= limit, "line: more readings than it can take");
    must(a->readings <= prefixes + 1, "line: more readings than it has prefixes, and one");
    switch (a->refusal) {
    case PAGYOLINT_ACCEPTED:
        must(is_record(a->store.at, a->count, line->len), "line: no record");
        must(a->readings == prefixes + 1, "line: accepted with a prefix that was not read");
        must(tokens_with(&tokens, PAGYOLINT_TOKEN_LEFT) == 0, "line: accepted with something left over");
        break;
    case PAGYOLINT_UNKNOWN_WORD:
        must(a->readings == prefixes + 1, "line: an unknown word before a prefix");
        must_be_unknown(session, line, &tokens, a);
        break;
    case PAGYOLINT_PARSE_FAILED: case PAGYOLINT_NUMBER_TOO_LARGE: case PAGYOLINT_INVALID_ARGUMENT:
    case PAGYOLINT_INVALID_RANGE: case PAGYOLINT_SUM_TOO_LARGE: case PAGYOLINT_UNIMPLEMENTED:
        must(a->count == 0, "line: refused with a count");
        break;
    default:
        must(0, "line: a refusal that no reading has");
    }
}

static void check_line(const struct bytes *session, const struct bytes *line, const struct bytes *store, const struct after *a) {
    uint64_t first = first_checks(session, line, store);
    struct bytes want = *session;
    met_answer(LINE, a->refusal);
    must_stay(store, &a->store, a->count);
    if (first != PAGYOLINT_ACCEPTED) {
        must(a->refusal == first, "line: not the first of 99, 1, 12 and 2");
        must(a->readings == 0 && a->count == 0, "line: refused at once, with readings or a count");
    } else {
        must_be_read(session, line, a);
        remember(&want, line);
    }
    must(same(&want, &a->session), "line: the wrong session");
    must(is_sound(&a->session) == is_sound(session), "line: sound before and not after, or the other way round");
}

/* Demand 3: the line behind a prefix and a space has one reading more, where no 0x0A stands in it. */
static void check_prefixed(const struct bytes *session, const struct bytes *line, const struct after *a, unsigned where) {
    struct row p;
    if (a->readings == 0 || !shortest_prefix(session, &p) || line->len + p.len + 1 > PAGYOLINT_LINE_BYTES || memchr(line->at, '\n', line->len))
        return;
    struct bytes longer = {.len = p.len + 1 + line->len}, store = {.len = MOST_STORE};
    memcpy(longer.at, p.word, p.len);
    longer.at[p.len] = ' ';
    memcpy(longer.at + p.len + 1, line->at, line->len);
    struct after b = call_line(session, &longer, &store, where);
    check_line(session, &longer, &store, &b);
    must(b.readings == a->readings + 1, "line: a prefix before it is not one reading more");
}

void try_line(struct bytes *session, const struct bytes *line, const struct bytes *store, unsigned where) {
    struct after a = call_line(session, line, store, where);
    check_line(session, line, store, &a);
    struct after b = call_line(session, line, store, where + 1);
    must_repeat(&a, &b);
    struct bytes s = other_session(session), t = other_store(store);
    b = call_line(&s, line, &t, where + 2);
    check_line(&s, line, &t, &b);
    must_agree(&a, &b);
    check_prefixed(session, line, &a, where + 3);
    t = (struct bytes){.len = line->len * PAGYOLINT_TOKEN_BYTES};
    try_tokens(session, line, &t, where);
    *session = a.session;
}

/* An alias. */

static struct after call_alias(const struct bytes *session, const struct bytes *word, uint64_t command, unsigned where) {
    struct after a = {0};
    struct bytes w;
    uint8_t *s = lend(SESSION, where, session);
    const uint8_t *text = lend_const(TEXT, where, word);
    a.refusal = pagyolint_alias(s, session->len, text, word->len, command);
    take_back(SESSION, &a.session);
    take_back(TEXT, &w);
    must(same(word, &w), "alias: the word has changed");
    return a;
}

static void check_alias(const struct bytes *session, const struct bytes *word, uint64_t command, const struct after *a) {
    struct bytes want = *session;
    uint64_t answer = is_sound(session) ? add_alias(&want, word, command) : PAGYOLINT_NOT_A_SESSION;
    met_answer(ALIAS, a->refusal);
    must(a->refusal == answer, "alias: not the first of 99, 8, 9 and 13");
    must(same(&want, &a->session), "alias: the wrong session");
    must(is_sound(&a->session) == is_sound(session), "alias: sound before and not after, or the other way round");
    must(answer != PAGYOLINT_ACCEPTED || command_of(&a->session, word->at, word->len) == (int)command, "alias: it is not found");
}

void try_alias(struct bytes *session, const struct bytes *word, uint64_t command, unsigned where) {
    struct after a = call_alias(session, word, command, where);
    check_alias(session, word, command, &a);
    struct after b = call_alias(session, word, command, where + 1);
    must_repeat(&a, &b);
    struct bytes s = other_session(session);
    b = call_alias(&s, word, command, where + 2);
    check_alias(&s, word, command, &b);
    *session = a.session;
}

/* The remembered line. */

static struct after call_remembered(const struct bytes *session, const struct bytes *store, unsigned where) {
    struct after a = {0};
    const uint8_t *s = lend_const(SESSION, where, session);
    uint8_t *t = lend(STORE, where, store);
    struct pagyolint_count_reply r = pagyolint_remembered(s, session->len, t, store->len);
    a.refusal = r.refusal;
    a.count = r.count;
    take_back(SESSION, &a.session);
    take_back(STORE, &a.store);
    return a;
}

static void check_remembered(const struct bytes *session, const struct bytes *store, const struct after *a) {
    uint64_t answer = PAGYOLINT_NOT_A_SESSION;
    if (is_sound(session))
        answer = store->len < line_len(session) ? PAGYOLINT_STORE_TOO_SHORT : PAGYOLINT_ACCEPTED;
    met_answer(REMEMBERED, a->refusal);
    must(a->refusal == answer, "remembered: not the first of 99 and 12");
    must(a->count == (answer == PAGYOLINT_ACCEPTED ? line_len(session) : 0), "remembered: the wrong count");
    must_stay(store, &a->store, a->count);
    must(memcmp(a->store.at, session->at + LINE_AT, a->count) == 0, "remembered: another line");
    must(same(session, &a->session), "remembered: the session has changed");
}

void try_remembered(const struct bytes *session, const struct bytes *store, unsigned where) {
    struct after a = call_remembered(session, store, where);
    check_remembered(session, store, &a);
    struct after b = call_remembered(session, store, where + 1);
    must_repeat(&a, &b);
    struct bytes s = other_session(session), t = other_store(store);
    b = call_remembered(&s, &t, where + 2);
    check_remembered(&s, &t, &b);
    must_agree(&a, &b);
}

/* The tokens of a line. */

static struct after call_tokens(const struct bytes *session, const struct bytes *line, const struct bytes *store, unsigned where) {
    struct after a = {0};
    struct bytes l;
    const uint8_t *s = lend_const(SESSION, where, session), *text = lend_const(TEXT, where, line);
    uint8_t *t = lend(STORE, where, store);
    struct pagyolint_count_reply r = pagyolint_tokens(s, session->len, text, line->len, t, store->len);
    a.refusal = r.refusal;
    a.count = r.count;
    take_back(SESSION, &a.session);
    take_back(TEXT, &l);
    take_back(STORE, &a.store);
    must(same(line, &l), "tokens: the line has changed");
    return a;
}

static uint64_t tokens_answer(const struct bytes *session, const struct bytes *line, const struct bytes *store) {
    if (!is_sound(session))
        return PAGYOLINT_NOT_A_SESSION;
    if (line->len > PAGYOLINT_LINE_BYTES)
        return PAGYOLINT_LINE_TOO_LONG;
    return store->len < line->len * PAGYOLINT_TOKEN_BYTES ? PAGYOLINT_STORE_TOO_SHORT : PAGYOLINT_ACCEPTED;
}

static void meet_tokens(const struct tokens *tokens) {
    unsigned before = PAGYOLINT_TOKEN_PREFIX + 1;
    for (size_t i = 0; i < tokens->count; i++) {
        met_token(before, tokens->list[i].kind);
        before = tokens->list[i].kind;
    }
}

static void check_tokens(const struct bytes *session, const struct bytes *line, const struct bytes *store, const struct after *a) {
    uint64_t answer = tokens_answer(session, line, store);
    struct tokens tokens = {.count = 0};
    struct bytes want = *store;
    met_answer(TOKENS, a->refusal);
    must(a->refusal == answer, "tokens: not the first of 99, 1 and 12");
    if (answer == PAGYOLINT_ACCEPTED)
        tokens_of(session, line, &tokens);
    meet_tokens(&tokens);
    must(a->count == tokens.count, "tokens: the wrong count");
    write_tokens(&tokens, want.at);
    must(same(&want, &a->store), "tokens: other tokens, or a byte behind them has changed");
    must(same(session, &a->session), "tokens: the session has changed");
}

void try_tokens(const struct bytes *session, const struct bytes *line, const struct bytes *store, unsigned where) {
    struct after a = call_tokens(session, line, store, where);
    check_tokens(session, line, store, &a);
    struct after b = call_tokens(session, line, store, where + 1);
    must_repeat(&a, &b);
    struct bytes s = other_session(session), t = other_store(store);
    b = call_tokens(&s, line, &t, where + 2);
    check_tokens(&s, line, &t, &b);
}

/* Texts: a call by number, what it is to write, and the refusal where there is no text. */

typedef struct pagyolint_count_reply text_call(uint64_t number, uint8_t *store, size_t store_len);

static void try_text(text_call *call, enum call which, uint64_t number, uint64_t answer, const char *text, const struct bytes *store, unsigned where) {
    struct bytes want = *store, now;
    uint8_t *t = lend(STORE, where, store);
    struct pagyolint_count_reply r = call(number, t, store->len);
    take_back(STORE, &now);
    if (answer == PAGYOLINT_ACCEPTED && store->len < strlen(text))
        answer = PAGYOLINT_STORE_TOO_SHORT;
    met_answer(which, r.refusal);
    must(r.refusal == answer, "text: the wrong answer");
    must(r.count == (answer == PAGYOLINT_ACCEPTED ? strlen(text) : 0), "text: the wrong count");
    memcpy(want.at, text, r.count);
    must(same(&want, &now), "text: another text, or a byte behind it has changed");
}

void try_refusal_text(uint64_t refusal, const struct bytes *store, unsigned where) {
    for (unsigned i = 0; i < PLACES; i++)
        try_text(pagyolint_refusal_text, REFUSAL_TEXT, refusal, PAGYOLINT_ACCEPTED, sentence_of(refusal), store, where + i);
}

void try_command_name(uint64_t command, const struct bytes *store, unsigned where) {
    int there = command < COMMANDS;
    for (unsigned i = 0; i < PLACES; i++)
        try_text(pagyolint_command_name, COMMAND_NAME, command, there ? PAGYOLINT_ACCEPTED : PAGYOLINT_BAD_COMMAND,
                 there ? name_of((unsigned)command) : "", store, where + i);
}

void try_version(void) {
    met_answer(VERSION, PAGYOLINT_ACCEPTED);
    must(pagyolint_version() == PAGYOLINT_VERSION_NUMBER, "version: not the header's");
}
