/*
 * Tries the calls of include/pagyolint.h on a session, on lines, on damaged bytes and on numbers.
 * Each slice lies between guard bytes. After each call these are looked at, and so is every byte that the call may not change.
 */
#undef NDEBUG
#include <assert.h>
#include <stdio.h>
#include <string.h>

#include "pagyolint.h"

#define GUARD 64
#define MOST 5632
#define FILL 0xA5

/* The places of a session's bytes, by docs/SESSION-BYTES.md. */
#define LINE_AT 2
#define NUMBER_AT 1026
#define COUNTS_AT 1027
#define COMMANDS_AT 1051
#define WORDS_AT 1083

/* len bytes of room, from GUARD on; all others are FILL. */
struct slice {
    uint8_t room[GUARD + MOST + GUARD];
    size_t len;
};

static struct slice session, text, store;

static uint8_t *bytes(struct slice *s) { return s->room + GUARD; }

/* So many bytes of room, all FILL. */
static void room(struct slice *s, size_t len) {
    assert(len <= MOST);
    memset(s->room, FILL, sizeof s->room);
    s->len = len;
}

static void put(struct slice *s, const void *from, size_t len) {
    room(s, len);
    memcpy(bytes(s), from, len);
}

static void guarded(const struct slice *s) {
    for (size_t i = 0; i < sizeof s->room; i++)
        if (i < GUARD || GUARD + s->len <= i)
            assert(s->room[i] == FILL);
}

static int same(const struct slice *a, const struct slice *b) { return a->len == b->len && memcmp(a->room, b->room, sizeof a->room) == 0; }

/* Writes bytes at a place of what a slice is to be. */
static void set(struct slice *s, size_t at, const void *written, size_t len) { memcpy(bytes(s) + at, written, len); }

/* The calls, with what holds after each of them. */

static uint64_t fresh(void) {
    struct slice s = session;
    uint64_t n = pagyolint_fresh(bytes(&session), session.len);
    guarded(&session);
    if (n == 0) {
        set(&s, 0, "\0\0", 2);
        set(&s, NUMBER_AT, "\0", 1);
    }
    assert(same(&s, &session));
    return n;
}

static uint64_t alias(const char *word, uint64_t command) {
    struct slice s = session;
    put(&text, word, strlen(word));
    struct slice t = text;
    uint64_t n = pagyolint_alias(bytes(&session), session.len, bytes(&text), text.len, command);
    guarded(&session);
    assert(same(&t, &text));
    if (n != 0)
        assert(same(&s, &session));
    return n;
}

static struct pagyolint_line_reply line(const void *from, size_t len, size_t size) {
    put(&text, from, len);
    struct slice t = text;
    room(&store, size);
    struct pagyolint_line_reply r = pagyolint_line(bytes(&session), session.len, bytes(&text), text.len, bytes(&store), store.len);
    guarded(&session);
    guarded(&store);
    assert(same(&t, &text));
    assert(r.count <= size);
    for (size_t i = r.count; i < size; i++)
        assert(bytes(&store)[i] == FILL);
    return r;
}

static struct pagyolint_count_reply remembered(size_t size) {
    struct slice s = session;
    room(&store, size);
    struct pagyolint_count_reply r = pagyolint_remembered(bytes(&session), session.len, bytes(&store), store.len);
    guarded(&store);
    assert(same(&s, &session));
    assert(r.count <= size);
    for (size_t i = r.count; i < size; i++)
        assert(bytes(&store)[i] == FILL);
    return r;
}

/* Nothing of the store has changed but its front: so many bytes for each that is counted. */
static struct pagyolint_count_reply stored(struct pagyolint_count_reply r, size_t each) {
    guarded(&store);
    assert(r.refusal == PAGYOLINT_ACCEPTED || r.count == 0);
    assert(r.count * each <= store.len);
    for (size_t i = r.count * each; i < store.len; i++)
        assert(bytes(&store)[i] == FILL);
    return r;
}

static struct pagyolint_count_reply tokens(const void *from, size_t len, size_t size) {
    put(&text, from, len);
    struct slice s = session, t = text;
    room(&store, size);
    struct pagyolint_count_reply r = pagyolint_tokens(bytes(&session), session.len, bytes(&text), text.len, bytes(&store), store.len);
    assert(same(&s, &session));
    assert(same(&t, &text));
    return stored(r, PAGYOLINT_TOKEN_BYTES);
}

static struct pagyolint_count_reply refusal_text(uint64_t refusal, size_t size) {
    room(&store, size);
    return stored(pagyolint_refusal_text(refusal, bytes(&store), store.len), 1);
}

static struct pagyolint_count_reply command_name(uint64_t command, size_t size) {
    room(&store, size);
    return stored(pagyolint_command_name(command, bytes(&store), store.len), 1);
}

static int counted(struct pagyolint_count_reply r, uint64_t refusal, uint64_t count) { return r.refusal == refusal && r.count == count; }

static int replied(struct pagyolint_line_reply r, uint64_t refusal, uint64_t readings, const void *written, size_t count) {
    return r.refusal == refusal && r.readings == readings && r.count == count && memcmp(bytes(&store), written, count) == 0;
}

static int remembers(const char *what) {
    struct pagyolint_count_reply r = remembered(PAGYOLINT_LINE_BYTES);
    return r.refusal == 0 && r.count == strlen(what) && memcmp(bytes(&store), what, r.count) == 0;
}

static void start(void) {
    room(&session, PAGYOLINT_SESSION_BYTES);
    assert(fresh() == PAGYOLINT_ACCEPTED);
}

/* The worked example of docs/SESSION-BYTES.md. */
static void example(void) {
    static const uint8_t counts[24] = {1};
    start();
    assert(remembers(""));

    struct slice s = session;
    assert(alias("v", 25) == PAGYOLINT_ACCEPTED);
    set(&s, NUMBER_AT, "\x01", 1);
    set(&s, COUNTS_AT, counts, 24);
    set(&s, COMMANDS_AT, "\x19", 1);
    set(&s, WORDS_AT, "v", 1);
    assert(same(&s, &session));

    assert(replied(line("v sp", 4, PAGYOLINT_STORE_BYTES), 0, 2, "\x04\x00\x00\x01\x01\x01\x01", 7));
    set(&s, 0, "\x04\x00", 2);
    set(&s, LINE_AT, "v sp", 4);
    assert(same(&s, &session));
    assert(remembers("v sp"));
}

/* The bytes of a table of four: shorter words first, and of those of one length the one whose last byte is lower. */
static void table(void) {
    static const uint8_t counts[24] = {1, 2, 0, 1};
    start();
    struct slice s = session;
    assert(alias("ab", 1) == PAGYOLINT_ACCEPTED);
    assert(alias("tabs", 13) == PAGYOLINT_ACCEPTED);
    assert(alias("ba", 2) == PAGYOLINT_ACCEPTED);
    assert(alias("z", 3) == PAGYOLINT_ACCEPTED);
    set(&s, NUMBER_AT, "\x04", 1);
    set(&s, COUNTS_AT, counts, 24);
    set(&s, COMMANDS_AT, "\x03\x02\x01\x0D", 4);
    set(&s, WORDS_AT, "z" "ba" "ab" "tabs", 9);
    assert(same(&s, &session));

    /* Another command for a word that is there changes that byte alone. */
    assert(alias("ab", 27) == PAGYOLINT_ACCEPTED);
    set(&s, COMMANDS_AT + 2, "\x1B", 1);
    assert(same(&s, &session));
}

/* Bytes of a line that is one byte too long. */
static uint8_t too_long[PAGYOLINT_LINE_BYTES + 1];

static void lines(void) {
    static uint8_t a[1025];
    memset(a, 'a', sizeof a);
    start();
    assert(replied(line(":vert 3sp a\\ b", 14, 54), 0, 2, "\x03\x03\x03\x61\x20\x62\x00\x01\x01\x01\x03", 11));
    assert(replied(line("", 0, 40), 0, 1, "\x00", 1));
    assert(remembers(""));

    /* A refused line is remembered once 1, 12 and 2 pass; only 10 writes. */
    assert(replied(line("foo", 3, PAGYOLINT_STORE_BYTES), PAGYOLINT_UNKNOWN_WORD, 1, "\x03" "foo", 4));
    assert(remembers("foo"));
    assert(replied(line("3 q", 3, PAGYOLINT_STORE_BYTES), PAGYOLINT_PARSE_FAILED, 1, "", 0));
    assert(remembers("3 q"));
    struct slice s = session;
    assert(replied(line(a, 1025, 0), PAGYOLINT_LINE_TOO_LONG, 0, "", 0));
    assert(replied(line("\xff", 1, 40), PAGYOLINT_STORE_TOO_SHORT, 0, "", 0));
    assert(replied(line("\xff", 1, 41), PAGYOLINT_NOT_UTF8, 0, "", 0));
    assert(same(&s, &session));

    /* The longest line, whose word is unknown: a name has two bytes more. A store shorter by one is refused. */
    assert(replied(line(a, 1024, PAGYOLINT_STORE_BYTES - 1), PAGYOLINT_STORE_TOO_SHORT, 0, "", 0));
    assert(line(a, 1024, PAGYOLINT_STORE_BYTES).count == 1026);
    assert(remembered(1023).refusal == PAGYOLINT_STORE_TOO_SHORT);
    assert(remembered(1024).count == 1024);
}

/* Document 01's sample lines, each on a fresh session: refusal, readings, and in hex what stands in the store. */
static void samples(void) {
    static const struct { const char *line; uint64_t refusal, readings; const char *hex; } known[] = {
        {"", 0, 1, "00"},
        {"3", 0, 1, "00"},
        {"3 q", 3, 1, ""},
        {"vert", 0, 2, "00"},
        {"+5-3close", 0, 1, "0100020101020000"},
        {"0sp", 0, 1, "03000000010101"},
        {"2,7sp", 0, 1, "03000000010107"},
        {"2,.+4sp", 0, 1, "030000000101ffffffffffffffffff01"},
        {"resize +5 ", 3, 1, ""},
        {"tabn q", 5, 1, ""},
        {"tabm q", 3, 1, ""},
        {"tab view #", 0, 2, "0a010200"},
        {":vert 3sp a\\ b", 0, 2, "0303036120620001010103"},
        {"foo", 10, 1, "03666f6f"},
        {"w \"\"", 3, 1, ""},
        {"w a b", 5, 1, ""},
        {"$+1close", 6, 1, ""},
        {"\nq", 0, 1, "00"},
        {"q\nq", 3, 1, ""},
        {"18446744073709551615close", 0, 1, "010001ffffffffffffffffff0100"},
        {"18446744073709551616close", 4, 1, ""},
        {"+18446744073709551615+1close", 7, 1, ""},
        {"+18446744073709551615+1sp", 0, 1, "030000000101ffffffffffffffffff01"},
    };
    for (size_t i = 0; i < sizeof known / sizeof known[0]; i++) {
        char hex[2 * MOST + 1] = "";
        start();
        struct pagyolint_line_reply r = line(known[i].line, strlen(known[i].line), PAGYOLINT_STORE_BYTES);
        for (size_t k = 0; k < r.count; k++)
            sprintf(hex + 2 * k, "%02x", (unsigned)bytes(&store)[k]);
        assert(r.refusal == known[i].refusal && r.readings == known[i].readings && strcmp(hex, known[i].hex) == 0);
        assert(remembers(known[i].line));
    }
}

/* 32 aliases, in the one order or the other. */
static void fill(int back) {
    start();
    for (int i = 0; i < 32; i++) {
        int k = back ? 31 - i : i;
        char w[3] = {(char)('a' + k / 8), (char)('a' + k % 8), 0};
        assert(alias(w, (uint64_t)(k % 28)) == PAGYOLINT_ACCEPTED);
    }
}

static void aliases(void) {
    start();
    assert(alias("", 99) == PAGYOLINT_BAD_ALIAS);
    assert(alias("!", 99) == PAGYOLINT_BAD_ALIAS);
    assert(alias("abcdefghijklmnopqrstuvwxy", 0) == PAGYOLINT_BAD_ALIAS);
    assert(alias("abcdefghijklmnopqrstuvwx", 28) == PAGYOLINT_BAD_COMMAND);

    /* The same aliases have the same bytes, whatever the order of adding. */
    fill(0);
    struct slice s = session;
    fill(1);
    assert(same(&s, &session));

    /* No place for a new one; the ones that are there are replaced. */
    assert(alias("z", 28) == PAGYOLINT_BAD_COMMAND);
    assert(alias("z", 5) == PAGYOLINT_ALIASES_FULL);
    assert(alias("aa", 7) == PAGYOLINT_ACCEPTED);
    assert(replied(line("aa!", 3, PAGYOLINT_STORE_BYTES), 0, 1, "\x01\x00\x00\x03", 4));
}

/* Every call answers 99 and changes nothing. */
static void is_none(void) {
    struct slice s = session;
    assert(replied(line("q", 1, PAGYOLINT_STORE_BYTES), PAGYOLINT_NOT_A_SESSION, 0, "", 0));
    assert(replied(line("\xff", 1, 0), PAGYOLINT_NOT_A_SESSION, 0, "", 0));
    assert(alias("", 28) == PAGYOLINT_NOT_A_SESSION);
    assert(remembered(0).refusal == PAGYOLINT_NOT_A_SESSION);
    assert(remembered(0).count == 0);
    assert(counted(tokens("q", 1, PAGYOLINT_TOKENS_BYTES), PAGYOLINT_NOT_A_SESSION, 0));
    assert(counted(tokens("", 0, 0), PAGYOLINT_NOT_A_SESSION, 0));
    assert(counted(tokens(too_long, sizeof too_long, 0), PAGYOLINT_NOT_A_SESSION, 0));
    assert(same(&s, &session));
}

/* A session with the words b, ba, bb and a line, and one byte of it changed. */
static void damaged(size_t at, uint8_t to) {
    start();
    assert(alias("bb", 6) == PAGYOLINT_ACCEPTED);
    assert(alias("b", 5) == PAGYOLINT_ACCEPTED);
    assert(alias("ba", 7) == PAGYOLINT_ACCEPTED);
    assert(line("q", 1, PAGYOLINT_STORE_BYTES).refusal == PAGYOLINT_ACCEPTED);
    bytes(&session)[at] = to;
}

static void damages(void) {
    static const struct { size_t at; uint8_t to; } bad[] = {
        {1, 5},                /* a line above 1,024 bytes */
        {LINE_AT, 0xFF},       /* a line that is not UTF-8 */
        {NUMBER_AT, 2},        /* fewer aliases than the counts add up to */
        {NUMBER_AT, 4},        /* more of them */
        {NUMBER_AT, 33},       /* more than there can be */
        {COUNTS_AT, 0},        /* a count that is too low */
        {COUNTS_AT + 23, 1},   /* a count that is too high */
        {COMMANDS_AT, 28},     /* a command above 27 */
        {COMMANDS_AT + 2, 28}, /* so is the last one */
        {WORDS_AT, '!'},       /* a byte that is no word character */
        {WORDS_AT + 2, 'c'},   /* words of one length that do not ascend */
        {WORDS_AT + 4, 'a'},   /* a word that stands twice */
    };
    for (size_t i = 0; i < sizeof bad / sizeof bad[0]; i++) {
        damaged(bad[i].at, bad[i].to);
        is_none();
    }

    /* The order: the length first, then the last byte, then the one before it. */
    damaged(WORDS_AT, 'z');
    assert(remembers("q"));
    damaged(WORDS_AT + 1, 'c');
    assert(remembers("q"));
    damaged(WORDS_AT + 4, 'a');
    bytes(&session)[WORDS_AT + 3] = 'c';
    assert(remembers("q"));
    bytes(&session)[WORDS_AT + 3] = 'a';
    is_none();

    /* Free bytes may be anything: behind the line, the commands and the words, and the counts where there is no alias. */
    static const size_t is_free[] = {LINE_AT + 1, NUMBER_AT - 1, COMMANDS_AT + 3, WORDS_AT - 1, WORDS_AT + 5, PAGYOLINT_SESSION_BYTES - 1};
    for (size_t i = 0; i < sizeof is_free / sizeof is_free[0]; i++) {
        damaged(is_free[i], 0xFF);
        assert(remembers("q"));
    }
    damaged(NUMBER_AT, 0);
    memset(bytes(&session) + COUNTS_AT, 0xFF, PAGYOLINT_SESSION_BYTES - COUNTS_AT);
    assert(remembers("q"));

    /* Another length, which is all that a fresh session asks for. */
    for (size_t len = PAGYOLINT_SESSION_BYTES - 1; len <= PAGYOLINT_SESSION_BYTES + 1; len += 2) {
        room(&session, len);
        assert(fresh() == PAGYOLINT_NOT_A_SESSION);
        is_none();
    }
}

/* Tokens. */

/* Those of a line, as text: kind, place of the first byte, place past the last. */
static const char *tokens_of(const void *from, size_t len) {
    static const char *const kinds[] = {"space", "colon", "range", "word", "bang", "text", "quoted", "newline", "unlisted", "left", "prefix"};
    static char told[32 * PAGYOLINT_LINE_BYTES];
    struct pagyolint_count_reply r = tokens(from, len, len * PAGYOLINT_TOKEN_BYTES);
    size_t n = 0;
    assert(r.refusal == PAGYOLINT_ACCEPTED);
    told[0] = 0;
    for (size_t i = 0; i < r.count; i++) {
        const uint8_t *b = bytes(&store) + i * PAGYOLINT_TOKEN_BYTES;
        assert(b[0] < sizeof kinds / sizeof kinds[0]);
        n += (size_t)sprintf(told + n, "%s%s %d-%d", i > 0 ? ", " : "", kinds[b[0]], b[1] + 256 * b[2], b[3] + 256 * b[4]);
    }
    return told;
}

static void tell(const char *from, size_t len, const char *want) {
    const char *got = tokens_of(from, len);
    if (strcmp(got, want) != 0)
        fprintf(stderr, "tokens of %s: %s, and not %s\n", from, got, want);
    assert(strcmp(got, want) == 0);
}

/* Worked out by hand, each on a fresh session. */
static void token_samples(void) {
    static const struct { const char *line, *tokens; } known[] = {
        {"", ""},
        {"\n", "newline 0-1"},
        {"3", "range 0-1"},
        {"q", "word 0-1"},
        {"vert", "prefix 0-4"},
        {":vert 3sp a\\ b", "colon 0-1, prefix 1-5, space 5-6, range 6-7, word 7-9, space 9-10, text 10-14"},
        {" \t:: 3,+5q! x", "space 0-2, colon 2-4, space 4-5, range 5-9, word 9-10, bang 10-11, space 11-12, text 12-13"},
        {"2,3vert!: 5tab! sp", "range 0-3, prefix 3-7, bang 7-8, colon 8-9, space 9-10, range 10-11, prefix 11-14, bang 14-15, space 15-16, word 16-18"},
        {"%tab sp", "range 0-1, prefix 1-4, space 4-5, word 5-7"},
        {"vert foo", "prefix 0-4, space 4-5, word 5-8"},
        {"vertsp", "word 0-6"},
        {"!!x ", "word 0-1, bang 1-2, text 2-3, space 3-4"},
        {"'aq", "range 0-2, word 2-3"},
        /* lists, and arguments that are none */
        {"w \"a b\" c", "word 0-1, space 1-2, quoted 2-7, space 7-8, text 8-9"},
        {"w \"a\\\"b\" \\q", "word 0-1, space 1-2, quoted 2-8, space 8-9, unlisted 9-11"},
        {"w \"\"\n", "word 0-1, space 1-2, unlisted 2-4, newline 4-5"},
        {"sp a|b", "word 0-2, space 2-3, unlisted 3-6"},
        {"sp a b|c d", "word 0-2, space 2-3, text 3-4, space 4-5, unlisted 5-10"},
        {"tab sp a\\", "prefix 0-3, space 3-4, word 4-6, space 6-7, unlisted 7-9"},
        {"q \xFF", "word 0-1, space 1-2, text 2-3"},
        /* 0x0A: behind an argument, behind a prefix's, and for an empty word */
        {"q a\n", "word 0-1, space 1-2, text 2-3, newline 3-4"},
        {"q a\nq", "word 0-1, space 1-2, text 2-3, left 3-5"},
        {"vert sp\n", "prefix 0-4, space 4-5, word 5-7, newline 7-8"},
        {"vert sp\nq", "prefix 0-4, space 4-5, word 5-7, left 7-9"},
        {"vert \n", "prefix 0-4, space 4-5, newline 5-6"},
        {"vert \n!", "prefix 0-4, space 4-5, left 5-7"},
        {"vert tab\n\n", "prefix 0-4, space 4-5, prefix 5-8, left 8-10"},
        {"\n!\n", "newline 0-1, bang 1-2, newline 2-3"},
        {"\nvert sp", "newline 0-1, text 1-5, space 5-6, text 6-8"},
        /* readings that fail */
        {"3 q", "range 0-1, left 1-3"},
        {": :q", "colon 0-1, space 1-2, left 2-4"},
        {"'", "left 0-1"},
        {"\xFF\xFE", "left 0-2"},
        {":18446744073709551616q", "colon 0-1, left 1-22"},
        {"vert 3 q", "prefix 0-4, space 4-5, range 5-6, left 6-8"},
        {"vert 3 q\n", "prefix 0-4, space 4-5, range 5-6, left 6-8, newline 8-9"},
        {"vert 18446744073709551616q\nq", "prefix 0-4, space 4-5, left 5-26, left 26-28"},
    };
    start();
    for (size_t i = 0; i < sizeof known / sizeof known[0]; i++)
        tell(known[i].line, strlen(known[i].line), known[i].tokens);
    tell("q \0a", 4, "word 0-1, space 1-2, text 2-4");
    tell("\0", 1, "left 0-1");
    assert(remembers(""));
}

/* Which words name prefixes is told by the session. */
static void token_words(void) {
    static const char *const prefixes[] = {"tab", "horizontal", "hor", "vertical", "vert", "aboveleft", "lefta", "leftabove", "abo",
                                           "belowright", "rightb", "rightbelow", "bel"};
    char want[80], told[80];
    start();
    for (size_t i = 0; i < sizeof prefixes / sizeof prefixes[0]; i++) {
        int n = (int)strlen(prefixes[i]);
        sprintf(told, "%s q", prefixes[i]);
        sprintf(want, "prefix 0-%d, space %d-%d, word %d-%d", n, n, n + 1, n + 1, n + 2);
        tell(told, strlen(told), want);
    }
    for (uint64_t command = 0; command < 28; command++) {
        int is_prefix = command == PAGYOLINT_TAB || command >= PAGYOLINT_HORIZONTAL;
        assert(alias("x", command) == PAGYOLINT_ACCEPTED);
        tell("x q", 3, is_prefix ? "prefix 0-1, space 1-2, word 2-3" : "word 0-1, space 1-2, text 2-3");
    }
    assert(alias("vert", PAGYOLINT_QUIT) == PAGYOLINT_ACCEPTED);
    tell("vert x sp", 9, "word 0-4, space 4-5, text 5-6, space 6-7, text 7-9");
    tell("x vert sp", 9, "prefix 0-1, space 1-2, word 2-6, space 6-7, text 7-9");
}

static void token_limits(void) {
    static uint8_t a[1025];
    memset(a, 'a', sizeof a);
    start();
    assert(counted(tokens("", 0, 0), 0, 0));
    assert(counted(tokens("ab", 2, 10), 0, 1));
    assert(counted(tokens("ab", 2, 9), PAGYOLINT_STORE_TOO_SHORT, 0));
    assert(counted(tokens("a", 1, 0), PAGYOLINT_STORE_TOO_SHORT, 0));
    assert(counted(tokens("a", 1, MOST), 0, 1));
    tell((const char *)a, 1024, "word 0-1024");
    assert(counted(tokens(a, 1024, PAGYOLINT_TOKENS_BYTES - 1), PAGYOLINT_STORE_TOO_SHORT, 0));
    assert(counted(tokens(a, 1025, PAGYOLINT_TOKENS_BYTES + 5), PAGYOLINT_LINE_TOO_LONG, 0));
    assert(counted(tokens(a, 1025, 0), PAGYOLINT_LINE_TOO_LONG, 0));

    /* As many tokens as bytes: one-byte prefixes, each with a space. */
    assert(alias("v", PAGYOLINT_VERTICAL) == PAGYOLINT_ACCEPTED);
    for (size_t i = 0; i < 1024; i++)
        a[i] = i % 2 == 0 ? 'v' : ' ';
    assert(counted(tokens(a, 1024, PAGYOLINT_TOKENS_BYTES), 0, 1024));
    for (size_t i = 0; i < 1024; i++) {
        uint8_t want[PAGYOLINT_TOKEN_BYTES] = {i % 2 == 0 ? PAGYOLINT_TOKEN_PREFIX : PAGYOLINT_TOKEN_SPACE, (uint8_t)i, (uint8_t)(i / 256),
                                               (uint8_t)(i + 1), (uint8_t)((i + 1) / 256)};
        assert(memcmp(bytes(&store) + i * PAGYOLINT_TOKEN_BYTES, want, sizeof want) == 0);
    }
}

/* Texts: one is written where there is room for it, and not where there is one byte less. */
static void texts_by(struct pagyolint_count_reply (*call)(uint64_t, size_t), uint64_t number, const char *want) {
    size_t n = strlen(want), sizes[] = {n, n + 1, PAGYOLINT_TEXT_BYTES};
    assert(n <= PAGYOLINT_TEXT_BYTES);
    for (size_t i = 0; i < sizeof sizes / sizeof sizes[0]; i++) {
        assert(counted(call(number, sizes[i]), 0, n));
        assert(memcmp(bytes(&store), want, n) == 0);
    }
    if (n > 0) {
        assert(counted(call(number, n - 1), PAGYOLINT_STORE_TOO_SHORT, 0));
        assert(counted(call(number, 0), PAGYOLINT_STORE_TOO_SHORT, 0));
    }
}

static void refusals(void) {
    static const char *const sentences[] = {
        "",
        "the line is longer than 1024 bytes",
        "the line is not UTF-8",
        "the line, or a list or range in it, does not parse",
        "a number is above 18446744073709551615",
        "the command does not take this argument",
        "the command does not take this range",
        "a sum of offsets is above 18446744073709551615",
        "the alias is not 1 to 24 word characters",
        "the command's number is above 27",
        "no command has this word",
        "the command is not implemented",
        "the store is too short",
        "there are 32 aliases, and no place for a new one",
    };
    size_t count = sizeof sentences / sizeof sentences[0];
    for (uint64_t n = 0; n <= 200; n++)
        texts_by(refusal_text, n, n < count ? sentences[n] : n == PAGYOLINT_NOT_A_SESSION ? "the bytes are not a session" : "");
    texts_by(refusal_text, UINT64_MAX, "");
    texts_by(refusal_text, ((uint64_t)1 << 32) + 1, "");
}

static void names(void) {
    static const char *const commands[] = {
        "!", "&", "read", "print", "substitute", "close", "only", "quit", "quitall", "resize", "split", "vsplit", "view", "tab", "tabclose",
        "tabedit", "tabmove", "tabnext", "tabonly", "tabprevious", "tabfirst", "tablast", "write", "wall", "horizontal", "vertical", "aboveleft",
        "belowright",
    };
    static const uint64_t above[] = {28, 29, 99, 127, 128, 200, 255, 256, (uint64_t)1 << 32, UINT64_MAX};
    assert(sizeof commands / sizeof commands[0] == 28);
    for (uint64_t n = 0; n < 28; n++)
        texts_by(command_name, n, commands[n]);
    for (size_t i = 0; i < sizeof above / sizeof above[0]; i++) {
        assert(counted(command_name(above[i], PAGYOLINT_TEXT_BYTES), PAGYOLINT_BAD_COMMAND, 0));
        assert(counted(command_name(above[i], 0), PAGYOLINT_BAD_COMMAND, 0));
    }
}

static void version(void) {
    char text_of[64];
    uint64_t n = pagyolint_version();
    assert(n == PAGYOLINT_VERSION_NUMBER);
    sprintf(text_of, "%d.%d.%d", (int)(n / 1000000), (int)(n / 1000 % 1000), (int)(n % 1000));
    assert(strcmp(text_of, PAGYOLINT_VERSION) == 0);
}

int main(void) {
    example();
    table();
    lines();
    samples();
    aliases();
    damages();
    token_samples();
    token_words();
    token_limits();
    refusals();
    names();
    version();
    puts("calls over C: passed");
    return 0;
}
