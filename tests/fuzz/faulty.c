/*
 * Stands between the driver and the library, with one fault: the one whose number FAULT has in the environment. The linker's --wrap puts it
 * there; neither of the two is changed, and as the library this file is not instrumented. tests/fuzz/faults has a line on each fault.
 */
#include <stdlib.h>
#include <string.h>

#include "model.h"
#include "pagyolint.h"

typedef struct pagyolint_line_reply line_reply;
typedef struct pagyolint_count_reply count_reply;

uint64_t __real_pagyolint_fresh(uint8_t *session, size_t session_len);
line_reply __real_pagyolint_line(uint8_t *session, size_t session_len, const uint8_t *line, size_t line_len, uint8_t *store, size_t store_len);
uint64_t __real_pagyolint_alias(uint8_t *session, size_t session_len, const uint8_t *word, size_t word_len, uint64_t command);
count_reply __real_pagyolint_remembered(const uint8_t *session, size_t session_len, uint8_t *store, size_t store_len);
count_reply __real_pagyolint_tokens(const uint8_t *session, size_t session_len, const uint8_t *line, size_t line_len, uint8_t *store, size_t store_len);
count_reply __real_pagyolint_refusal_text(uint64_t refusal, uint8_t *store, size_t store_len);
count_reply __real_pagyolint_command_name(uint64_t command, uint8_t *store, size_t store_len);
uint64_t __real_pagyolint_version(void);

uint64_t __wrap_pagyolint_fresh(uint8_t *session, size_t session_len);
line_reply __wrap_pagyolint_line(uint8_t *session, size_t session_len, const uint8_t *line, size_t line_len, uint8_t *store, size_t store_len);
uint64_t __wrap_pagyolint_alias(uint8_t *session, size_t session_len, const uint8_t *word, size_t word_len, uint64_t command);
count_reply __wrap_pagyolint_remembered(const uint8_t *session, size_t session_len, uint8_t *store, size_t store_len);
count_reply __wrap_pagyolint_tokens(const uint8_t *session, size_t session_len, const uint8_t *line, size_t line_len, uint8_t *store, size_t store_len);
count_reply __wrap_pagyolint_refusal_text(uint64_t refusal, uint8_t *store, size_t store_len);
count_reply __wrap_pagyolint_command_name(uint64_t command, uint8_t *store, size_t store_len);
uint64_t __wrap_pagyolint_version(void);

static uint8_t before[4096];
static volatile uint8_t seen;

static int fault(void) {
    static int known = -1;
    if (known < 0)
        known = atoi(getenv("FAULT"));
    return known;
}

uint64_t __wrap_pagyolint_fresh(uint8_t *session, size_t session_len) {
    if (fault() == 1 && session_len > PAGYOLINT_SESSION_BYTES)
        session_len = PAGYOLINT_SESSION_BYTES;
    uint64_t n = __real_pagyolint_fresh(session, session_len);
    if (fault() == 2 && n == 0)
        session[counts_at(added_table)] = 0;
    return n;
}

/* Faults of a line that answers something else at once, or touches other bytes than it may. */
static int line_before(const uint8_t *line, size_t line_len, uint8_t *store, size_t store_len, line_reply *r) {
    switch (fault()) {
    case 3:
        r->refusal = store_len < 40 ? 12 : 0;
        return r->refusal != 0;
    case 4:
        r->refusal = line_len > 0 && line[0] == 0xFF && store_len < line_len + 40 && line_len <= 1024 ? 2 : 0;
        return r->refusal != 0;
    case 5:
        seen = line[line_len];
        return 0;
    case 6:
        seen = line[-1];
        return 0;
    case 7:
        if (line_len > 0)
            *(volatile uint8_t *)line = line[0];
        return 0;
    case 8:
        store[store_len] = 0;
        return 0;
    case 9:
        store[-1] = 0;
        return 0;
    default:
        return 0;
    }
}

/* Faults of what a line answers and leaves, once it was run. */
static void line_after(uint8_t *session, size_t session_len, size_t line_len, uint8_t *store, line_reply *r) {
    static unsigned calls;
    int accepted = r->refusal == 0;
    if (fault() == 10 && accepted)
        store[r->count] ^= 1;
    if (fault() == 11 && accepted)
        store[r->count++] = 0;
    if (fault() == 12 && accepted && store[0] == 0) {
        memcpy(store, "\x80\x00", 2);
        r->count = 2;
    }
    if (fault() == 13 && !accepted)
        memcpy(session, before, session_len);
    if (fault() == 14 && r->readings > 0 && line_len > 0)
        r->readings = line_len;
    if (fault() == 15 && r->readings > 0)
        r->readings = 1;
    if (fault() == 16 && r->refusal == 10)
        store[1] = 'q';
    if (fault() == 17 && r->refusal == 3 && session[ADDED_AT - 1] % 2 == 0)
        r->refusal = 5;
    if (fault() == 18 && r->refusal == 3 && ++calls % 1000 == 0)
        r->refusal = 5;
    if (fault() == 19 && r->refusal == 10)
        r->refusal = 9;
}

line_reply __wrap_pagyolint_line(uint8_t *session, size_t session_len, const uint8_t *line, size_t line_len, uint8_t *store, size_t store_len) {
    line_reply r = {0, 0, 0};
    memcpy(before, session, session_len);
    if (line_before(line, line_len, store, store_len, &r))
        return r;
    r = __real_pagyolint_line(session, session_len, line, line_len, store, store_len);
    line_after(session, session_len, line_len, store, &r);
    return r;
}

/* The other order of two words that are equally long: by their first bytes. */
static int by_first_byte(const void *a, const void *b) {
    const struct row *x = a, *y = b;
    return x->len != y->len ? (x->len < y->len ? -1 : 1) : memcmp(x->word, y->word, x->len);
}

static int by_word(const void *a, const void *b) { return row_order(a, b); }

/* The table with its rows in another order. */
static void sort_table(uint8_t *session, int (*order)(const void *, const void *)) {
    struct rows rows;
    read_rows(session, added_table, &rows);
    if (rows.count == 0 || rows.list[rows.count - 1].len == 0)
        return;
    qsort(rows.list, rows.count, sizeof rows.list[0], order);
    write_rows(session, added_table, &rows);
}

/* Faults of the table that an alias leaves, once it was added. */
static void table_after(uint8_t *session, uint64_t command) {
    uint8_t *counts = session + counts_at(added_table), *commands = session + commands_at(added_table);
    size_t number = session[ADDED_AT];
    if (fault() == 29)
        sort_table(session, by_first_byte);
    if (fault() == 30 && before[ADDED_AT] == 0)
        for (size_t i = 0; i < MOST_WORD; i++)
            counts[i] = counts[i] > 0 ? counts[i] : before[counts_at(added_table) + i];
    if (fault() == 31 && number > before[ADDED_AT]) {
        memcpy(commands, before + commands_at(added_table), number - 1);
        commands[number - 1] = (uint8_t)command;
    }
    if (fault() == 32 && number < MOST_ALIASES)
        commands[number] = 0;
}

uint64_t __wrap_pagyolint_alias(uint8_t *session, size_t session_len, const uint8_t *word, size_t word_len, uint64_t command) {
    memcpy(before, session, session_len);
    uint64_t n = __real_pagyolint_alias(session, session_len, word, word_len, command);
    if (fault() == 20 && n == 8 && command > 27)
        n = 9;
    if (fault() == 21 && n == 0 && session[commands_at(added_table) - 1] == MOST_ALIASES) {
        memcpy(session, before, session_len);
        n = 13;
    }
    if (fault() == 22 && n == 0)
        session[session_len - 1] ^= 1;
    if (fault() == 23 && n == 0 && session[ADDED_AT] == before[ADDED_AT])
        memcpy(session, before, session_len);
    if (fault() == 24 && n == 13)
        n = 0;
    if (n == 0)
        table_after(session, command);
    return n;
}

/* Faults of what is taken as a session: the bytes as they are looked at, changed so that a rule is kept that is not looked at. */
static void look_less(uint8_t *session) {
    uint8_t *counts = session + counts_at(added_table), *commands = session + commands_at(added_table);
    size_t sum = 0;
    for (size_t i = 0; i < MOST_WORD; i++)
        sum += counts[i];
    switch (fault()) {
    case 25:
        if (session[LINE_AT] == 0xED)
            memset(session, 0, LINE_AT);
        break;
    case 26:
        session[ADDED_AT] = 0;
        break;
    case 33:
        if (session[ADDED_AT] > 0 && sum > 0 && sum <= MOST_ALIASES)
            session[ADDED_AT] = (uint8_t)sum;
        break;
    case 34:
        for (size_t i = 0; i < MOST_ALIASES; i++)
            commands[i] -= commands[i] == 28;
        break;
    case 35:
        if (sum == session[ADDED_AT])
            sort_table(session, by_word);
        break;
    case 36:
        if (session[ADDED_AT] > MOST_ALIASES)
            session[ADDED_AT] = 0;
        break;
    case 37:
        if (session[ADDED_AT] == 0 && counts[0] > 0)
            session[ADDED_AT] = MOST_ALIASES + 1;
        break;
    }
}

count_reply __wrap_pagyolint_remembered(const uint8_t *session, size_t session_len, uint8_t *store, size_t store_len) {
    memcpy(before, session, session_len);
    if (session_len == PAGYOLINT_SESSION_BYTES)
        look_less(before);
    int seen_other = session_len == PAGYOLINT_SESSION_BYTES && memcmp(before, session, session_len) != 0;
    count_reply r = __real_pagyolint_remembered(seen_other ? before : session, session_len, store, store_len);
    if (fault() == 27 && r.refusal == 0 && r.count < store_len)
        store[r.count] = 0;
    if (fault() == 28 && r.refusal == 0 && r.count == store_len)
        r.refusal = 12;
    return r;
}

/* Faults of tokens that answer something else at once, by other bytes of a session, or touch other bytes than they may. */
static const uint8_t *tokens_before(const uint8_t *session, size_t *session_len, size_t line_len, size_t store_len, count_reply *r) {
    switch (fault()) {
    case 38:
        r->refusal = line_len > PAGYOLINT_LINE_BYTES && store_len < PAGYOLINT_TOKEN_BYTES * line_len ? 12 : 0;
        return session;
    case 39:
        r->refusal = line_len > 0 && line_len <= PAGYOLINT_LINE_BYTES && store_len == PAGYOLINT_TOKEN_BYTES * line_len ? 12 : 0;
        return session;
    case 40:
        if (*session_len > 0)
            *(volatile uint8_t *)session = session[0];
        return session;
    case 41:
        *session_len = PAGYOLINT_SESSION_BYTES;
        return before;
    case 42:
        if (*session_len != PAGYOLINT_SESSION_BYTES)
            return session;
        memcpy(before, session, *session_len);
        before[ADDED_AT] = 0;
        return before;
    default:
        return session;
    }
}

/* Faults of the tokens themselves. */
static void change_token(uint8_t *token, const uint8_t *line, size_t line_len) {
    size_t start = token[1] + 256u * token[2], stop = token[3] + 256u * token[4];
    if (fault() == 43 && token[0] == PAGYOLINT_TOKEN_PREFIX)
        token[0] = PAGYOLINT_TOKEN_WORD;
    if (fault() == 44 && token[0] == PAGYOLINT_TOKEN_NEWLINE && start > 0 && line[start - 1] == ' ')
        token[0] = PAGYOLINT_TOKEN_LEFT;
    if (fault() == 45 && token[0] == PAGYOLINT_TOKEN_QUOTED && memchr(line + start, '\\', stop - start) != NULL)
        token[0] = PAGYOLINT_TOKEN_TEXT;
    if (fault() == 46 && stop == line_len && stop >= 256) {
        token[3] = (uint8_t)(stop / 256);
        token[4] = (uint8_t)(stop % 256);
    }
}

count_reply __wrap_pagyolint_tokens(const uint8_t *session, size_t session_len, const uint8_t *line, size_t line_len, uint8_t *store, size_t store_len) {
    count_reply r = {0, 0};
    memset(before, 0, PAGYOLINT_SESSION_BYTES);
    const uint8_t *seen_as = tokens_before(session, &session_len, line_len, store_len, &r);
    if (r.refusal != 0)
        return r;
    r = __real_pagyolint_tokens(seen_as, session_len, line, line_len, store, store_len);
    for (size_t i = 0; r.refusal == 0 && i < r.count; i++)
        change_token(store + PAGYOLINT_TOKEN_BYTES * i, line, line_len);
    if (fault() == 47 && r.refusal == 0 && PAGYOLINT_TOKEN_BYTES * r.count < store_len)
        store[PAGYOLINT_TOKEN_BYTES * r.count] = 0;
    return r;
}

/* Faults of a text that was written, or refused. */
static count_reply change_text(count_reply r, uint8_t *store, size_t store_len) {
    if (fault() == 48 && r.refusal == 0 && r.count < store_len)
        store[r.count] = 0;
    if (fault() == 49 && r.refusal == 0 && r.count > 0 && r.count == store_len)
        r = (count_reply){12, 0};
    if (fault() == 50 && r.refusal == 12 && store_len > 0)
        store[0] = 't';
    return r;
}

count_reply __wrap_pagyolint_refusal_text(uint64_t refusal, uint8_t *store, size_t store_len) {
    count_reply r = __real_pagyolint_refusal_text(fault() == 51 ? (uint32_t)refusal : refusal, store, store_len);
    if (fault() == 52 && refusal == 0 && store_len > 0) {
        store[0] = '-';
        r.count = 1;
    }
    return change_text(r, store, store_len);
}

count_reply __wrap_pagyolint_command_name(uint64_t command, uint8_t *store, size_t store_len) {
    count_reply r = __real_pagyolint_command_name(command, store, store_len);
    if (fault() == 53 && r.refusal == 9 && store_len == 0)
        r.refusal = 12;
    if (fault() == 54 && r.refusal == 0 && command == PAGYOLINT_TABFIRST)
        r.count = 4;
    return change_text(r, store, store_len);
}

uint64_t __wrap_pagyolint_version(void) { return __real_pagyolint_version() + (fault() == 55); }
