/* What a session is and what a call makes of it. */
#include "model.h"

#include <string.h>

#include "words.h"

_Static_assert(ADDED_AT + TABLE_BYTES(MOST_ALIASES) == PAGYOLINT_SESSION_BYTES, "the parts of a session are as long as it is");

/* UTF-8: by the number that a character stands for. */

/* How many bytes the character at the front takes; 0 where there is none. */
static size_t character(const uint8_t *t, size_t n) {
    static const uint32_t least[] = {0, 0, 0x80, 0x800, 0x10000};
    size_t len = t[0] < 0x80 ? 1 : t[0] < 0xC0 ? 0 : t[0] < 0xE0 ? 2 : t[0] < 0xF0 ? 3 : t[0] < 0xF8 ? 4 : 0;
    if (len == 0 || n < len)
        return 0;
    uint32_t c = len == 1 ? t[0] : t[0] & (0x7Fu >> len);
    for (size_t i = 1; i < len; i++) {
        if (t[i] / 64 != 2)
            return 0;
        c = c * 64 + t[i] % 64;
    }
    return c < least[len] || c > 0x10FFFF || (0xD800 <= c && c <= 0xDFFF) ? 0 : len;
}

int is_utf8(const uint8_t *text, size_t len) {
    size_t i = 0;
    while (i < len) {
        size_t n = character(text + i, len - i);
        if (n == 0)
            return 0;
        i += n;
    }
    return 1;
}

/* Which bytes are a session: by the rules, and by reading and writing. */

size_t line_len(const struct bytes *session) { return two_at(session->at); }

int is_sound(const struct bytes *session) {
    return session->len == PAGYOLINT_SESSION_BYTES && line_len(session) <= PAGYOLINT_LINE_BYTES &&
           is_utf8(session->at + LINE_AT, line_len(session)) && is_table(session->at, added_table);
}

/* A session as it is read from bytes; line and words stay in them. */
struct session {
    const uint8_t *line;
    size_t line_len;
    struct rows added;
};

static void read_session(const struct bytes *from, struct session *out) {
    out->line = from->at + LINE_AT;
    out->line_len = line_len(from);
    read_rows(from->at, added_table, &out->added);
}

static int is_formed(const struct session *s) {
    return s->line_len <= PAGYOLINT_LINE_BYTES && is_utf8(s->line, s->line_len) && are_good(&s->added, added_table);
}

static void write_session(const struct session *s, struct bytes *over) {
    put_two(over->at, s->line_len);
    memmove(over->at + LINE_AT, s->line, s->line_len);
    write_rows(over->at, added_table, &s->added);
}

void make_fresh(struct bytes *session) {
    struct session fresh = {.line = session->at};
    write_session(&fresh, session);
}

int is_written(const struct bytes *session) {
    struct session s;
    struct bytes over = *session;
    if (session->len != PAGYOLINT_SESSION_BYTES)
        return 0;
    read_session(session, &s);
    if (!is_formed(&s))
        return 0;
    write_session(&s, &over);
    return memcmp(over.at, session->at, session->len) == 0;
}

/* Words. */

static struct row of_shipped(const struct shipped *s) { return (struct row){(const uint8_t *)s->word, strlen(s->word), s->command}; }

int command_of(const struct bytes *session, const uint8_t *word, size_t len) {
    struct rows added;
    struct row w = {word, len, 0};
    read_rows(session->at, added_table, &added);
    const struct row *found = find_row(&added, word, len);
    if (found != NULL)
        return (int)found->command;
    for (size_t i = 0; i < SHIPPED; i++) {
        struct row s = of_shipped(&shipped[i]);
        if (row_order(&s, &w) == 0)
            return (int)s.command;
    }
    return -1;
}

static void shorter(const struct row *a, struct row *least) {
    if (is_prefix((unsigned)a->command) && (least->len == 0 || a->len < least->len))
        *least = *a;
}

int shortest_prefix(const struct bytes *session, struct row *out) {
    struct rows added;
    read_rows(session->at, added_table, &added);
    out->len = 0;
    for (size_t i = 0; i < added.count; i++)
        shorter(&added.list[i], out);
    for (size_t i = 0; i < SHIPPED; i++) {
        struct row s = of_shipped(&shipped[i]);
        if (find_row(&added, s.word, s.len) == NULL)
            shorter(&s, out);
    }
    return out->len > 0;
}

uint64_t readings_limit(const struct bytes *session, size_t len) {
    struct row least;
    return shortest_prefix(session, &least) ? (len + 1) / (least.len + 1) + 1 : 1;
}

/* The bytes afterwards. */

void remember(struct bytes *session, const struct bytes *line) {
    put_two(session->at, line->len);
    memcpy(session->at + LINE_AT, line->at, line->len);
}

uint64_t add_alias(struct bytes *session, const struct bytes *word, uint64_t command) {
    struct rows now;
    struct row row = {word->at, word->len, command};
    if (!is_alias(word->at, word->len))
        return PAGYOLINT_BAD_ALIAS;
    if (command >= COMMANDS)
        return PAGYOLINT_BAD_COMMAND;
    read_rows(session->at, added_table, &now);
    if (!insert_row(&now, added_table, &row))
        return PAGYOLINT_ALIASES_FULL;
    write_rows(session->at, added_table, &now);
    return PAGYOLINT_ACCEPTED;
}

void mark_used(const struct bytes *session, uint8_t *used) {
    memset(used, 0, PAGYOLINT_SESSION_BYTES);
    memset(used, 1, LINE_AT + line_len(session));
    mark_table(session->at, added_table, used);
}

void change_free(struct bytes *session) {
    uint8_t used[PAGYOLINT_SESSION_BYTES];
    mark_used(session, used);
    for (size_t i = 0; i < PAGYOLINT_SESSION_BYTES; i++)
        if (!used[i])
            session->at[i] ^= 0xFF;
}
