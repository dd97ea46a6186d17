/*
 * Damages sessions and looks at which bytes the library takes: every value of every used byte of small sessions, every free byte of them,
 * and random damage to large ones, 200,000 times or as often as the argument says. Each time a call is refused by 99 exactly where the bytes
 * do not keep the rules (is_sound), and they keep the rules exactly where a well-formed session is written as them (is_written).
 */
#include <inttypes.h>
#include <stdio.h>
#include <stdlib.h>
#include <string.h>

#include "model.h"
#include "pagyolint.h"
#include "words.h"

static const char *making;
static uint64_t tried, taken, state = 1;

static uint32_t draw(size_t below) {
    state ^= state << 13;
    state ^= state >> 7;
    state ^= state << 17;
    return (uint32_t)((state >> 20) % below);
}

static void must(int holds, const char *what) {
    if (holds)
        return;
    fprintf(stderr, "damaged sessions: %s, with %s, after %" PRIu64 " tried\n", what, making, tried);
    exit(1);
}

/* Whether the library takes the bytes: four calls that change nothing must agree on it. */
static int takes(const struct bytes *session) {
    struct bytes s = *session;
    uint8_t store[PAGYOLINT_LINE_BYTES], none = 0;
    int takes = pagyolint_remembered(s.at, s.len, store, sizeof store).refusal != PAGYOLINT_NOT_A_SESSION;
    uint64_t alias = pagyolint_alias(s.at, s.len, &none, 0, 0), line = pagyolint_line(s.at, s.len, &none, 0, store, 0).refusal;
    uint64_t tokens = pagyolint_tokens(s.at, s.len, &none, 0, store, 0).refusal;
    must(alias == (takes ? PAGYOLINT_BAD_ALIAS : PAGYOLINT_NOT_A_SESSION), "an alias does not agree with the remembered line");
    must(line == (takes ? PAGYOLINT_STORE_TOO_SHORT : PAGYOLINT_NOT_A_SESSION), "a line does not agree with the remembered line");
    must(tokens == (takes ? PAGYOLINT_ACCEPTED : PAGYOLINT_NOT_A_SESSION), "the tokens do not agree with the remembered line");
    must(memcmp(s.at, session->at, s.len) == 0, "a refused call has changed the session");
    return takes;
}

static void look(const struct bytes *session) {
    int sound = is_sound(session);
    must(sound == is_written(session), "the two definitions differ");
    must(sound == takes(session), sound ? "bytes of a session are refused" : "bytes are taken that no session is written as");
    tried++;
    taken += (uint64_t)sound;
}

/* A session by its line and its aliases, made by the library in any order of adding; the model makes the same bytes. */
struct made {
    struct bytes session;
    const char *line;
    uint8_t words[MOST_ALIASES][MOST_WORD];
    struct row rows[MOST_ALIASES];
    size_t count;
};

static void start(struct made *m, const char *name, const char *line) {
    making = name;
    m->line = line;
    m->count = 0;
}

/* Adds a word to those that the session is to have, if it is a new one. */
static void want(struct made *m, const uint8_t *word, size_t len) {
    struct row row = {m->words[m->count], len, draw(COMMANDS)};
    memcpy(m->words[m->count], word, len);
    for (size_t i = 0; i < m->count; i++)
        if (row_order(&m->rows[i], &row) == 0)
            return;
    m->rows[m->count++] = row;
}

static struct bytes copy_of(const void *from, size_t len) {
    struct bytes b = {.len = len};
    memcpy(b.at, from, len);
    return b;
}

static void finish(struct made *m) {
    struct bytes model, line = copy_of(m->line, strlen(m->line));
    uint8_t store[PAGYOLINT_STORE_BYTES];
    m->session.len = PAGYOLINT_SESSION_BYTES;
    for (size_t i = 0; i < sizeof m->session.at; i++)
        m->session.at[i] = (uint8_t)draw(256);
    model = m->session;
    must(pagyolint_fresh(m->session.at, m->session.len) == PAGYOLINT_ACCEPTED, "no fresh session");
    make_fresh(&model);
    for (size_t i = 0; i < m->count; i++) {
        struct bytes word = copy_of(m->rows[i].word, m->rows[i].len);
        must(add_alias(&model, &word, m->rows[i].command) == PAGYOLINT_ACCEPTED, "no alias in the model");
    }
    for (size_t left = m->count; left > 0; left--) {
        size_t i = draw(left);
        struct row row = m->rows[i];
        must(pagyolint_alias(m->session.at, m->session.len, row.word, row.len, row.command) == PAGYOLINT_ACCEPTED, "no alias");
        m->rows[i] = m->rows[left - 1];
        m->rows[left - 1] = row;
    }
    remember(&model, &line);
    pagyolint_line(m->session.at, m->session.len, line.at, line.len, store, sizeof store);
    must(memcmp(m->session.at, model.at, model.len) == 0, "the session is not the one that was made");
    look(&m->session);
    must(is_sound(&m->session), "the session that was made is none");
}

/* Small sessions: every value of every used byte, two other values of every free one, all free bytes at once, and every other length. */
static void damage_each(const struct made *m) {
    uint8_t used[PAGYOLINT_SESSION_BYTES];
    struct bytes s = m->session;
    mark_used(&s, used);
    for (size_t i = 0; i < s.len; i++) {
        uint8_t was = s.at[i];
        for (int n = 0; n < (used[i] ? 256 : 2); n++) {
            s.at[i] = (uint8_t)(used[i] ? n : was + 1 + n * 127);
            must(used[i] || is_sound(&s), "a free byte is looked at");
            look(&s);
        }
        s.at[i] = was;
    }
    change_free(&s);
    must(is_sound(&s), "a free byte is looked at");
    look(&s);
    for (s.len = 0; s.len <= MOST_SESSION; s.len++)
        look(&s);
}

static void small(void) {
    struct made m;
    static const char *const few[] = {"b", "~", "ab", "ba", "a#", "tabs", "sbat", "aaaaaaaa", "baaaaaaa", "aaaaaaaab", "baaaaaaaa", "baaaaaaab",
                                      "abcdefghijklmnopqrstuvwx", "abcdefghijklmnopqrstuvww", "bbcdefghijklmnopqrstuvww"};
    start(&m, "a fresh session", "");
    finish(&m);
    damage_each(&m);
    start(&m, "no alias and a line", "q \xC3\xA4\xE6\xBC\xA2");
    finish(&m);
    damage_each(&m);
    start(&m, "one alias and a line", "v sp");
    want(&m, (const uint8_t *)"v", 1);
    finish(&m);
    damage_each(&m);
    start(&m, "aliases of many lengths", "q \xF0\x9F\x98\x80");
    for (size_t i = 0; i < sizeof few / sizeof few[0]; i++)
        want(&m, (const uint8_t *)few[i], strlen(few[i]));
    finish(&m);
    damage_each(&m);
}

/* Random damage. */

/* The rows written as they are given, in whatever order. */
static void write_in(struct bytes *s, const struct rows *rows) {
    struct bytes from = *s;
    struct rows r = *rows;
    for (size_t i = 0; i < r.count; i++)
        r.list[i].word = from.at + (rows->list[i].word - s->at);
    write_rows(s->at, added_table, &r);
}

static void change_byte(struct bytes *s, size_t at) {
    static const uint8_t values[] = {0, 1, 24, 25, 27, 28, 32, 33, '!', '#', '@', 'A', 'Z', '[', '`', 'a', 'z', '{', '~', 0x7F, 0x80, 0xC0, 0xFF};
    switch (draw(4)) {
    case 0:
        s->at[at] = values[draw(sizeof values)];
        break;
    case 1:
        s->at[at] ^= (uint8_t)(1u << draw(8));
        break;
    case 2:
        s->at[at] = (uint8_t)(s->at[at] + (draw(2) == 0 ? 1 : 255));
        break;
    default:
        s->at[at] = (uint8_t)draw(256);
    }
}

/* Two neighbours, or any two, exchanged, or the one made the other or nearly. */
static void change_words(struct bytes *s) {
    struct rows rows;
    read_rows(s->at, added_table, &rows);
    if (!are_good(&rows, added_table) || rows.count < 2)
        return;
    size_t i = draw(rows.count - 1), k = draw(4) == 0 ? draw(rows.count) : i + 1;
    struct row first = rows.list[i], other = rows.list[k];
    if (draw(2) == 0) {
        rows.list[i] = other;
        rows.list[k] = first;
        write_in(s, &rows);
    } else if (first.len != other.len || draw(3) == 0) {
        rows.list[k].word = first.word;
        rows.list[k].len = first.len;
        write_in(s, &rows);
    } else {
        uint8_t *to = s->at + (other.word - s->at);
        memcpy(to, first.word, first.len);
        change_byte(s, (size_t)(to - s->at) + draw(first.len));
    }
}

/* A count taken from one length to another, or one more or less of one length with the number of aliases. */
static void change_count(struct bytes *s) {
    uint8_t *counts = s->at + counts_at(added_table), *number = s->at + ADDED_AT;
    size_t from = draw(MOST_WORD), to = draw(2) == 0 ? draw(MOST_WORD) : (from + 1) % MOST_WORD;
    for (size_t i = 0; i < MOST_WORD && counts[from] == 0; i++)
        from = (from + 1) % MOST_WORD;
    switch (draw(4)) {
    case 0:
        counts[from]--;
        (*number)--;
        break;
    case 1:
        counts[draw(2) == 0 ? from : to]++;
        (*number)++;
        break;
    default:
        counts[from]--;
        counts[to]++;
    }
}

static void change_free_bytes(struct bytes *s) {
    uint8_t used[PAGYOLINT_SESSION_BYTES];
    if (!is_sound(s))
        return;
    mark_used(s, used);
    for (size_t n = 1 + draw(64); n > 0; n--) {
        size_t at = draw(s->len);
        if (!used[at])
            s->at[at] = (uint8_t)draw(256);
    }
}

static void change_used(struct bytes *s, const size_t *used, size_t count) {
    size_t i = used[draw(count)], k = used[draw(count)];
    uint8_t was = s->at[i];
    if (draw(2) == 0)
        s->at[i] = s->at[k];
    else {
        s->at[i] = s->at[k];
        s->at[k] = was;
    }
}

static void damage(struct bytes *s, const size_t *used, size_t count) {
    switch (draw(8)) {
    case 0:
        change_byte(s, used[draw(count)]);
        break;
    case 1: case 2:
        change_words(s);
        break;
    case 3:
        change_count(s);
        break;
    case 4:
        s->at[commands_at(added_table) + draw(MOST_ALIASES)] = (uint8_t)(draw(4) == 0 ? draw(256) : COMMANDS - 1 + draw(2));
        break;
    case 5:
        change_free_bytes(s);
        break;
    case 6:
        change_byte(s, draw(4) == 0 ? ADDED_AT : words_at(added_table) + draw(MOST_WORD * MOST_ALIASES));
        break;
    default:
        change_used(s, used, count);
    }
}

static void damage_often(const struct made *m, uint64_t times) {
    uint8_t is_used[PAGYOLINT_SESSION_BYTES];
    size_t used[PAGYOLINT_SESSION_BYTES], count = 0;
    mark_used(&m->session, is_used);
    for (size_t i = 0; i < PAGYOLINT_SESSION_BYTES; i++)
        if (is_used[i])
            used[count++] = i;
    for (; times > 0; times--) {
        struct bytes s = m->session;
        for (size_t n = draw(4) == 0 ? 1 + draw(3) : 1; n > 0; n--)
            damage(&s, used, count);
        look(&s);
    }
}

#define LETTERS "abcdefghijklmnopqrstuvwxyzABCDEFGHIJKLMNOPQRSTUVWXYZ"
#define SYMBOLS "#&*<=>@~"

/* So many aliases with words of least to most bytes; four of them, from a place on, are drawn from the letters, the others are alike. */
static void fill(struct made *m, size_t aliases, size_t least, size_t most, size_t from, const char *letters) {
    while (m->count < aliases) {
        uint8_t word[MOST_WORD];
        size_t len = least + draw(most - least + 1);
        memset(word, letters[0], sizeof word);
        for (size_t i = 0; i < len; i++)
            if (least < most || (from <= i && i < from + 4))
                word[i] = (uint8_t)letters[draw(strlen(letters))];
        want(m, word, len);
    }
}

static void large(uint64_t times) {
    static const struct { const char *name, *line; size_t aliases, least, most, from; const char *letters; } kinds[] = {
        {"32 aliases of 4 bytes", "q", 32, 4, 4, 0, LETTERS},
        {"32 aliases of 24 bytes that begin alike", "tabn", 32, 24, 24, 20, "abc"},
        {"32 aliases of 24 bytes that end alike", "", 32, 24, 24, 0, LETTERS},
        {"32 aliases of 24 bytes that are alike but in the middle", "\xC3\xA4", 32, 24, 24, 6, LETTERS},
        {"32 aliases of 1 to 24 bytes", "v sp", 32, 1, 24, 0, LETTERS},
        {"31 aliases of 1 to 3 bytes of two letters and more", "w a", 31, 1, 3, 0, "ab#"},
        {"32 aliases with symbols", "q \xE6\xBC\xA2", 32, 1, 12, 0, SYMBOLS "az"},
        {"32 aliases of symbols, of 16 bytes", "q", 32, 16, 16, 6, SYMBOLS},
    };
    size_t count = sizeof kinds / sizeof kinds[0];
    for (size_t k = 0; k < count; k++) {
        struct made m;
        start(&m, kinds[k].name, kinds[k].line);
        fill(&m, kinds[k].aliases, kinds[k].least, kinds[k].most, kinds[k].from, kinds[k].letters);
        finish(&m);
        damage_often(&m, times / count + (k < times % count));
    }
}

int main(int argc, char **argv) {
    small();
    large(argc > 1 ? strtoull(argv[1], NULL, 10) : 200000);
    printf("damaged sessions: %" PRIu64 " tried, %" PRIu64 " of them taken, as they are to be\n", tried, taken);
    return 0;
}
