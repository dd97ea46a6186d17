/*
 * Changes inputs step by step: most lines stay made of words, ranges, quotes and escapes, most sessions stay sound, and most numbers are
 * near a limit. One change in eight is left to libFuzzer alone.
 */
#include <string.h>

#include "model.h"
#include "steps.h"
#include "words.h"

size_t LLVMFuzzerMutate(uint8_t *input, size_t len, size_t room);
size_t LLVMFuzzerCustomMutator(uint8_t *input, size_t len, size_t room, unsigned seed);

#define COUNT(list) (sizeof(list) / sizeof(list)[0])
#define MOST_TEXT 1900

static const char *const pieces[] = {
    " ", " ", " ", "  ", "\t", "\n", ":", "::", "!", "|", "a", "Z", "b1", "#", "%", "++k=v", "++=", "\r", "\x01", "\x7F",
    "\"", "\"a b\"", "\"\\\"\"", "\\", "\\ ", "\\\"", "\\|", "\\#", "\\%", "\\\\", "\\n", "\\t", "\\r", "\\q",
    "\xC3\xA9", "\xE6\xBC\xA2", "\xF0\x9F\x98\x80", "\xC2\xA0", "\xED\x9F\xBF", "\xF4\x8F\xBF\xBF",
    "\xC0\x80", "\xED\xA0\x80", "\xE0\x9F\xBF", "\xF0\x8F\xBF\xBF", "\xF4\x90\x80\x80", "\xF5", "\xFF", "\xC2", "\x80",
};

static const char *const ranges[] = {
    "", "", "", "3", "0", "%", "$", ".", "\\/", "\\?", "\\&", "'a", "'<", "'`", "'1", "'", "+", "-", "+5", "-3", "+5-3", "2,7", "1;2", ",", ";",
    ".,$", "$+1", "3-5", "007", "127", "128", "16384", "18446744073709551615", "18446744073709551616", "+18446744073709551615",
    "+18446744073709551615+1", "1+18446744073709551615",
};

static const char *const prefixes[] = {"tab", "hor", "vert", "abo", "bel", "leftabove", "belowright", "v", "t"};

static const size_t numbers[] = {
    0, 1, 23, 24, 25, 31, 32, 33, 39, 40, 127, 128, 1023, 1024, 1025, 1026, 1027, 1100, PAGYOLINT_SESSION_BYTES - 1, PAGYOLINT_SESSION_BYTES,
    PAGYOLINT_SESSION_BYTES + 1, PAGYOLINT_TOKENS_BYTES, 0x8000, 0x8003, 0x8004, 0x8005, 0xC000, 0xFFFF,
};

static const enum step_kind kinds[] = {
    STEP_LINE, STEP_LINE, STEP_LINE, STEP_LINE, STEP_ALIAS, STEP_ALIAS, STEP_ALIAS, STEP_REMEMBERED, STEP_FRESH, STEP_DAMAGE, STEP_DAMAGE,
    STEP_LENGTH, STEP_TOKENS, STEP_TOKENS, STEP_SENTENCE, STEP_NAME,
};

/* Texts that the changed steps have: up to three changes, of which each takes at most two. */
static uint8_t texts[6][MOST_TEXT];
static size_t used_texts;
static uint32_t state;

static uint32_t draw(uint32_t below) {
    state ^= state << 13;
    state ^= state >> 17;
    state ^= state << 5;
    return state % below;
}

struct text {
    uint8_t *at;
    size_t len;
};

static struct text new_text(void) { return (struct text){texts[used_texts++], 0}; }

static void put(struct text *t, const void *from, size_t len) {
    if (len > MOST_TEXT - t->len)
        len = MOST_TEXT - t->len;
    memcpy(t->at + t->len, from, len);
    t->len += len;
}

static void put_word(struct text *t, const char *word) { put(t, word, strlen(word)); }

static void put_piece(struct text *t) {
    uint32_t which = draw(4);
    put_word(t, which == 0 ? shipped[draw(SHIPPED)].word : which == 1 ? ranges[draw(COUNT(ranges))] : pieces[draw(COUNT(pieces))]);
}

/* A line by the grammar, or nearly. */
static void put_line(struct text *t) {
    if (draw(4) == 0)
        put_word(t, ":");
    for (uint32_t n = draw(4); n > 0; n--) {
        put_word(t, ranges[draw(COUNT(ranges))]);
        put_word(t, prefixes[draw(COUNT(prefixes))]);
        put_word(t, draw(8) == 0 ? "!" : " ");
    }
    put_word(t, ranges[draw(COUNT(ranges))]);
    put_word(t, shipped[draw(SHIPPED)].word);
    if (draw(4) == 0)
        put_word(t, "!");
    if (draw(2) == 0)
        put_word(t, " ");
    for (uint32_t n = draw(4); n > 0; n--)
        put_piece(t);
    if (draw(8) == 0)
        put_word(t, "\n");
}

/* A command, mostly a good one, and a word. */
static void put_alias(struct text *t) {
    static const char bytes[] = "abcvtz#&*<=>@~AZ";
    uint8_t command[8] = {(uint8_t)draw(30), 0};
    if (draw(16) == 0)
        command[draw(8)] = (uint8_t)draw(256);
    put(t, command, sizeof command);
    uint32_t which = draw(8), len = which == 3 ? MOST_WORD - 1 + draw(3) : which == 4 ? 1 + draw(MOST_WORD) : 1 + draw(3);
    if (which == 0)
        put_piece(t);
    else if (which < 3)
        put_word(t, prefixes[draw(COUNT(prefixes))]);
    else
        for (; len > 0; len--)
            put(t, &bytes[draw(sizeof bytes - 1)], 1);
}

/* A number of a refusal or a command, or near one. */
static void put_number(struct text *t) {
    uint8_t number[8] = {(uint8_t)(draw(4) == 0 ? 98 + draw(4) : draw(30)), 0};
    if (draw(8) == 0)
        number[draw(8)] = (uint8_t)draw(256);
    put(t, number, sizeof number);
}

/* A few bytes for a session. */
static void put_damage(struct text *t) {
    static const uint8_t values[] = {0, 1, 2, 3, 4, 5, 24, 25, 27, 28, '!', '@', 'A', 'a', 'b', 'z', 0x7F, 0x80, 0xC2, 0xED, 0xF4, 0xFF};
    for (uint32_t n = 1 + draw(draw(4) == 0 ? 8 : 1); n > 0; n--)
        put(t, &values[draw(sizeof values)], 1);
}

/* A table of up to 32 words, as it stands in bytes: of one length, so that they begin or end alike, or of any. */
static void make_table(uint8_t *table) {
    static const char letters[] = "abcdefghijklmnopqrstuvwxyzABCDEFGHIJKLMNOPQRSTUVWXYZ#&*<=>@~";
    const struct table t = {0, MOST_ALIASES};
    uint8_t words[MOST_ALIASES + 1][MOST_WORD];
    struct rows rows = {.count = 0};
    uint32_t count = draw(2) == 0 ? draw(6) : 28 + draw(6), same = draw(3), len = draw(4) == 0 ? MOST_WORD : 2 + draw(7);
    for (uint32_t i = 0; i < count; i++) {
        struct row row = {words[i], same < 2 ? len : 1 + draw(MOST_WORD), draw(COMMANDS)};
        memset(words[i], '~', MOST_WORD);
        words[i][same == 0 ? 0 : row.len - 1] = (uint8_t)letters[i];
        words[i][draw((uint32_t)row.len)] = (uint8_t)letters[draw(sizeof letters - 1)];
        insert_row(&rows, t, &row);
    }
    write_rows(table, t, &rows);
}

/* Two words of so many bytes, one behind the other, exchanged. */
static void swap_words(uint8_t *at, size_t len) {
    uint8_t first[MOST_WORD];
    memcpy(first, at, len);
    memcpy(at, at + len, len);
    memcpy(at + len, first, len);
}

/* One thing of a table changed: its number, a count, one count for another, a command, a byte of a word, or two of its shortest words. */
static void change_table(uint8_t *table) {
    const struct table t = {0, MOST_ALIASES};
    uint8_t *counts = table + counts_at(t), *words = table + words_at(t);
    uint32_t number = table[0], len = 1;
    while (len < MOST_WORD && counts[len - 1] == 0)
        len++;
    uint8_t *word = words + draw(number + 1) * len;
    switch (draw(7)) {
    case 0:
        table[0] = (uint8_t)(draw(2) == 0 ? MOST_ALIASES + draw(2) : number - 1 + draw(3));
        break;
    case 1:
        counts[draw(MOST_WORD)] = (uint8_t)draw(draw(4) == 0 ? 256 : MOST_ALIASES + 2);
        break;
    case 2:
        counts[draw(2) == 0 ? len - 1 : draw(MOST_WORD)]--;
        counts[draw(MOST_WORD)]++;
        break;
    case 3:
        table[commands_at(t) + draw(number + 1)] = (uint8_t)(COMMANDS - 1 + draw(3));
        break;
    case 4:
        word[draw(len)] ^= (uint8_t)(1u << draw(8));
        break;
    case 5:
        swap_words(word, len);
        break;
    default:
        memcpy(word + len, word, len);
    }
}

/* The bytes of a table, good or nearly: all, or so many of them. */
static void put_table(struct text *t) {
    uint8_t table[TABLE_BYTES(MOST_ALIASES) + 2 * MOST_WORD];
    memset(table, (int)draw(256), sizeof table);
    make_table(table);
    if (draw(2) == 0)
        change_table(table);
    put(t, table, draw(4) == 0 ? 1 + draw(TABLE_BYTES(MOST_ALIASES)) : TABLE_BYTES(MOST_ALIASES));
}

/* Any bytes; now and then as many as a session has. */
static void put_any(struct text *t) {
    for (uint32_t n = draw(8) == 0 ? PAGYOLINT_SESSION_BYTES : 1 + draw(64); n > 0; n--) {
        uint8_t b = (uint8_t)draw(256);
        put(t, &b, 1);
    }
}

/* A byte of the line's length, the line, the number, the counts, the commands, the words, or any. */
static size_t damage_place(void) {
    switch (draw(8)) {
    case 0:
        return draw(LINE_AT);
    case 1:
        return LINE_AT + draw(64);
    case 2:
        return ADDED_AT;
    case 3:
        return counts_at(added_table) + draw(draw(2) == 0 ? 4 : MOST_WORD);
    case 4:
        return commands_at(added_table) + draw(draw(2) == 0 ? 4 : MOST_ALIASES);
    case 5: case 6:
        return words_at(added_table) + draw(64);
    default:
        return draw(PAGYOLINT_SESSION_BYTES);
    }
}

/* Damage to some bytes, to all, another table, or a piece in the remembered line. */
static void renew_damage(struct step *s, struct text *t) {
    uint32_t which = draw(8);
    s->a = damage_place();
    if (which < 2) {
        s->a = ADDED_AT;
        put_table(t);
    } else if (which == 2) {
        s->a = 0;
        s->b |= OVER;
        put_any(t);
    } else if (which == 3) {
        s->a = LINE_AT + draw(4);
        put_piece(t);
    } else {
        put_damage(t);
    }
}

/* A new text for a step of its kind. */
static void renew_text(struct step *s) {
    struct text t = new_text();
    if (s->kind == STEP_LINE || s->kind == STEP_TOKENS)
        put_line(&t);
    else if (s->kind == STEP_ALIAS)
        put_alias(&t);
    else if (s->kind == STEP_SENTENCE || s->kind == STEP_NAME)
        put_number(&t);
    else if (s->kind == STEP_DAMAGE)
        renew_damage(s, &t);
    s->text = t.at;
    s->len = t.len;
}

static struct step new_step(void) {
    struct step s = {kinds[draw(COUNT(kinds))], (uint8_t)draw(256), 0, 0, NULL, 0};
    if (s.kind == STEP_LENGTH)
        s.a = draw(2) == 0 ? PAGYOLINT_SESSION_BYTES - 1 + draw(3) : draw(MOST_SESSION + 1);
    if (s.kind == STEP_DAMAGE || s.kind == STEP_LENGTH)
        s.b = draw(4) != 0 ? ONCE : 0;
    renew_text(&s);
    return s;
}

/* The text by libFuzzer. */
static void mutate_text(struct step *s) {
    struct text t = new_text();
    put(&t, s->text, s->len);
    s->len = LLVMFuzzerMutate(t.at, t.len, MOST_TEXT);
    s->text = t.at;
}

/* A piece put into the text, sometimes over and over. */
static void insert_piece(struct step *s) {
    struct text t = new_text(), piece = new_text();
    size_t at = draw((uint32_t)s->len + 1);
    put_piece(&piece);
    put(&t, s->text, at);
    for (uint32_t n = draw(16) == 0 ? 1 + draw(300) : 1; n > 0; n--)
        put(&t, piece.at, piece.len);
    put(&t, s->text + at, s->len - at);
    s->text = t.at;
    s->len = t.len;
}

static void cut_text(struct step *s) {
    size_t from = draw((uint32_t)s->len + 1), n = draw((uint32_t)(s->len - from) + 1);
    struct text t = new_text();
    put(&t, s->text, from);
    put(&t, s->text + from + n, s->len - from - n);
    s->text = t.at;
    s->len = t.len;
}

static void change_number(struct step *s) {
    size_t n = draw(2) == 0 ? numbers[draw(COUNT(numbers))] : draw(65536);
    switch (draw(3)) {
    case 0:
        s->a = s->kind == STEP_DAMAGE ? damage_place() : n;
        break;
    case 1:
        s->b = draw(2) == 0 ? 0 : n;
        break;
    default:
        s->where = (uint8_t)draw(256);
    }
}

static void insert_step(struct steps *l, size_t at, struct step s) {
    if (l->count == MOST_STEPS)
        return;
    memmove(&l->list[at + 1], &l->list[at], (l->count - at) * sizeof s);
    l->list[at] = s;
    l->count++;
}

static void remove_step(struct steps *l, size_t at) {
    l->count--;
    memmove(&l->list[at], &l->list[at + 1], (l->count - at) * sizeof l->list[0]);
}

static void change(struct steps *l) {
    size_t at = l->count == 0 ? 0 : draw((uint32_t)l->count);
    struct step *s = &l->list[at];
    uint32_t which = l->count == 0 ? 0 : draw(12);
    if (which < 2)
        insert_step(l, l->count == 0 ? 0 : draw((uint32_t)l->count + 1), new_step());
    else if (which == 2)
        insert_step(l, at, *s);
    else if (which == 3)
        remove_step(l, at);
    else if (which < 6)
        renew_text(s);
    else if (which < 8)
        insert_piece(s);
    else if (which == 8)
        cut_text(s);
    else if (which == 9)
        mutate_text(s);
    else
        change_number(s);
}

/* Writes as many of the steps as have room; answers how many bytes that took. */
static size_t write_steps(const struct steps *from, uint8_t *input, size_t room) {
    size_t n = 0;
    for (size_t i = 0; i < from->count; i++) {
        const struct step *s = &from->list[i];
        if (room - n < STEP_HEAD + s->len)
            break;
        input[n] = (uint8_t)s->kind;
        input[n + 1] = s->where;
        put_two(input + n + 2, s->a);
        put_two(input + n + 4, s->b);
        put_two(input + n + 6, s->len);
        memcpy(input + n + STEP_HEAD, s->text, s->len);
        n += STEP_HEAD + s->len;
    }
    return n;
}

size_t LLVMFuzzerCustomMutator(uint8_t *input, size_t len, size_t room, unsigned seed) {
    static uint8_t before[65536];
    struct steps l;
    state = seed * 2654435761u | 1;
    if (len > sizeof before || draw(8) == 0)
        return LLVMFuzzerMutate(input, len, room);
    memcpy(before, input, len);
    read_steps(before, len, &l);
    used_texts = 0;
    for (uint32_t n = 1 + draw(3); n > 0; n--)
        change(&l);
    return write_steps(&l, input, room);
}
