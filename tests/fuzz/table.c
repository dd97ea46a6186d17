/* A table of words with their commands, as it stands in bytes. */
#include "table.h"

#include <string.h>

#include "words.h"

int row_order(const struct row *a, const struct row *b) {
    if (a->len != b->len)
        return a->len < b->len ? -1 : 1;
    for (size_t i = a->len; i > 0; i--)
        if (a->word[i - 1] != b->word[i - 1])
            return a->word[i - 1] < b->word[i - 1] ? -1 : 1;
    return 0;
}

int is_alias(const uint8_t *word, size_t len) {
    if (len < 1 || MOST_WORD < len)
        return 0;
    for (size_t i = 0; i < len; i++)
        if (!is_word_byte(word[i]))
            return 0;
    return 1;
}

/* The rules, one by one. */
int is_table(const uint8_t *bytes, struct table t) {
    const uint8_t *counts = bytes + counts_at(t), *commands = bytes + commands_at(t), *word = bytes + words_at(t);
    size_t number = bytes[t.at], sum = 0;
    struct row last = {NULL, 0, 0};
    if (number > t.room)
        return 0;
    if (number == 0)
        return 1;
    for (size_t i = 0; i < MOST_WORD; i++)
        sum += counts[i];
    if (sum != number)
        return 0;
    for (size_t i = 0; i < number; i++)
        if (commands[i] >= COMMANDS)
            return 0;
    for (size_t len = 1; len <= MOST_WORD; len++)
        for (size_t n = counts[len - 1]; n > 0; n--) {
            struct row now = {word, len, 0};
            if (!is_alias(word, len) || (last.len > 0 && row_order(&last, &now) >= 0))
                return 0;
            last = now;
            word += len;
        }
    return 1;
}

void read_rows(const uint8_t *bytes, struct table t, struct rows *out) {
    const uint8_t *word = bytes + words_at(t);
    size_t len = 1, left = bytes[counts_at(t)];
    int fits = bytes[t.at] <= t.room;
    out->count = fits ? bytes[t.at] : t.room + 1;
    for (size_t i = 0; i < out->count; i++) {
        while (left == 0 && len <= MOST_WORD) {
            len++;
            left = len <= MOST_WORD ? bytes[counts_at(t) + len - 1] : 0;
        }
        out->list[i] = (struct row){word, fits && left > 0 ? len : 0, fits ? bytes[commands_at(t) + i] : 0};
        word += out->list[i].len;
        left -= left > 0;
    }
}

int are_good(const struct rows *rows, struct table t) {
    if (rows->count > t.room)
        return 0;
    for (size_t i = 0; i < rows->count; i++) {
        const struct row *r = &rows->list[i];
        if (!is_alias(r->word, r->len) || r->command >= COMMANDS || (i > 0 && row_order(r - 1, r) >= 0))
            return 0;
    }
    return 1;
}

void write_rows(uint8_t *bytes, struct table t, const struct rows *rows) {
    uint8_t words[MOST_WORD * (MOST_ROOM + 1)];
    size_t n = 0;
    for (size_t i = 0; i < rows->count; i++) {
        memcpy(words + n, rows->list[i].word, rows->list[i].len);
        n += rows->list[i].len;
    }
    bytes[t.at] = (uint8_t)rows->count;
    if (rows->count == 0)
        return;
    memset(bytes + counts_at(t), 0, MOST_WORD);
    for (size_t i = 0; i < rows->count; i++) {
        bytes[counts_at(t) + rows->list[i].len - 1]++;
        bytes[commands_at(t) + i] = (uint8_t)rows->list[i].command;
    }
    memcpy(bytes + words_at(t), words, n);
}

int insert_row(struct rows *rows, struct table t, const struct row *row) {
    size_t place = 0;
    while (place < rows->count && row_order(&rows->list[place], row) < 0)
        place++;
    if (place == rows->count || row_order(&rows->list[place], row) != 0) {
        if (rows->count == t.room)
            return 0;
        memmove(&rows->list[place + 1], &rows->list[place], (rows->count - place) * sizeof *row);
        rows->count++;
    }
    rows->list[place] = *row;
    return 1;
}

const struct row *find_row(const struct rows *rows, const uint8_t *word, size_t len) {
    struct row w = {word, len, 0};
    for (size_t i = 0; i < rows->count; i++)
        if (row_order(&rows->list[i], &w) == 0)
            return &rows->list[i];
    return NULL;
}

void mark_table(const uint8_t *bytes, struct table t, uint8_t *used) {
    size_t words = 0;
    used[t.at] = 1;
    if (bytes[t.at] == 0)
        return;
    for (size_t len = 1; len <= MOST_WORD; len++)
        words += len * bytes[counts_at(t) + len - 1];
    memset(used + counts_at(t), 1, MOST_WORD);
    memset(used + commands_at(t), 1, bytes[t.at]);
    memset(used + words_at(t), 1, words);
}
