/* The steps of a fuzz input, and the calls that they make. */
#include "steps.h"

#include <string.h>

#include "calls.h"
#include "model.h"
#include "pagyolint.h"
#include "texts.h"
#include "words.h"

static size_t least(size_t a, size_t b) { return a < b ? a : b; }

void read_steps(const uint8_t *input, size_t len, struct steps *out) {
    out->count = 0;
    while (len > 0 && out->count < MOST_STEPS) {
        uint8_t head[STEP_HEAD] = {0};
        size_t n = least(len, STEP_HEAD);
        memcpy(head, input, n);
        struct step s = {(enum step_kind)(head[0] % STEP_KINDS), head[1], two_at(head + 2), two_at(head + 4), input + n, 0};
        s.len = least(two_at(head + 6), len - n);
        out->list[out->count++] = s;
        input += n + s.len;
        len -= n + s.len;
    }
}

/* The text; where b is not 0, over and over, b % (most + 1) bytes in all. */
static void put_text(struct bytes *to, const uint8_t *text, size_t len, size_t b, size_t most) {
    to->len = b == 0 || len == 0 ? least(len, most) : b % (most + 1);
    for (size_t i = 0; i < to->len; i++)
        to->at[i] = text[i % len];
}

/* A store's length, of at most so much: enough, about what is needed, or any; by a's two highest bits. */
static size_t store_len(size_t a, size_t needed, size_t most) {
    size_t n = a % (most + 1);
    if (a < 0x8000)
        n = needed + a % 64;
    else if (a < 0xC000)
        n = needed + a % 8 < 4 ? 0 : needed + a % 8 - 4;
    return least(n, most);
}

/* Bytes that look like no other's: each call's store, and what a session is made over. */
static void fill(struct bytes *b, size_t len, uint32_t seed) {
    b->len = len;
    for (size_t i = 0; i < len; i++) {
        seed = seed * 1664525u + 1013904223u;
        b->at[i] = (uint8_t)(seed >> 24);
    }
}

/* The store of a step. */
static void fill_store(struct bytes *store, const struct step *s, size_t needed, size_t most) {
    fill(store, store_len(s->a, needed, most), (uint32_t)s->a + 65536u * s->where);
}

/* The number in a step's first eight bytes; as many of them as there are. */
static uint64_t number_of(const struct step *s) {
    uint64_t number = 0;
    for (size_t i = 0; i < least(s->len, 8); i++)
        number |= (uint64_t)s->text[i] << 8 * i;
    return number;
}

static void run_line(struct bytes *session, const struct step *s) {
    struct bytes line, store;
    put_text(&line, s->text, s->len, s->b, MOST_LINE);
    fill_store(&store, s, line.len + 40, MOST_STORE);
    try_line(session, &line, &store, s->where);
}

static void run_alias(struct bytes *session, const struct step *s) {
    struct bytes word;
    size_t n = least(s->len, 8);
    put_text(&word, s->text + n, s->len - n, s->b, 40);
    try_alias(session, &word, number_of(s), s->where);
}

static void run_remembered(const struct bytes *session, const struct step *s) {
    struct bytes store;
    fill_store(&store, s, is_sound(session) ? line_len(session) : 0, MOST_STORE);
    try_remembered(session, &store, s->where);
}

static void run_tokens(const struct bytes *session, const struct step *s) {
    struct bytes line, store;
    put_text(&line, s->text, s->len, s->b, MOST_LINE);
    fill_store(&store, s, line.len * PAGYOLINT_TOKEN_BYTES, MOST_TOKENS);
    try_tokens(session, &line, &store, s->where);
}

static void run_sentence(const struct step *s) {
    struct bytes store;
    fill_store(&store, s, strlen(sentence_of(number_of(s))), MOST_STORE);
    try_refusal_text(number_of(s), &store, s->where);
}

static void run_name(const struct step *s) {
    struct bytes store;
    uint64_t command = number_of(s);
    fill_store(&store, s, command < COMMANDS ? strlen(name_of((unsigned)command)) : 0, MOST_STORE);
    try_command_name(command, &store, s->where);
}

static void run_call(struct bytes *session, const struct step *s) {
    switch (s->kind) {
    case STEP_LINE:
        run_line(session, s);
        break;
    case STEP_ALIAS:
        run_alias(session, s);
        break;
    case STEP_REMEMBERED:
        run_remembered(session, s);
        break;
    case STEP_TOKENS:
        run_tokens(session, s);
        break;
    case STEP_SENTENCE:
        run_sentence(s);
        break;
    case STEP_NAME:
        run_name(s);
        break;
    case STEP_VERSION:
        try_version();
        break;
    default:
        try_fresh(session, s->where);
    }
}

static void damage(struct bytes *session, const struct step *s) {
    size_t at = least(s->a, session->len), len = session->len - at;
    if (s->len == 0)
        return;
    if ((s->b & OVER) == 0)
        len = least(s->len, len);
    for (size_t i = 0; i < len; i++)
        session->at[at + i] = s->text[i % s->len];
}

static void set_length(struct bytes *session, const struct step *s) {
    size_t len = s->a % (MOST_SESSION + 1);
    for (size_t i = session->len; i < len; i++)
        session->at[i] = s->len > 0 ? s->text[i % s->len] : 0;
    session->len = len;
}

void run_steps(const struct steps *steps) {
    struct bytes session, kept;
    int once = 0;
    fill(&session, PAGYOLINT_SESSION_BYTES, 1);
    try_fresh(&session, 0);
    for (size_t i = 0; i < steps->count; i++) {
        const struct step *s = &steps->list[i];
        int is_call = s->kind != STEP_DAMAGE && s->kind != STEP_LENGTH;
        if (!is_call && !once && (s->b & ONCE) != 0) {
            kept = session;
            once = 1;
        }
        if (s->kind == STEP_DAMAGE)
            damage(&session, s);
        else if (s->kind == STEP_LENGTH)
            set_length(&session, s);
        else
            run_call(&session, s);
        if (is_call && once) {
            session = kept;
            once = 0;
        }
    }
}
