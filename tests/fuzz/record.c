/* The record, read back by document 01's paragraph on it: every case of it is a function here. */
#include "record.h"

#include "check.h"
#include "model.h"

/* What is left to read. shape is made of the cases that were met; it is no part of the record. */
struct left {
    const uint8_t *at;
    size_t len, line_len;
    uint32_t shape;
    int bad;
};

size_t read_number(const uint8_t *bytes, size_t len, uint64_t *n) {
    *n = 0;
    for (size_t i = 0; i < len && i < 10; i++) {
        uint64_t group = bytes[i] % 128;
        if (i == 9 && group > 1)
            return 0;
        *n |= group << 7 * i;
        if (bytes[i] < 128)
            return i > 0 && group == 0 ? 0 : i + 1;
    }
    return 0;
}

static uint64_t number(struct left *r) {
    uint64_t n;
    size_t used = read_number(r->at, r->len, &n);
    r->bad |= used == 0;
    r->at += used;
    r->len -= used;
    return n;
}

/* One of so many cases. */
static unsigned one_of(struct left *r, unsigned cases) {
    uint64_t n = number(r);
    r->bad |= n >= cases;
    r->shape = r->shape * 31 + (uint32_t)(n % 32) + 1;
    return r->bad ? 0 : (unsigned)n;
}

/* Any number; its size is part of the shape. */
static void amount(struct left *r) {
    uint64_t n = number(r);
    r->shape = r->shape * 31 + (n == 0 ? 0 : n == 1 ? 1 : n < 128 ? 2 : n < UINT64_MAX ? 3 : 4);
}

/* A name is the text of an item: not empty, no longer than the line, and UTF-8 as the line is. */
static void name(struct left *r) {
    uint64_t n = number(r);
    if (r->bad || n < 1 || n > r->len || n > r->line_len || !is_utf8(r->at, n)) {
        r->bad = 1;
        return;
    }
    r->at += n;
    r->len -= n;
}

static void count(struct left *r) {
    if (one_of(r, 2) == 1)
        amount(r);
}

static void focus(struct left *r) {
    switch (one_of(r, 5)) {
    case 1:
        amount(r);
        break;
    case 2:
        one_of(r, 2);
        count(r);
        one_of(r, 2);
        break;
    }
}

static void target(struct left *r) {
    if (one_of(r, 4) == 3)
        name(r);
}

/* A window's or a tab's. */
static void window_target(struct left *r) {
    if (one_of(r, 3) != 2)
        focus(r);
}

static void change(struct left *r) {
    one_of(r, 3);
    amount(r);
}

/* Kinds 3 and 4. */
static void opened(struct left *r) {
    target(r);
    one_of(r, 4);
    one_of(r, 2);
    one_of(r, 2);
    count(r);
}

static void written(struct left *r) {
    window_target(r);
    if (one_of(r, 2) == 1)
        name(r);
    one_of(r, 2);
}

static void by_kind(struct left *r, unsigned kind) {
    switch (kind) {
    case 1: case 7:
        window_target(r);
        one_of(r, 4);
        break;
    case 2:
        focus(r);
        one_of(r, 2);
        change(r);
        break;
    case 3: case 4:
        opened(r);
        break;
    case 5:
        target(r);
        one_of(r, 4);
        break;
    case 6:
        written(r);
        break;
    case 8: case 9:
        focus(r);
        break;
    case 10:
        target(r);
        one_of(r, 4);
        focus(r);
        break;
    }
}

int is_record(const uint8_t *bytes, size_t len, size_t line_len) {
    struct left r = {bytes, len, line_len, 0, 0};
    unsigned kind = one_of(&r, 11);
    by_kind(&r, kind);
    if (r.bad || r.len > 0)
        return 0;
    met_record(kind, r.shape);
    return 1;
}
