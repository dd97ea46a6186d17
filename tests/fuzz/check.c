/* What must hold, and what was met: counts of answers, and the same as counters that libFuzzer looks at. */
#include "check.h"

#include <inttypes.h>
#include <stdio.h>
#include <stdlib.h>

#define REFUSALS 100
#define KINDS 11
#define TOKEN_KINDS 11
#define COUNTERS 4096

static const char *const names[CALLS] = {"fresh", "line", "alias", "remembered", "tokens", "refusal text", "command name", "version"};
static uint64_t answers[CALLS][REFUSALS], kinds[KINDS], tokens[TOKEN_KINDS], most_readings, at_limit;

/* libFuzzer takes each counter of this section that is not zero for something covered, and sets all to zero before each input. */
__attribute__((section("__libfuzzer_extra_counters"))) static uint8_t covered[COUNTERS];

void must(int holds, const char *what) {
    if (holds)
        return;
    fprintf(stderr, "found: %s\n", what);
    abort();
}

static void cover(uint32_t feature) { covered[feature * 2654435761u >> 20] = 1; }

void met_answer(enum call call, uint64_t refusal) {
    must(refusal < REFUSALS, "an answer that is no refusal's number");
    answers[call][refusal]++;
    cover((uint32_t)call * REFUSALS + (uint32_t)refusal);
}

void met_record(unsigned kind, uint32_t shape) {
    kinds[kind]++;
    cover(1000 + shape);
}

void met_readings(uint64_t readings, uint64_t limit) {
    uint32_t size = 0;
    for (uint64_t n = readings; n > 0; n /= 2)
        size++;
    cover(CALLS * REFUSALS + size);
    if (readings > most_readings)
        most_readings = readings;
    at_limit += readings == limit && limit > 1;
}

void met_token(unsigned before, unsigned kind) {
    must(kind < TOKEN_KINDS, "a token of no kind");
    tokens[kind]++;
    cover(20000 + before * (TOKEN_KINDS + 1) + kind);
}

static void print_kinds(const char *what, const uint64_t *counts, int count) {
    fprintf(stderr, "%s:", what);
    for (int k = 0; k < count; k++)
        if (counts[k] > 0)
            fprintf(stderr, " %d x %" PRIu64, k, counts[k]);
    fputc('\n', stderr);
}

void met_print(void) {
    for (int c = 0; c < CALLS; c++) {
        fprintf(stderr, "%s:", names[c]);
        for (int r = 0; r < REFUSALS; r++)
            if (answers[c][r] > 0)
                fprintf(stderr, " %d x %" PRIu64, r, answers[c][r]);
        fputc('\n', stderr);
    }
    print_kinds("kinds of record", kinds, KINDS);
    print_kinds("kinds of token", tokens, TOKEN_KINDS);
    fprintf(stderr, "readings: at most %" PRIu64 ", as many as the line can take x %" PRIu64 "\n", most_readings, at_limit);
}
