/*
 * A fuzz driver over the calls of include/pagyolint.h, for libFuzzer. See docs/TESTING.md.
 * An input is a list of steps (steps.h). Each call is looked at (calls.h) by what document 01 says, written in C apart from the library
 * (model.h, record.h, tokens.h, texts.h), on slices whose surroundings tell a byte read or written outside (lent.h).
 */
#include <stdlib.h>

#include "check.h"
#include "lent.h"
#include "steps.h"

int LLVMFuzzerInitialize(int *argc, char ***argv);
int LLVMFuzzerTestOneInput(const uint8_t *input, size_t len);

int LLVMFuzzerInitialize(int *argc, char ***argv) {
    (void)argc;
    (void)argv;
    lent_setup(getenv("PAGYOLINT_HEAP") != NULL);
    atexit(met_print);
    return 0;
}

int LLVMFuzzerTestOneInput(const uint8_t *input, size_t len) {
    struct steps steps;
    read_steps(input, len, &steps);
    run_steps(&steps);
    return 0;
}
