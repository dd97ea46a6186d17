/* Runs the driver on the files that are named, once each: for valgrind, and to look at an input that the fuzzer kept. */
#include <stdint.h>
#include <stdio.h>
#include <stdlib.h>

int LLVMFuzzerInitialize(int *argc, char ***argv);
int LLVMFuzzerTestOneInput(const uint8_t *input, size_t len);

#define MOST_INPUT 65536

static void replay(const char *path) {
    FILE *file = fopen(path, "rb");
    uint8_t *read = malloc(MOST_INPUT);
    if (file == NULL || read == NULL) {
        fprintf(stderr, "%s cannot be read\n", path);
        exit(1);
    }
    size_t len = fread(read, 1, MOST_INPUT, file);
    fclose(file);
    LLVMFuzzerTestOneInput(read, len);
    free(read);
}

int main(int argc, char **argv) {
    LLVMFuzzerInitialize(&argc, &argv);
    for (int i = 1; i < argc; i++)
        replay(argv[i]);
    printf("%d inputs replayed, nothing found\n", argc - 1);
    return 0;
}
