/* Asks for the tokens of a line so many times; called by bench/tokens. The line is a start and then a text over and over, up to a length. */
#include <pagyolint.h>
#include <stdlib.h>
#include <string.h>

static uint8_t session[PAGYOLINT_SESSION_BYTES], line[PAGYOLINT_LINE_BYTES], store[PAGYOLINT_TOKENS_BYTES];

int main(int count, char **words)
{
    if (count != 5)
        return 2;
    size_t start = strlen(words[1]), period = strlen(words[2]), length = strtoul(words[3], NULL, 10);
    unsigned long turns = strtoul(words[4], NULL, 10);
    if (start > length || period == 0 || length > sizeof line)
        return 2;
    memcpy(line, words[1], start);
    for (size_t i = start; i < length; i++)
        line[i] = (uint8_t)words[2][(i - start) % period];
    if (pagyolint_fresh(session, sizeof session) != 0)
        return 1;
    for (unsigned long i = 0; i < turns; i++)
        if (pagyolint_tokens(session, sizeof session, line, length, store, sizeof store).refusal != 0)
            return 1;
    return 0;
}
