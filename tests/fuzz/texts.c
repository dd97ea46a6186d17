/* The sentences of the refusals. */
#include "texts.h"

#include <stddef.h>

#include "pagyolint.h"

static const struct { uint64_t refusal; const char *sentence; } sentences[] = {
    {PAGYOLINT_LINE_TOO_LONG, "the line is longer than 1024 bytes"},
    {PAGYOLINT_NOT_UTF8, "the line is not UTF-8"},
    {PAGYOLINT_PARSE_FAILED, "the line, or a list or range in it, does not parse"},
    {PAGYOLINT_NUMBER_TOO_LARGE, "a number is above 18446744073709551615"},
    {PAGYOLINT_INVALID_ARGUMENT, "the command does not take this argument"},
    {PAGYOLINT_INVALID_RANGE, "the command does not take this range"},
    {PAGYOLINT_SUM_TOO_LARGE, "a sum of offsets is above 18446744073709551615"},
    {PAGYOLINT_BAD_ALIAS, "the alias is not 1 to 24 word characters"},
    {PAGYOLINT_BAD_COMMAND, "the command's number is above 27"},
    {PAGYOLINT_UNKNOWN_WORD, "no command has this word"},
    {PAGYOLINT_UNIMPLEMENTED, "the command is not implemented"},
    {PAGYOLINT_STORE_TOO_SHORT, "the store is too short"},
    {PAGYOLINT_ALIASES_FULL, "there are 32 aliases, and no place for a new one"},
    {PAGYOLINT_NOT_A_SESSION, "the bytes are not a session"},
};

const char *sentence_of(uint64_t refusal) {
    for (size_t i = 0; i < sizeof sentences / sizeof sentences[0]; i++)
        if (sentences[i].refusal == refusal)
            return sentences[i].sentence;
    return "";
}
