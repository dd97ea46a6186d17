/* The 68 shipped words, from default_cmds, and the word characters, from document 01. */
#ifndef WORDS_H
#define WORDS_H

#include <stddef.h>
#include <stdint.h>

#define SHIPPED 68
#define COMMANDS 28

struct shipped {
    const char *word;
    unsigned command;
};

extern const struct shipped shipped[SHIPPED];

/* The name of a command that there is. */
const char *name_of(unsigned command);

/* ASCII letters and #&*<=>@~ */
int is_word_byte(uint8_t c);

/* tab, horizontal, vertical, aboveleft, belowright */
int is_prefix(unsigned command);

#endif
