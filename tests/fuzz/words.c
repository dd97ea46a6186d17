/* The 68 shipped words: each command's name, then its aliases, in the order of default_cmds. A word that stands twice there stands once. */
#include "words.h"

#include <string.h>

const struct shipped shipped[SHIPPED] = {
    {"!", 0},
    {"&", 1}, {"&&", 1}, {"~", 1}, {"~&", 1},
    {"read", 2}, {"r", 2},
    {"print", 3}, {"p", 3},
    {"substitute", 4}, {"s", 4},
    {"close", 5}, {"clo", 5},
    {"only", 6}, {"on", 6},
    {"quit", 7}, {"q", 7},
    {"quitall", 8}, {"qa", 8}, {"qall", 8}, {"quita", 8},
    {"resize", 9}, {"res", 9},
    {"split", 10}, {"sp", 10},
    {"vsplit", 11}, {"vs", 11}, {"vsp", 11},
    {"view", 12}, {"vie", 12},
    {"tab", 13},
    {"tabclose", 14}, {"tabc", 14},
    {"tabedit", 15}, {"tabe", 15}, {"tabnew", 15},
    {"tabmove", 16}, {"tabm", 16},
    {"tabnext", 17}, {"tabn", 17},
    {"tabonly", 18}, {"tabo", 18},
    {"tabprevious", 19}, {"tabp", 19}, {"tabN", 19}, {"tabNext", 19},
    {"tabfirst", 20}, {"tabr", 20}, {"tabrewind", 20}, {"tabfir", 20},
    {"tablast", 21}, {"tabl", 21},
    {"write", 22}, {"w", 22},
    {"wall", 23}, {"wa", 23},
    {"horizontal", 24}, {"hor", 24},
    {"vertical", 25}, {"vert", 25},
    {"aboveleft", 26}, {"lefta", 26}, {"leftabove", 26}, {"abo", 26},
    {"belowright", 27}, {"rightb", 27}, {"rightbelow", 27}, {"bel", 27},
};

const char *name_of(unsigned command) {
    size_t i = 0;
    while (shipped[i].command != command)
        i++;
    return shipped[i].word;
}

int is_word_byte(uint8_t c) { return ('a' <= c && c <= 'z') || ('A' <= c && c <= 'Z') || (c != 0 && strchr("#&*<=>@~", c) != NULL); }

int is_prefix(unsigned command) { return command == 13 || (24 <= command && command <= 27); }
