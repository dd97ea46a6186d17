/*
 * Runs lines on a session. Each is shown with a letter below each byte for what it is (`shown` has the letters), and with what it comes to: a
 * refusal, or a record in hex and in words.
 *
 *     cc -std=c11 lines.c $(pkg-config --cflags --libs pagyolint) -o lines
 *     ./lines                     the lines below
 *     ./lines 'vert 3sp a' q      lines of your own
 *     ./lines -c 'vert 3sp a'     with the tokens in colours
 *
 * Copy what you need: `check_version`, `say_refusal`, `show_tokens` and the reader of records each stand on their own.
 */
#include <inttypes.h>
#include <stdio.h>
#include <stdlib.h>
#include <string.h>

#include <pagyolint.h>

/* The library keeps nothing itself: these bytes are the session. They may be copied, stored and taken up again. */
static uint8_t session[PAGYOLINT_SESSION_BYTES];

/* Stores that are long enough for every call: none of them can be refused by 12. All bytes of a store are initialised, as these are. */
static uint8_t record[PAGYOLINT_STORE_BYTES], tokens[PAGYOLINT_TOKENS_BYTES], text[PAGYOLINT_TEXT_BYTES], remembered[PAGYOLINT_LINE_BYTES];

/* The library takes no null pointer, not even with a count of 0: any other pointer does in its place. */
static const uint8_t *not_null(const void *bytes) { return bytes != NULL ? bytes : (const uint8_t *)""; }

/* Lines and names are UTF-8, and may have control characters in them; these are shown by their numbers. */
static int is_control(uint8_t byte) { return byte < 0x20 || byte == 0x7F; }

static void print_bytes(const uint8_t *bytes, size_t count) {
    for (size_t i = 0; i < count; i++)
        if (is_control(bytes[i]))
            printf("<%02X>", (unsigned)bytes[i]);
        else
            putchar(bytes[i]);
}

/* The version ------------------------------------------------------------------------------------------------------------------------ */

/* A program can run with a later library than it was compiled for, of the same major version. Another one is not for it. */
static void check_version(void) {
    uint64_t version = pagyolint_version();
    printf("Pagyolint %" PRIu64 ".%" PRIu64 ".%" PRIu64 "\n", version / 1000000, version / 1000 % 1000, version % 1000);
    if (version / 1000000 != PAGYOLINT_VERSION_MAJOR || version < PAGYOLINT_VERSION_NUMBER) {
        fprintf(stderr, "lines: compiled for Pagyolint %s, which the library is not\n", PAGYOLINT_VERSION);
        exit(EXIT_FAILURE);
    }
}

/* Texts ------------------------------------------------------------------------------------------------------------------------------ */

/* A text has no zero at its end; its count comes with the answer. */
static void say_refusal(uint64_t refusal) {
    struct pagyolint_count_reply reply = pagyolint_refusal_text(refusal, text, sizeof text);
    printf("refused by %" PRIu64 ", %.*s", refusal, (int)reply.count, (const char *)text);
}

static void add_alias(const char *word, uint64_t command) {
    uint64_t refusal = pagyolint_alias(session, sizeof session, (const uint8_t *)word, strlen(word), command);
    printf("alias %s: ", word);
    if (refusal != PAGYOLINT_ACCEPTED) {
        say_refusal(refusal);
    } else {
        struct pagyolint_count_reply name = pagyolint_command_name(command, text, sizeof text);
        printf("%.*s", (int)name.count, (const char *)text);
    }
    putchar('\n');
}

/* Tokens ----------------------------------------------------------------------------------------------------------------------------- */

/* How each kind is shown: by a letter below each of its bytes, and on a terminal by a colour. */
static const struct { char letter; const char *colour; } shown[] = {
    [PAGYOLINT_TOKEN_SPACE] = {'.', "0"},   [PAGYOLINT_TOKEN_COLON] = {'c', "2"},   [PAGYOLINT_TOKEN_RANGE] = {'r', "35"},
    [PAGYOLINT_TOKEN_WORD] = {'w', "1"},    [PAGYOLINT_TOKEN_BANG] = {'b', "31"},   [PAGYOLINT_TOKEN_TEXT] = {'t', "0"},
    [PAGYOLINT_TOKEN_QUOTED] = {'q', "32"}, [PAGYOLINT_TOKEN_NEWLINE] = {'n', "2"}, [PAGYOLINT_TOKEN_UNLISTED] = {'u', "33"},
    [PAGYOLINT_TOKEN_LEFT] = {'x', "41"},   [PAGYOLINT_TOKEN_PREFIX] = {'p', "34"},
};

/* A token as it stands in the store: its kind, the place of its first byte in the line, and the place past its last. */
struct token {
    size_t kind, start, stop;
};

/* A kind of a later version is shown as text. */
static struct token token_at(size_t i) {
    const uint8_t *five = tokens + i * PAGYOLINT_TOKEN_BYTES;
    size_t kind = five[0] < sizeof shown / sizeof shown[0] ? five[0] : PAGYOLINT_TOKEN_TEXT;
    return (struct token){kind, five[1] + (size_t)256 * five[2], five[3] + (size_t)256 * five[4]};
}

/* A letter for all that a byte of the line is shown as: four for a control character, none for a byte that goes on a character. */
static void print_letters(const uint8_t *bytes, size_t count, char letter) {
    for (size_t i = 0; i < count; i++)
        for (int n = is_control(bytes[i]) ? 4 : bytes[i] / 64 != 2; n > 0; n--)
            putchar(letter);
}

/* The line with its tokens: none is empty, and together they cover it, whether it will be accepted or not. One that is too long has none. */
static void show_tokens(const uint8_t *line, size_t count, int colours) {
    struct pagyolint_count_reply reply = pagyolint_tokens(session, sizeof session, line, count, tokens, sizeof tokens);
    putchar('>');
    for (size_t i = 0; i < reply.count; i++) {
        struct token t = token_at(i);
        printf(i > 0 ? "" : " ");
        if (colours)
            printf("\x1B[%sm", shown[t.kind].colour);
        print_bytes(line + t.start, t.stop - t.start);
        if (colours)
            printf("\x1B[0m");
    }
    for (size_t i = 0; i < reply.count; i++) {
        struct token t = token_at(i);
        printf(i > 0 ? "" : "\n  ");
        print_letters(line + t.start, t.stop - t.start, shown[t.kind].letter);
    }
    putchar('\n');
}

/* The record ------------------------------------------------------------------------------------------------------------------------- */

/* What is left of a record. A reader that meets something it does not know, as the record of a later version can have, sets `unknown`. */
struct reader {
    const uint8_t *at;
    size_t left;
    int unknown;
};

/* A number: groups of seven bits, the low group first, and the bit 0x80 on all but the last. */
static uint64_t read_number(struct reader *r) {
    uint64_t number = 0;
    for (unsigned shift = 0; r->left > 0 && shift < 64; shift += 7) {
        uint8_t byte = *r->at++;
        r->left--;
        number |= (uint64_t)(byte & 0x7F) << shift;
        if (byte < 0x80)
            return number;
    }
    r->unknown = 1;
    return 0;
}

/* A name: how many bytes it has, and the bytes. */
static void read_name(struct reader *r) {
    uint64_t count = read_number(r);
    if (count > r->left) {
        r->unknown = 1;
        return;
    }
    printf(" \"");
    print_bytes(r->at, (size_t)count);
    putchar('"');
    r->at += count;
    r->left -= (size_t)count;
}

/* A number that stands for one of these words, which are parted by spaces; prints the word, and answers the number. */
static uint64_t read_one_of(struct reader *r, const char *words) {
    uint64_t number = read_number(r);
    for (uint64_t i = 0; i < number && *words != 0; i++) {
        words += strcspn(words, " ");
        words += *words == ' ';
    }
    r->unknown |= *words == 0;
    printf(" %.*s", (int)strcspn(words, " "), words);
    return number;
}

static void read_amount(struct reader *r) { printf(" %" PRIu64, read_number(r)); }

static void read_count(struct reader *r) {
    if (read_one_of(r, "contextual count") == 1)
        read_amount(r);
}

static void read_focus(struct reader *r) {
    switch (read_one_of(r, "current offset direction beginning end")) {
    case 1:
        read_amount(r);
        break;
    case 2:
        read_one_of(r, "next previous");
        read_count(r);
        read_one_of(r, "no-wrap wrap");
        break;
    }
}

static void read_target(struct reader *r) {
    if (read_one_of(r, "current alternate unnamed name") == 3)
        read_name(r);
}

/* The windows or the tabs that are meant. */
static void read_which(struct reader *r) {
    if (read_one_of(r, "single all-but all") != 2)
        read_focus(r);
}

/* Flags are numbers that add up: of close 1 and 2, of open 1 and 2, of write 1. */
static void read_close_flags(struct reader *r) { read_one_of(r, "no-flags quit force quit+force"); }

static void read_open_flags(struct reader *r) { read_one_of(r, "no-flags force readonly force+readonly"); }

static void read_write_flags(struct reader *r) { read_one_of(r, "no-flags force"); }

static void read_axis(struct reader *r) { read_one_of(r, "horizontal vertical"); }

enum kind { NOTHING, CLOSE, RESIZE, OPEN, SPLIT, SWITCH, WRITE, TAB_CLOSE, TAB_FOCUS, TAB_MOVE, TAB_OPEN };

/* A kind, and the parts that go with it. */
static void read_record(struct reader *r) {
    switch (read_one_of(r, "nothing close resize open split switch write tab-close tab-focus tab-move tab-open")) {
    case CLOSE: case TAB_CLOSE:
        read_which(r);
        read_close_flags(r);
        break;
    case RESIZE:
        read_focus(r);
        read_axis(r);
        read_one_of(r, "exact increase decrease");
        read_amount(r);
        break;
    case OPEN: case SPLIT:
        read_target(r);
        read_open_flags(r);
        read_axis(r);
        read_one_of(r, "side-next side-previous");
        read_count(r);
        break;
    case SWITCH:
        read_target(r);
        read_open_flags(r);
        break;
    case WRITE:
        read_which(r);
        if (read_one_of(r, "unnamed name") == 1)
            read_name(r);
        read_write_flags(r);
        break;
    case TAB_FOCUS: case TAB_MOVE:
        read_focus(r);
        break;
    case TAB_OPEN:
        read_target(r);
        read_open_flags(r);
        read_focus(r);
        break;
    }
}

static void show_record(const uint8_t *bytes, size_t count) {
    struct reader r = {bytes, count, 0};
    printf("  record ");
    for (size_t i = 0; i < count; i++)
        printf("%02x", (unsigned)bytes[i]);
    printf(":");
    read_record(&r);
    printf("%s\n", r.unknown || r.left > 0 ? " (and more than is known here)" : "");
}

/* Lines ------------------------------------------------------------------------------------------------------------------------------ */

/* A line is any bytes, with no zero at their end. Here it may be null where its count is 0. */
static void run_line(const void *bytes, size_t count, int colours) {
    const uint8_t *line = not_null(bytes);
    show_tokens(line, count, colours);
    struct pagyolint_line_reply reply = pagyolint_line(session, sizeof session, line, count, record, sizeof record);
    if (reply.refusal == PAGYOLINT_ACCEPTED) {
        show_record(record, (size_t)reply.count);
        return;
    }
    printf("  ");
    say_refusal(reply.refusal);
    if (reply.refusal == PAGYOLINT_UNKNOWN_WORD) {
        /* The store has the word, as a name. */
        struct reader word = {record, (size_t)reply.count, 0};
        putchar(':');
        read_name(&word);
    }
    if (reply.readings > 0)
        printf(", in reading %" PRIu64, reply.readings);
    putchar('\n');
}

static void show_remembered(void) {
    struct pagyolint_count_reply reply = pagyolint_remembered(session, sizeof session, remembered, sizeof remembered);
    printf("remembered ");
    print_bytes(remembered, (size_t)reply.count);
    putchar('\n');
}

int main(int argc, char **argv) {
    static const char *const known[] = {
        ":vert 3sp a\\ b", "v sp #", "w \"a b\"", "tab view notes", "resize +5", "+5-3close", "tabm 3", "qa!", "2,7vert! 5tab sp x\n",
        "vert foo", "3 q", "w a|b", "w a b", "%tab sp", "!ls", "w \xC3\xA4",
    };
    int colours = argc > 1 && strcmp(argv[1], "-c") == 0;
    check_version();

    uint64_t refusal = pagyolint_fresh(session, sizeof session);
    if (refusal != PAGYOLINT_ACCEPTED) {
        say_refusal(refusal);
        return EXIT_FAILURE;
    }
    add_alias("v", PAGYOLINT_VERTICAL);
    add_alias("v1", PAGYOLINT_VERTICAL);

    if (argc > 1 + colours) {
        for (int i = 1 + colours; i < argc; i++)
            run_line(argv[i], strlen(argv[i]), colours);
    } else {
        run_line(NULL, 0, colours);
        for (size_t i = 0; i < sizeof known / sizeof known[0]; i++)
            run_line(known[i], strlen(known[i]), colours);
    }
    show_remembered();
    return EXIT_SUCCESS;
}
