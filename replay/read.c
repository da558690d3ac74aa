#include "read.h"
#include <stdio.h>
#include <stdlib.h>
#include <string.h>

_Static_assert(sizeof(double) == 8 && sizeof(size_t) == 8, "a word is 64 bits");

static size_t line_number;

_Noreturn void stop(const char *why) {
    fflush(stdout);
    fprintf(stderr, "replay: line %zu: %s\n", line_number, why);
    exit(2);
}

bool read_line(char *line, size_t room) {
    line_number++;
    if (!fgets(line, (int)room, stdin)) {
        if (ferror(stdin)) stop("can't be read");
        return false;
    }
    size_t length = strlen(line);
    if (length == 0 || line[length - 1] != '\n') stop("too long, or without its end");
    return true;
}

static uint64_t digit(char b) {
    if (b >= '0' && b <= '9') return (uint64_t)(b - '0');
    if (b >= 'a' && b <= 'f') return (uint64_t)(b - 'a' + 10);
    stop("a word is digits in hex with a space behind them");
}

/* The word at the front of a text; answers what stands behind its space. */
static const char *read_word(const char *text, struct call *c) {
    const char *end = text;
    uint64_t word = 0;
    for (; *end != ' '; end++) word = word << 4 | digit(*end);
    if (end == text || end - text > 16) stop("a word has 1 to 16 digits");
    if (c->words == WORDS) stop("more words than there is room for");
    c->word[c->words++] = word;
    return end + 1;
}

static const char *read_comma(const char *text, struct call *c) {
    if (c->commas == COMMAS) stop("more lists than there is room for");
    c->at[++c->commas] = c->words;
    return text + 1;
}

void read_call(const char *line, struct call *c) {
    memset(c, 0, sizeof *c);
    while (*line != '\n') line = *line == ',' ? read_comma(line, c) : read_word(line, c);
    if (c->words == 0) stop("no words");
    if (c->commas > 0 && c->at[c->commas] != c->words) stop("words behind the last comma");
    memcpy(c->number, c->word, sizeof c->number);
}

/* Where list j begins. */
static size_t start(const struct call *c, size_t j) {
    if (j >= c->commas) stop("a list is missing");
    return c->at[j];
}

size_t list_length(const struct call *c, size_t j) {
    return c->at[j + 1] - start(c, j);
}

const double *list_floats(const struct call *c, size_t j) {
    return c->number + start(c, j);
}

const size_t *list_wholes(const struct call *c, size_t j) {
    const void *words = c->word + start(c, j);
    return words;
}

bool truth(uint64_t word) {
    if (word > 1) stop("a word that should be 0 or 1");
    return word == 1;
}
