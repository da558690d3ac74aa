/* A line of the list as a call: words, and lists of words. oracle/README.md has the form. */
#ifndef READ_H
#define READ_H

#include <stdbool.h>
#include <stddef.h>
#include <stdint.h>

/* How many words a line can have, and how many commas. */
#define WORDS 512
#define COMMAS 8

/* The single numbers, which stand before the lists: the function's, floats 1 to 6, whole numbers 1 to 3, and how much is
 * lent in each slice. */
#define FUNCTION(c) (c)->word[0]
#define FLOAT(c, k) (c)->number[k]
#define WHOLE(c, k) (c)->word[6 + (k)]
#define LENT_AT 10
#define SINGLES 16

struct call {
    size_t words, commas;
    uint64_t word[WORDS];
    /* The floats whose bits the words are. */
    double number[WORDS];
    /* List j is from at[j] to at[j + 1]. */
    size_t at[COMMAS + 1];
};

/* Ends the program, with a status that isn't 0: the line that was read last is bad, or its call did what it must not. */
_Noreturn void stop(const char *why);

/* The next line, its end included. False where there is none. */
bool read_line(char *line, size_t room);

void read_call(const char *line, struct call *c);

size_t list_length(const struct call *c, size_t j);

const double *list_floats(const struct call *c, size_t j);

const size_t *list_wholes(const struct call *c, size_t j);

/* A list as a slice of the C entries. */
#define FLOATS(c, j) list_floats(c, j), list_length(c, j)
#define WHOLES(c, j) list_wholes(c, j), list_length(c, j)

/* A word that is 0 or 1. */
bool truth(uint64_t word);

#endif
