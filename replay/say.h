/* What is written: words in hex, a space behind each. */
#ifndef SAY_H
#define SAY_H

#include <stddef.h>
#include <stdint.h>

void say_word(uint64_t word);

/* A float by its bits. */
void say_float(double x);

/* All of a slice, each word once with how often it stands there in a row, and a comma behind it. */
void say_slice(const uint64_t *words, size_t n);

#endif
