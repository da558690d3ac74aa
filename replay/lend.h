/* The slices that a call is lent. What stands around them is looked at too: a write there stops the program. */
#ifndef LEND_H
#define LEND_H

#include "read.h"

/* How many slices there are, how many words (or bytes) each can have, and how many stand around it on either side. */
#define SLICES 10
#define ROOM 256
#define MARGIN 4

/* What stands in each lent word, and in each place for a value, before a call; as a float; in each byte. */
#define MARK UINT64_C(0x123456789abcdef0)
#define FLOAT_MARK 0x1.456789abcdefp-732
#define BYTE_MARK 0xa5

/* Slice k of the call, as the C entries take it: words of any kind, and how many. */
#define LENT(c, k) lend(c, k), lent(c, k)
void *lend(const struct call *c, size_t k);
size_t lent(const struct call *c, size_t k);

/* Says all of the first n slices, after the call. */
void say_lent(const struct call *c, size_t n);

/* A slice of n bytes to be written to, and what is left of it. */
uint8_t *lend_bytes(size_t n);
void say_bytes(size_t n);

/* The bytes of list 1, in the place of that slice. */
#define BYTES(c) list_bytes(c), list_length(c, 1)
uint8_t *list_bytes(const struct call *c);

/* Stops where they are not as they were. */
void same_bytes(const struct call *c);

#endif
