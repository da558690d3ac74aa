#include "lend.h"
#include "say.h"
#include <string.h>

static uint64_t slices[SLICES][MARGIN + ROOM + MARGIN];

size_t lent(const struct call *c, size_t k) {
    uint64_t n = c->word[LENT_AT + k];
    if (n > ROOM) stop("more words are lent than there are");
    return n;
}

void *lend(const struct call *c, size_t k) {
    lent(c, k);
    for (size_t i = 0; i < MARGIN + ROOM + MARGIN; i++) slices[k][i] = MARK;
    return slices[k] + MARGIN;
}

static void marked(const uint64_t *words, size_t n) {
    for (size_t i = 0; i < n; i++)
        if (words[i] != MARK) stop("a word was written beside a lent slice");
}

void say_lent(const struct call *c, size_t n) {
    for (size_t k = 0; k < n; k++) {
        const uint64_t *first = slices[k] + MARGIN;
        marked(slices[k], MARGIN);
        marked(first + lent(c, k), ROOM + MARGIN - lent(c, k));
        say_slice(first, lent(c, k));
    }
}

static uint8_t bytes[MARGIN + ROOM + MARGIN];

uint8_t *lend_bytes(size_t n) {
    if (n > ROOM) stop("more bytes are lent than there are");
    memset(bytes, BYTE_MARK, sizeof bytes);
    return bytes + MARGIN;
}

uint8_t *list_bytes(const struct call *c) {
    const size_t *words = list_wholes(c, 1);
    uint8_t *first = lend_bytes(list_length(c, 1));
    for (size_t i = 0; i < list_length(c, 1); i++) {
        if (words[i] > 0xff) stop("a word that should be a byte");
        first[i] = (uint8_t)words[i];
    }
    return first;
}

static void marked_bytes(const uint8_t *from, size_t n) {
    for (size_t i = 0; i < n; i++)
        if (from[i] != BYTE_MARK) stop("a byte was written beside a lent slice");
}

void say_bytes(size_t n) {
    uint64_t words[ROOM];
    for (size_t i = 0; i < n; i++) words[i] = bytes[MARGIN + i];
    marked_bytes(bytes, MARGIN);
    marked_bytes(bytes + MARGIN + n, ROOM + MARGIN - n);
    say_slice(words, n);
}

void same_bytes(const struct call *c) {
    uint8_t after[sizeof bytes];
    memcpy(after, bytes, sizeof bytes);
    list_bytes(c);
    if (memcmp(after, bytes, sizeof bytes) != 0) stop("a byte of the input was changed");
}
