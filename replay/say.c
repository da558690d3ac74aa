#include "say.h"
#include <inttypes.h>
#include <stdio.h>
#include <string.h>

void say_word(uint64_t word) {
    printf("%" PRIx64 " ", word);
}

void say_float(double x) {
    uint64_t word;
    memcpy(&word, &x, sizeof word);
    say_word(word);
}

/* How often the first word stands in a row. */
static size_t run_of(const uint64_t *words, size_t n) {
    size_t run = 1;
    while (run < n && words[run] == words[0]) run++;
    return run;
}

void say_slice(const uint64_t *words, size_t n) {
    for (size_t i = 0, run; i < n; i += run) {
        run = run_of(words + i, n - i);
        if (run == 1) say_word(words[i]);
        else printf("%" PRIx64 "*%zx ", words[i], run);
    }
    putchar(',');
}
