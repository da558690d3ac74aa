/* Reads calls from standard input, makes each of them on the proved library through its C entries, and writes what it
 * answers and what it leaves in every slice that it was lent. It judges nothing but itself: replay/answers has what the
 * Rust answers and document 01 says, and tools/replay holds the one to the other. A line that begins with `#` is a name,
 * and is written as it stands. Given a file, it writes there which entries were called. */
#include "entries.h"
#include <stdio.h>
#include <string.h>

static const struct entry *const groups[] = {numbers, points, outlines, lines, fills, columns, patterns, books};

static const struct entry *find_in(const struct entry *group, uint64_t number) {
    while (group->make && group->number != number) group++;
    return group->make ? group : NULL;
}

static const struct entry *find(uint64_t number) {
    for (size_t i = 0; i < sizeof groups / sizeof *groups; i++) {
        const struct entry *entry = find_in(groups[i], number);
        if (entry) return entry;
    }
    stop("no function has this number");
}

/* Stops where a call isn't of its entry's form. */
static void has_form(const struct call *c, const struct entry *entry) {
    size_t singles = LENT_AT + entry->lent > SINGLES ? LENT_AT + entry->lent : SINGLES;
    if (entry->lists == 0) {
        if (c->commas > 0 || c->words > SINGLES) stop("a call with no lists has at most 16 words");
        return;
    }
    if (c->commas != entry->lists + 1) stop("not as many lists as the call has");
    if (c->at[1] != singles) stop("not as many words before the lists as the call has");
}

static void answer(const char *line) {
    static struct call c;
    read_call(line, &c);
    const struct entry *entry = find(FUNCTION(&c));
    has_form(&c, entry);
    entry->make(&c);
    putchar('\n');
    /* Lists are given as floats or as words: a write to either shows here. */
    if (memcmp(c.word, c.number, sizeof c.word) != 0) stop("a word of the input was changed");
}

int main(int argc, char **argv) {
    static char line[1 << 14];
    while (read_line(line, sizeof line)) {
        if (line[0] == '#') fputs(line, stdout);
        else answer(line);
    }
    if (argc > 1) write_names(argv[1]);
    if (fflush(stdout) != 0 || ferror(stdout)) stop("standard output can't be written");
    return 0;
}
