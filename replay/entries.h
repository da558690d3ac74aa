/* The calls, by group: each makes one call of the C entries, and says what it answers, stores and leaves. */
#ifndef ENTRIES_H
#define ENTRIES_H

#include "lend.h"
#include "read.h"
#include "say.h"
#include <beahcerot.h>

struct entry {
    uint64_t number;
    /* How many lists it is given, and how many slices it is lent. */
    size_t lists, lent;
    void (*make)(const struct call *c);
};

/* Each ends with an entry of no call. */
extern const struct entry numbers[], points[], outlines[], lines[], fills[], columns[], patterns[], books[];

/* Makes a call and notes the entry's name, so that what is noted is what was called. */
#define CALL(entry, ...) (note(#entry), entry(__VA_ARGS__))
void note(const char *name);

/* The names that were noted, a line each. */
void write_names(const char *path);

#endif
