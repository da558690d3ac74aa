#include "entries.h"
#include <stdio.h>
#include <string.h>

/* More than the header has. */
#define NAMES 128

static const char *names[NAMES];
static size_t count;

void note(const char *name) {
    for (size_t i = 0; i < count; i++)
        if (strcmp(names[i], name) == 0) return;
    if (count == NAMES) stop("more entries than there is room for");
    names[count++] = name;
}

void write_names(const char *path) {
    FILE *file = fopen(path, "w");
    if (!file) stop("the file for the names can't be written");
    for (size_t i = 0; i < count; i++) fprintf(file, "%s\n", names[i]);
    if (fclose(file) != 0) stop("the file for the names can't be written");
}
