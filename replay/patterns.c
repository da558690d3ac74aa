/* Patterns: list 1 has the corners, list 2 the ends of the rings. Each writes lines: lent are their points and ends. */
#include "entries.h"

#define OUTLINE(c) FLOATS(c, 1), WHOLES(c, 2)

/* The number of slices, and the arguments in front of the two counts, are handed in. */
#define LINES(name, slices, ...) \
    static void name(const struct call *c) { \
        uint64_t line_count = MARK, point_count = MARK; \
        say_word(CALL(beahcerot_##name, __VA_ARGS__, &line_count, &point_count)); \
        say_word(line_count); \
        say_word(point_count); \
        say_lent(c, slices); \
    }

/* The line that is clipped is list 3. */
LINES(clip_inside, 2, FLOATS(c, 3), OUTLINE(c), WHOLE(c, 1), LENT(c, 0), LENT(c, 1))
LINES(cross_stitch, 2, OUTLINE(c), WHOLE(c, 1), FLOAT(c, 1), LENT(c, 0), LENT(c, 1))

/* Floats are spacing and len, whole numbers rule and seed; the third slice is the one to work in. */
LINES(meander, 3, OUTLINE(c), WHOLE(c, 1), FLOAT(c, 1), FLOAT(c, 2), WHOLE(c, 2), LENT(c, 0), LENT(c, 1), LENT(c, 2))

const struct entry patterns[] = {
    {0x70, 3, 2, clip_inside},
    {0x71, 2, 2, cross_stitch},
    {0x72, 2, 3, meander},
    {0, 0, 0, NULL},
};
