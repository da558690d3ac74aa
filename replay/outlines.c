/* Outlines: list 1 has the corners, list 2 the ends of the rings. */
#include "entries.h"

#define OUTLINE(c) FLOATS(c, 1), WHOLES(c, 2)

static void winding(const struct call *c) {
    int64_t value = (int64_t)MARK;
    say_word(CALL(beahcerot_winding, OUTLINE(c), FLOAT(c, 1), FLOAT(c, 2), &value));
    say_word((uint64_t)value);
}

static void point_inside(const struct call *c) {
    uint64_t value = MARK;
    say_word(CALL(beahcerot_point_inside, OUTLINE(c), WHOLE(c, 1), FLOAT(c, 1), FLOAT(c, 2), &value));
    say_word(value);
}

static void segment_inside(const struct call *c) {
    uint64_t value = MARK;
    say_word(CALL(beahcerot_segment_inside, OUTLINE(c), WHOLE(c, 1), FLOAT(c, 1), FLOAT(c, 2), FLOAT(c, 3), FLOAT(c, 4),
                  FLOAT(c, 5), &value));
    say_word(value);
}

static void bounds(const struct call *c) {
    double left = FLOAT_MARK, top = FLOAT_MARK, right = FLOAT_MARK, bottom = FLOAT_MARK;
    say_word(CALL(beahcerot_bounds, OUTLINE(c), &left, &top, &right, &bottom));
    say_float(left);
    say_float(top);
    say_float(right);
    say_float(bottom);
}

/* Lent are corners, ends, and the places and reasons of those that were dropped. */
static void salvage(const struct call *c) {
    uint64_t count = MARK, dropped = MARK;
    say_word(CALL(beahcerot_salvage, OUTLINE(c), LENT(c, 0), LENT(c, 1), LENT(c, 2), LENT(c, 3), &count, &dropped));
    say_word(count);
    say_word(dropped);
    say_lent(c, 4);
}

const struct entry outlines[] = {
    {0x30, 2, 0, winding},
    {0x31, 2, 0, point_inside},
    {0x32, 2, 0, segment_inside},
    {0x33, 2, 0, bounds},
    {0x34, 2, 4, salvage},
    {0, 0, 0, NULL},
};
