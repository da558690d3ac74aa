/* Points, with document 01's refusal. */
#include "entries.h"

#define OF_TWO_POINTS(name) \
    static void name(const struct call *c) { \
        double value = FLOAT_MARK; \
        say_word(CALL(beahcerot_##name, FLOAT(c, 1), FLOAT(c, 2), FLOAT(c, 3), FLOAT(c, 4), &value)); \
        say_float(value); \
    }
OF_TWO_POINTS(dot)
OF_TWO_POINTS(dist)
OF_TWO_POINTS(cross)

static void len(const struct call *c) {
    double value = FLOAT_MARK;
    say_word(CALL(beahcerot_len, FLOAT(c, 1), FLOAT(c, 2), &value));
    say_float(value);
}

/* Those that answer a point: the arguments in front of its two places are handed in. */
#define TO_A_POINT(name, ...) \
    static void name(const struct call *c) { \
        double x = FLOAT_MARK, y = FLOAT_MARK; \
        say_word(CALL(beahcerot_##name, __VA_ARGS__, &x, &y)); \
        say_float(x); \
        say_float(y); \
    }
TO_A_POINT(norm, FLOAT(c, 1), FLOAT(c, 2))
TO_A_POINT(perp, FLOAT(c, 1), FLOAT(c, 2))
TO_A_POINT(rotate, FLOAT(c, 1), FLOAT(c, 2), FLOAT(c, 3), FLOAT(c, 4))
TO_A_POINT(lerp, FLOAT(c, 1), FLOAT(c, 2), FLOAT(c, 3), FLOAT(c, 4), FLOAT(c, 5))

static void inside(const struct call *c) {
    say_word(CALL(beahcerot_inside, WHOLE(c, 1), (int64_t)WHOLE(c, 2)));
}

const struct entry points[] = {
    {0x17, 0, 0, dot},
    {0x18, 0, 0, len},
    {0x19, 0, 0, dist},
    {0x1a, 0, 0, cross},
    {0x20, 0, 0, norm},
    {0x21, 0, 0, perp},
    {0x22, 0, 0, rotate},
    {0x23, 0, 0, lerp},
    {0x24, 0, 0, inside},
    {0, 0, 0, NULL},
};
