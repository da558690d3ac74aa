/* The number leaves: on every f64, and with document 01's refusal. */
#include "entries.h"

#define OF_ONE(name) \
    static void name##_of(const struct call *c) { say_float(CALL(beahcerot_##name, FLOAT(c, 1))); }
OF_ONE(root)
OF_ONE(floor)
OF_ONE(ceil)
OF_ONE(magnitude)

#define OF_TWO(name) \
    static void name##_of(const struct call *c) { say_float(CALL(beahcerot_##name, FLOAT(c, 1), FLOAT(c, 2))); }
OF_TWO(smaller)
OF_TWO(larger)

static void before(const struct call *c) {
    say_word(CALL(beahcerot_before, FLOAT(c, 1), FLOAT(c, 2)));
}

static void to_i64(const struct call *c) {
    say_word((uint64_t)CALL(beahcerot_to_i64, FLOAT(c, 1)));
}

static void to_u64(const struct call *c) {
    say_word(CALL(beahcerot_to_u64, FLOAT(c, 1)));
}

static void of_i64(const struct call *c) {
    say_float(CALL(beahcerot_of_i64, (int64_t)WHOLE(c, 1)));
}

static void of_u64(const struct call *c) {
    say_float(CALL(beahcerot_of_u64, WHOLE(c, 1)));
}

#define CHECKED_ONE(name) \
    static void name(const struct call *c) { \
        double value = FLOAT_MARK; \
        say_word(CALL(beahcerot_##name, FLOAT(c, 1), &value)); \
        say_float(value); \
    }
CHECKED_ONE(leaf_root)
CHECKED_ONE(leaf_floor)
CHECKED_ONE(leaf_ceil)
CHECKED_ONE(leaf_magnitude)

#define CHECKED_TWO(name) \
    static void name(const struct call *c) { \
        double value = FLOAT_MARK; \
        say_word(CALL(beahcerot_##name, FLOAT(c, 1), FLOAT(c, 2), &value)); \
        say_float(value); \
    }
CHECKED_TWO(leaf_smaller)
CHECKED_TWO(leaf_larger)

static void leaf_order(const struct call *c) {
    uint64_t place = MARK;
    say_word(CALL(beahcerot_leaf_order, FLOAT(c, 1), FLOAT(c, 2), &place));
    say_word(place);
}

const struct entry numbers[] = {
    {0x00, 0, 0, root_of},
    {0x01, 0, 0, floor_of},
    {0x02, 0, 0, ceil_of},
    {0x03, 0, 0, magnitude_of},
    {0x04, 0, 0, smaller_of},
    {0x05, 0, 0, larger_of},
    {0x06, 0, 0, before},
    {0x07, 0, 0, to_i64},
    {0x08, 0, 0, to_u64},
    {0x09, 0, 0, of_i64},
    {0x0a, 0, 0, of_u64},
    {0x10, 0, 0, leaf_root},
    {0x11, 0, 0, leaf_floor},
    {0x12, 0, 0, leaf_ceil},
    {0x13, 0, 0, leaf_magnitude},
    {0x14, 0, 0, leaf_smaller},
    {0x15, 0, 0, leaf_larger},
    {0x16, 0, 0, leaf_order},
    {0, 0, 0, NULL},
};
