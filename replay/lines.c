/* Lines and machine files: list 1 has the corners, or a file's bytes. */
#include "entries.h"

static void polyline_length(const struct call *c) {
    double value = FLOAT_MARK;
    say_word(CALL(beahcerot_polyline_length, FLOATS(c, 1), &value));
    say_float(value);
}

/* Those that write points: the arguments behind the line are handed in. */
#define SEWN(name, ...) \
    static void name(const struct call *c) { \
        uint64_t count = MARK; \
        say_word(CALL(beahcerot_##name, FLOATS(c, 1), __VA_ARGS__, &count)); \
        say_word(count); \
        say_lent(c, 1); \
    }
SEWN(resample_keep_corners, FLOAT(c, 1), LENT(c, 0))
SEWN(running, truth(WHOLE(c, 1)), FLOAT(c, 1), WHOLE(c, 2), LENT(c, 0))
SEWN(split_long, FLOAT(c, 1), LENT(c, 0))
SEWN(s_stitch, LENT(c, 0))

static void dst(const struct call *c) {
    uint64_t count = MARK;
    say_word(CALL(beahcerot_dst, FLOATS(c, 1), lend_bytes(lent(c, 0)), lent(c, 0), &count));
    say_word(count);
    say_bytes(lent(c, 0));
}

static void dst_read(const struct call *c) {
    uint64_t count = MARK, number = MARK;
    say_word(CALL(beahcerot_dst_read, BYTES(c), LENT(c, 0), LENT(c, 1), &count, &number));
    say_word(count);
    say_word(number);
    say_lent(c, 2);
    same_bytes(c);
}

const struct entry lines[] = {
    {0x40, 1, 0, polyline_length},
    {0x41, 1, 1, resample_keep_corners},
    {0x42, 1, 1, running},
    {0x43, 1, 1, split_long},
    {0x44, 1, 1, s_stitch},
    {0x45, 1, 1, dst},
    {0x46, 1, 2, dst_read},
    {0, 0, 0, NULL},
};
