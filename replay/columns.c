/* Columns between two rails: lists 1 and 2 have the rails' corners, list 3 the sync points. Of a column the floats are
 * spacing, pull, run_len and split, the whole numbers underlay, short stitches and style. */
#include "entries.h"

#define RAILS(c) FLOATS(c, 1), FLOATS(c, 2), FLOATS(c, 3)
#define SHEET(c) FLOAT(c, 1), FLOAT(c, 2), WHOLE(c, 1), FLOAT(c, 3), truth(WHOLE(c, 2)), FLOAT(c, 4), WHOLE(c, 3)

/* Those that write points: the arguments behind the rails are handed in. Lent are the working slice and the output. */
#define SEWN(name, ...) \
    static void name(const struct call *c) { \
        uint64_t count = MARK; \
        say_word(CALL(beahcerot_##name, RAILS(c), __VA_ARGS__, LENT(c, 0), LENT(c, 1), &count)); \
        say_word(count); \
        say_lent(c, 2); \
    }
SEWN(pairs, FLOAT(c, 1))
SEWN(column, SHEET(c))

/* List 4 is one word: whether the thread is at the far end. */
static bool far_of(const struct call *c) {
    if (list_length(c, 4) != 1) stop("list 4 of a top is one word");
    return truth(list_wholes(c, 4)[0]);
}
SEWN(top, SHEET(c), far_of(c))

/* `far` is looked at as its byte, so that one which is neither 0 nor 1 is seen. */
static void underlay(const struct call *c) {
    uint64_t count = MARK;
    uint8_t far = BYTE_MARK;
    say_word(CALL(beahcerot_underlay, RAILS(c), SHEET(c), LENT(c, 0), LENT(c, 1), &count, (bool *)&far));
    say_word(count);
    say_word(far);
    say_lent(c, 2);
}

#define ROOM_OF(name, ...) \
    static void name(const struct call *c) { \
        uint64_t floats = MARK; \
        say_word(CALL(beahcerot_##name, RAILS(c), __VA_ARGS__, &floats)); \
        say_word(floats); \
    }
ROOM_OF(pairs_room, FLOAT(c, 1))
ROOM_OF(column_room, SHEET(c))

const struct entry columns[] = {
    {0x60, 3, 2, pairs},
    {0x61, 3, 0, pairs_room},
    {0x62, 3, 2, column},
    {0x63, 3, 0, column_room},
    {0x64, 3, 2, underlay},
    {0x65, 4, 2, top},
    {0, 0, 0, NULL},
};
