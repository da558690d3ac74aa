/* A sheet book, whose bytes are list 1; all of it is said after a change. The floats are spacing, len, inset and pull,
 * the whole numbers the sheet's number and its stagger. */
#include "entries.h"

static uint16_t number_of(const struct call *c) {
    if (WHOLE(c, 1) > 0xffff) stop("a sheet's number has 16 bits");
    return (uint16_t)WHOLE(c, 1);
}

static void book_store(const struct call *c) {
    say_word(CALL(beahcerot_book_store, BYTES(c), number_of(c), FLOAT(c, 1), FLOAT(c, 2), FLOAT(c, 3), FLOAT(c, 4),
                  WHOLE(c, 2)));
    say_bytes(list_length(c, 1));
}

static void book_fetch(const struct call *c) {
    double value[4] = {FLOAT_MARK, FLOAT_MARK, FLOAT_MARK, FLOAT_MARK};
    uint64_t stagger = MARK;
    say_word(CALL(beahcerot_book_fetch, BYTES(c), number_of(c), value, value + 1, value + 2, value + 3, &stagger));
    for (size_t i = 0; i < 4; i++) say_float(value[i]);
    say_word(stagger);
    same_bytes(c);
}

static void book_remove(const struct call *c) {
    say_word(CALL(beahcerot_book_remove, BYTES(c), number_of(c)));
    say_bytes(list_length(c, 1));
}

const struct entry books[] = {
    {0x90, 1, 0, book_store},
    {0x91, 1, 0, book_fetch},
    {0x92, 1, 0, book_remove},
    {0, 0, 0, NULL},
};
