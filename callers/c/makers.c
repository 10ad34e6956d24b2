/* Prints the words of each kind of maker, and what a row's maker is where it cannot be read. The Rust crate's words are held to the same text. */
#include "pywr.h"

#include <stdio.h>

static void print_maker(const char *what, PywrMaker maker)
{
    printf("%s: %u %u %u\n", what, (unsigned)maker.kind, (unsigned)maker.index, (unsigned)maker.shared_by);
}

int main(void)
{
    /* A run may be longer than it must be: what lies behind the table of makers is none. */
    static uint16_t shape[PYWR_SHAPE + PYWR_MAKER_WIDTH];
    for (unsigned k = 0; k < PYWR_MAKER_WIDTH * (PYWR_ROWS + 1); k++)
        shape[PYWR_MAKERS_AT + k] = (uint16_t)(k + 1);
    for (unsigned kind = 0; kind <= 5; kind++)
        printf("%u|%s\n", kind, pywr_maker_text((uint16_t)kind));

    print_maker("of no rows, row 0", pywr_row_maker(shape, PYWR_SHAPE, 0));
    shape[PYWR_VARYING_ROW_COUNT] = 1;
    shape[PYWR_FIXED_ROW_COUNT] = 1;
    print_maker("of two rows, row 0", pywr_row_maker(shape, PYWR_SHAPE, 0));
    print_maker("of two rows, row 1", pywr_row_maker(shape, PYWR_SHAPE, 1));
    print_maker("of two rows, row 2", pywr_row_maker(shape, PYWR_SHAPE, 2));
    print_maker("of two rows, the last number", pywr_row_maker(shape, PYWR_SHAPE, SIZE_MAX));
    print_maker("a shape one short, row 0", pywr_row_maker(shape, PYWR_SHAPE - 1, 0));
    shape[PYWR_FIXED_ROW_COUNT] = 65535;
    print_maker("of more rows than there can be, row 1023", pywr_row_maker(shape, PYWR_SHAPE, 1023));
    print_maker("of more rows than there can be, row 1024", pywr_row_maker(shape, PYWR_SHAPE + PYWR_MAKER_WIDTH, 1024));
    return 0;
}
