/* Prints each number's words and kind of place: the text that the Rust crate's table is held to as well. */
#include "pywr.h"

#include <inttypes.h>
#include <stdio.h>

int main(void)
{
    for (uint64_t number = 0; number <= 22; number++)
        printf("%" PRIu64 "|%s|%s\n", number, pywr_refusal_text(number), pywr_place_text(number));
    return 0;
}
