/* Checks a few feeds through the C interface and prints number and place of each. */
#include "matcher.h"
#include <stdio.h>

static void check(const char *what, const uint32_t *feed, size_t len)
{
    uint32_t place = 0;
    uint32_t number = matcher_check_feed(feed, len, &place);
    if (number == 0)
        printf("%s: accepted\n", what);
    else
        printf("%s: refused %u %u\n", what, (unsigned)number, (unsigned)place);
}

int main(void)
{
    /* one class {5, 9} and one label {(5,5), (5,9)} */
    const uint32_t good[] = {1, 1, 2, 2, 5, 5, 9, 9, 5, 5, 5, 9};
    /* the second pair of the class does not come after the first */
    const uint32_t twice[] = {1, 0, 2, 5, 5, 5, 5};
    /* a class pair with unequal sides */
    const uint32_t sides[] = {1, 0, 1, 5, 6};
    check("good", good, sizeof good / sizeof *good);
    check("twice", twice, sizeof twice / sizeof *twice);
    check("sides", sides, sizeof sides / sizeof *sides);
    check("short", good, 7);
    return 0;
}
