/* Totals of a book in a file, so many times: valgrind counts the instructions of one call as those
 * of two runs that differ in their number of calls. */
#include "xaropinto.h"

#include <stdio.h>
#include <stdlib.h>

static uint8_t book[XAROPINTO_LONGEST_BOOK + 1];

int main(int argc, char **argv)
{
    FILE *file = argc == 3 ? fopen(argv[1], "rb") : NULL;
    if (file == NULL)
        return 2;
    size_t length = fread(book, 1, sizeof book, file);
    fclose(file);
    uint64_t refusal = 0;
    for (long calls = atol(argv[2]); calls > 0; calls--)
        refusal |= xaropinto_totals(book, length).refusal;
    return refusal != 0;
}
