/* The totals of the book in a file: how little a caller needs.
 * gcc example.c $(pkg-config --cflags --libs xaropinto) */
#include <inttypes.h>
#include <stdio.h>
#include <xaropinto.h>

int main(int count, char **words)
{
    static uint8_t book[XAROPINTO_LONGEST_BOOK + 1];
    FILE *file = count == 2 ? fopen(words[1], "rb") : NULL;
    if (file == NULL) {
        fprintf(stderr, "usage: example BOOK\n");
        return 2;
    }
    size_t length = fread(book, 1, sizeof book, file);
    if (ferror(file) || fclose(file) != 0) {
        fprintf(stderr, "%s cannot be read\n", words[1]);
        return 2;
    }
    xaropinto_totals_reply reply = xaropinto_totals(book, length);
    if (reply.refusal != 0) {
        fprintf(stderr, "refused %" PRIu64 " %" PRIu64 ": %s\n", reply.refusal, reply.place,
                xaropinto_refusal_text(reply.refusal));
        return 1;
    }
    for (int setting = 0; setting < XAROPINTO_SETTINGS; setting++)
        printf("%d %" PRId64 " %" PRIu64 "\n", setting, reply.totals[setting], reply.n);
    return fflush(stdout) == 0 ? 0 : 2;
}
