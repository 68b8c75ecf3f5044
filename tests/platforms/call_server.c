/* The other side of tests/targets/bridge.py: answers calls by the library that it is linked with.
 * Requests come on standard input, answers go to standard output. */
#include <stdio.h>
#include <stdlib.h>
#include <string.h>

#include "xaropinto.h"
#ifdef _WIN32
#include <fcntl.h>
#include <io.h>
#endif

enum { MOST_ARGUMENTS = 16, MOST_REPLY_BYTES = 4096, WORD_BYTES = 8, LENGTH_BYTES = 4 };
/* Around each buffer are bytes that no call may write. */
enum { MARGIN = 32, MARK = 0xa5 };
/* How this process ends where something is wrong. */
enum { BAD_REQUEST = 3, WRITTEN_OUTSIDE = 4, NO_MEMORY = 5 };

/* A word, a double, or the bytes of a struct or buffer. */
typedef struct {
    char kind;
    uint64_t word;
    double number;
    uint8_t *bytes;
    size_t size;
} argument;

/* `answer` makes the call of a name, writes its reply, and returns the reply's length; 0 where
 * there is no such call. It is written from the header. */
#include "answer.inc"

static void take(void *to, size_t size)
{
    if (fread(to, 1, size, stdin) != size)
        exit(0);
}

static void *memory(size_t size)
{
    void *held = malloc(size);
    if (held == NULL)
        exit(NO_MEMORY);
    return held;
}

static uint32_t length_at(const uint8_t *at)
{
    uint32_t length;
    memcpy(&length, at, sizeof length);
    return length;
}

/* Reads one argument; returns where the next one starts. */
static const uint8_t *read_argument(argument *one, const uint8_t *at)
{
    one->kind = (char)*at++;
    if (one->kind == 'W' || one->kind == 'D') {
        memcpy(&one->word, at, WORD_BYTES);
        memcpy(&one->number, at, WORD_BYTES);
        one->bytes = NULL;
        return at + WORD_BYTES;
    }
    one->size = length_at(at);
    one->bytes = (uint8_t *)memory(one->size + 2 * MARGIN) + MARGIN;
    memset(one->bytes - MARGIN, MARK, one->size + 2 * MARGIN);
    memcpy(one->bytes, at + LENGTH_BYTES, one->size);
    return at + LENGTH_BYTES + one->size;
}

/* Writes what a buffer holds after the call, and gives its memory back. */
static void return_argument(argument *one)
{
    if (one->bytes == NULL)
        return;
    for (size_t at = 0; at < MARGIN; at++)
        if (one->bytes[one->size + at] != MARK || one->bytes[at - MARGIN] != MARK)
            exit(WRITTEN_OUTSIDE);
    if (one->kind != 'S')
        fwrite(one->bytes, 1, one->size, stdout);
    free(one->bytes - MARGIN);
}

static void serve(const uint8_t *request)
{
    uint8_t reply[MOST_REPLY_BYTES];
    argument passed[MOST_ARGUMENTS];
    char name[256] = {0};
    const uint8_t *at = request + 1 + LENGTH_BYTES + 1;
    size_t count = request[1 + LENGTH_BYTES], size;
    memcpy(name, at, request[0]);
    at += request[0];
    if (count > MOST_ARGUMENTS)
        exit(BAD_REQUEST);
    for (size_t each = 0; each < count; each++)
        at = read_argument(&passed[each], at);
    size = answer(name, passed, reply);
    if (size == 0 || size != length_at(request + 1))
        exit(BAD_REQUEST);
    fwrite(reply, 1, size, stdout);
    for (size_t each = 0; each < count; each++)
        return_argument(&passed[each]);
    fflush(stdout);
}

int main(void)
{
#ifdef _WIN32
    _setmode(0, _O_BINARY);
    _setmode(1, _O_BINARY);
#endif
    for (;;) {
        uint8_t length[LENGTH_BYTES], *request;
        take(length, LENGTH_BYTES);
        request = memory(length_at(length));
        take(request, length_at(length));
        serve(request);
        free(request);
    }
}
