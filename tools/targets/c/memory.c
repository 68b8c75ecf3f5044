/* What the compiled code asks of a C library, for a library that is linked without one. */
#include <stddef.h>

void *memcpy(void *to, const void *from, size_t count);
void *memmove(void *to, const void *from, size_t count);
void *memset(void *to, int byte, size_t count);

void *memcpy(void *to, const void *from, size_t count)
{
    return memmove(to, from, count);
}

void *memmove(void *to, const void *from, size_t count)
{
    unsigned char *out = to;
    const unsigned char *in = from;
    if (out <= in) {
        for (size_t at = 0; at < count; at++)
            out[at] = in[at];
    } else {
        for (size_t at = count; at > 0; at--)
            out[at - 1] = in[at - 1];
    }
    return to;
}

void *memset(void *to, int byte, size_t count)
{
    unsigned char *out = to;
    for (size_t at = 0; at < count; at++)
        out[at] = (unsigned char)byte;
    return to;
}
