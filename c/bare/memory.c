/* What the heap wants of a C library: memcpy and memset, byte by byte. Not proved. */
#include <stddef.h>

void *memcpy(void *to, const void *from, size_t bytes);
void *memset(void *to, int byte, size_t bytes);

void *memcpy(void *to, const void *from, size_t bytes)
{
    unsigned char *at = (unsigned char *)to;
    const unsigned char *other = (const unsigned char *)from;
    for (size_t k = 0; k < bytes; k++) {
        at[k] = other[k];
    }
    return to;
}

void *memset(void *to, int byte, size_t bytes)
{
    unsigned char *at = (unsigned char *)to;
    for (size_t k = 0; k < bytes; k++) {
        at[k] = (unsigned char)byte;
    }
    return to;
}
