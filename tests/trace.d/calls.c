/* Each call that is traced, once or more. Compiled without optimization, so that none is left out.
 * tests/trace knows the lines. */
#include <malloc.h>
#include <stdint.h>
#include <stdlib.h>
#include <string.h>

int main(void)
{
    void *out;
    char *block = malloc(123);
    void *zeros = calloc(3, 5);
    block = realloc(block, 10);
    block = realloc(block, 100000);
    posix_memalign(&out, 4096, 100);
    free(out);
    posix_memalign(&out, 16, 100);
    void *aligned = aligned_alloc(32, 64);
    void *odd = memalign(48, 10);
    memalign(8, 11);
    valloc(3);
    pvalloc(5);
    zeros = reallocarray(zeros, 100, 3);
    void *none = malloc(0);
    malloc(SIZE_MAX / 2 + 1);
    void *kept = realloc(none, SIZE_MAX - 99) == NULL ? none : NULL;
    void *gone = realloc(kept, 0);
    void *fresh = realloc(gone, 17);
    free(fresh);
    free(NULL);
    char *text = strdup("hello");
    return malloc_usable_size(text) < 6 || malloc_usable_size(odd) < 10 || aligned == zeros
           || block == NULL;
}
