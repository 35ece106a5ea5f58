/* The lines of docs/C.md over tlsf.h: a block that is freed twice, and what the heap tells of
 * it. */
#include <stdio.h>

#include "tlsf.h"

static _Alignas(16) unsigned char memory[65536];

static void tell(enum tlsf_refusal what, const void *ptr, size_t bytes, void *user)
{
    (void)ptr, (void)bytes;
    *(int *)user += what == TLSF_REFUSED_POINTER;
}

int main(void)
{
    int bad_pointers = 0;
    tlsf_figures figures;
    tlsf_t heap = tlsf_create_with_pool(memory, sizeof memory);
    tlsf_set_refusal_hook(heap, tell, &bad_pointers);
    void *block = tlsf_malloc(heap, 100);
    tlsf_free(heap, block);
    tlsf_free(heap, block);
    if (tlsf_stats(heap, &figures) == 0)
        printf("%d refused, %zu bytes at most\n", bad_pointers, figures.most_bytes_live);
}
