/* The first program of docs/C.md. */
#include <stdio.h>
#include <string.h>

#include "tlsf_heap.h"

static _Alignas(16) unsigned char array[65536], table[TLSF_HEAP_TABLE_BYTES(200)];

int main(void)
{
    tlsf_heap heap = {0};
    tlsf_heap_block block;
    if (tlsf_heap_create_in(table, sizeof table, 200, &heap) != TLSF_OK)
        return 1;
    if (tlsf_heap_add_pool(&heap, 0, sizeof array) == TLSF_OK
        && tlsf_heap_malloc(&heap, 100, &block) == TLSF_OK) {
        char *text = (char *)tlsf_heap_address(array, block);
        puts(strcpy(text, "a hundred bytes"));
        tlsf_heap_free(&heap, block);
    }
    tlsf_heap_destroy(&heap);
}
