/* The example of docs/C.md: a heap over an array, with its table in another, and what it
 * refuses. */
#include <stdio.h>

#include "tlsf_heap.h"

static _Alignas(16) unsigned char array[4096], table[TLSF_HEAP_TABLE_BYTES(64)];

static void say(const char *call, enum tlsf_status status)
{
    printf("%s: %s\n", call, tlsf_heap_status_name(status));
}

int main(void)
{
    tlsf_heap heap = {0};
    tlsf_heap_block block;
    say("create", tlsf_heap_create_in(table, sizeof table, 64, &heap));
    say("pool", tlsf_heap_add_pool(&heap, 0, sizeof array));
    say("malloc", tlsf_heap_malloc(&heap, 100, &block));
    say("malloc of 8192", tlsf_heap_malloc(&heap, 8192, &block));
    say("free", tlsf_heap_free(&heap, block));
    say("free again", tlsf_heap_free(&heap, block));
    tlsf_heap_destroy(&heap);
}
