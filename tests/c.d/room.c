/* What a heap takes for itself, and for a block of each size: one line, for the table of
 * c/bounds.txt. A block takes what lies between it and the next, and its record. Built with HEAP it
 * is tlsf_heap.h's, with CONTE that of Conte's tlsf.c, else tlsf.h's. */
#include <stdint.h>
#include <stdio.h>

static _Alignas(16) unsigned char memory[65536];

#ifdef HEAP
#include "tlsf_heap.h"
static tlsf_heap heap;
static size_t of_heap(void) { return TLSF_HEAP_TABLE_BYTES(0); }
static size_t of_record(void) { return TLSF_HEAP_TABLE_BYTES(1) - TLSF_HEAP_TABLE_BYTES(0); }
static int make(void)
{
    static _Alignas(16) unsigned char table[TLSF_HEAP_TABLE_BYTES(99)];
    return tlsf_heap_create_in(table, sizeof table, 99, &heap) == TLSF_OK
           && tlsf_heap_add_pool(&heap, 0, sizeof memory) == TLSF_OK;
}
static uintptr_t ask(size_t bytes)
{
    tlsf_heap_block block = {0, 0};
    return tlsf_heap_malloc(&heap, bytes, &block) == TLSF_OK
               ? (uintptr_t)tlsf_heap_address(memory, block)
               : 0;
}
#else
#include "tlsf.h"
static tlsf_t heap;
#ifdef CONTE
static size_t of_heap(void) { return tlsf_size(); }
static size_t of_record(void) { return 0; }
#else
static size_t of_heap(void) { return tlsf_size_records(0); }
static size_t of_record(void) { return tlsf_size_records(1) - tlsf_size_records(0); }
#endif
static int make(void) { return (heap = tlsf_create_with_pool(memory, sizeof memory)) != NULL; }
static uintptr_t ask(size_t bytes) { return (uintptr_t)tlsf_malloc(heap, bytes); }
#endif

int main(void)
{
    static const size_t sizes[] = {16, 24, 64, 256, 1000};
    if (!make()) {
        return 1;
    }
    printf("%u", (unsigned)of_heap());
    for (int k = 0; k < 5; k++) {
        uintptr_t first = ask(sizes[k]), second = ask(sizes[k]);
        printf(" %u", (unsigned)(second - first + of_record()));
    }
    printf("\n");
    return 0;
}
