/* What is other where an address has 32 bits: the room of a heap, the calls of tlsf.h over 8 KB of
 * memory in all, and the greatest sizes that a size_t tells. */
#include <string.h>

#include "cases.h"
#include "handed_in.h"
#include "tlsf.h"
#include "tlsf_heap.h"

enum { RECORDS = 64, SMALL = 8192 };
static _Alignas(16) unsigned char memory[SMALL], table[TLSF_HEAP_TABLE_BYTES(RECORDS)];
static _Alignas(16) unsigned char pool[SMALL - sizeof table - 16];

/* The library's pointer takes eight bytes. Its second four mean nothing. */
static void room(void)
{
    struct {
        char front;
        tlsf_heap heap;
    } there;
    uint32_t words[2] = {0, 0xa5a5a5a5u};
    expect(sizeof(void *) == 4 && sizeof(size_t) == 4, "an address has 32 bits");
    expect(sizeof(tlsf_heap) == 8 && (size_t)((char *)&there.heap - &there.front) == 8,
           "a tlsf_heap takes eight bytes, at a multiple of 8");
    memcpy(&there.heap, words, sizeof words);
    tlsf_heap_destroy(&there.heap);
    expect(there.heap.at == NULL,
           "a heap of zeros, whose second four bytes are others, is destroyed");
    expect(sizeof table == 2720, "the table of 64 records takes 2,720 bytes");
}

/* A heap, its table and its pool in 8 KB. */
static void in_little(void)
{
    tlsf_heap heap = {0};
    tlsf_heap_block block = {0, 0}, last = {0, 0};
    uint32_t served = 0, size = 0;
    expect(sizeof table + sizeof pool + sizeof heap <= SMALL,
           "8 KB hold the heap, its table and its pool");
    expect(tlsf_heap_create_in(table, sizeof table, RECORDS, &heap) == TLSF_OK
               && tlsf_heap_add_pool(&heap, 0, sizeof pool / 16 * 16) == TLSF_OK,
           "a heap of 64 records");
    while (tlsf_heap_malloc(&heap, 100, &block) == TLSF_OK) {
        memset(tlsf_heap_address(pool, block), (int)++served, 100);
        last = block;
    }
    expect(served == sizeof pool / 112, "it serves all of its pool");
    expect(tlsf_heap_block_size(&heap, last, &size) == TLSF_OK && size == 112,
           "the size of the last block");
    last.slot ^= 1;
    expect(tlsf_heap_free(&heap, last) == TLSF_BAD_POINTER, "another slot is refused");
    last.slot ^= 1;
    expect(tlsf_heap_free(&heap, last) == TLSF_OK && tlsf_heap_check(&heap), "the block is free");
    expect(tlsf_heap_malloc(&heap, UINT64_MAX, &block) == TLSF_NO_FIT
               && tlsf_heap_malloc(&heap, 0x100000010u, &block) == TLSF_NO_FIT,
           "more bytes than 2^32 are refused");
    tlsf_heap_destroy(&heap);
}

/* Each changed byte of what the heap keeps at its start is told. */
static void changed_bytes(tlsf_t tlsf)
{
    size_t control = tlsf_size_records(0) - 8 - TLSF_HEAP_TABLE_BYTES(0);
    bool told = true;
    for (size_t at = 0; at < control; at++) {
        memory[at] ^= 0x40;
        told = told && tlsf_check(tlsf) < 0;
        memory[at] ^= 0x40;
        told = told && tlsf_check(tlsf) == 0;
    }
    expect(told, "each changed byte of the heap's start is told");
}

static void by_pointer(void)
{
    tlsf_figures figures;
    tlsf_t tlsf = tlsf_create_records(memory, sizeof memory, RECORDS);
    unsigned char *first = (unsigned char *)tlsf_malloc(tlsf, 100);
    unsigned char *second = (unsigned char *)tlsf_memalign(tlsf, 256, 100);
    expect(first != NULL && second != NULL && (uintptr_t)first % 16 == 0
               && (uintptr_t)second % 256 == 0,
           "tlsf.h serves from 8 KB");
    expect(tlsf_alloc_overhead() == 8 && tlsf_block_size(first) == 104
               && tlsf_live_size(tlsf, first) == 104,
           "eight bytes stand in front");
    changed_bytes(tlsf);
    first[-3] ^= 1;
    expect(tlsf_check(tlsf) < 0, "a byte in front that is changed is told");
    first[-3] ^= 1;
    memset(first, 7, 100);
    first = (unsigned char *)tlsf_realloc(tlsf, first, 2000);
    expect(first != NULL && first[0] == 7 && first[99] == 7,
           "a block that moves takes its bytes along");
    expect(tlsf_malloc(tlsf, SIZE_MAX) == NULL && tlsf_malloc(tlsf, SIZE_MAX - 8) == NULL
               && tlsf_realloc(tlsf, first, SIZE_MAX - 20) == NULL
               && tlsf_memalign(tlsf, 64, SIZE_MAX - 3) == NULL,
           "the greatest sizes are refused");
    expect(tlsf_add_pool(tlsf, memory + 16, SIZE_MAX) == NULL
               && tlsf_add_pool(tlsf, (void *)(uintptr_t)(UINTPTR_MAX - 63), 128) == NULL,
           "a pool over the end of all addresses is refused");
    tlsf_free(tlsf, first);
    tlsf_free(tlsf, second);
    tlsf_free(tlsf, second);
    expect(tlsf_stats(tlsf, &figures) == 0 && figures.blocks_live == 0 && figures.bytes_live == 0,
           "the figures at the end");
    expect(tlsf_check(tlsf) == 0 && figures.refusals[TLSF_REFUSED_NO_FIT] == 4
               && figures.refusals[TLSF_REFUSED_POINTER] == 1,
           "and the refusals");
    tlsf_destroy(tlsf);
    expect(tlsf_create_with_pool(memory, 100) == NULL && tlsf_create_with_pool(memory, 0) == NULL,
           "too few bytes are refused");
}

int main(void)
{
    room();
    in_little();
    by_pointer();
    handed_in();
    return cases_end();
}
