/* A heap in a program without a system: over one array, from a first block to an image of the heap.
 * It writes on the board's console, and its last line is `ok`. Not proved. */
#include <stdbool.h>
#include <stddef.h>
#include <stdint.h>

#include "console.h"
#include "tlsf.h"
#include "tlsf_heap.h"

#ifdef MICROBIT /* 16 KB of RAM, with the stack */
enum { RECORDS = 24, BLOCKS = 9, POOL = 1536, MEMORY = 3072, MOST = 120, LARGE = 400, ALIGN = 64 };
#else
enum {
    RECORDS = 400,
    BLOCKS = 150,
    POOL = 1 << 16,
    MEMORY = 1 << 17,
    MOST = 600,
    LARGE = 5000,
    ALIGN = 1024
};
#endif
enum { CALLS = 200000 };

static _Alignas(16) unsigned char array[POOL], table[TLSF_HEAP_TABLE_BYTES(RECORDS)];
/* The table of a heap that is loaded, and then memory for the calls of tlsf.h. */
static _Alignas(16) unsigned char memory[MEMORY];
static unsigned char image[TLSF_HEAP_IMAGE_BYTES(RECORDS)];
static tlsf_heap_row rows[RECORDS], second_rows[RECORDS];
static uint32_t state = 1;

static void say(const char *text)
{
    for (; *text != 0; text++) {
        console_put(*text);
    }
}

/* An exception: what kind it was, and of which instruction, in hexadecimal. */
void trapped(uint64_t kind, uint64_t instruction);
void trapped(uint64_t kind, uint64_t instruction)
{
    const uint64_t numbers[] = {kind, instruction};
    say("FAILED: an exception");
    for (int k = 0; k < 2; k++) {
        say(" ");
        for (int shift = 60; shift >= 0; shift -= 4) {
            char digit[] = {"0123456789abcdef"[numbers[k] >> shift & 15], 0};
            say(digit);
        }
    }
    say("\n");
}

static uint32_t below(uint32_t bound)
{
    state = state * 1664525u + 1013904223u;
    return (state >> 8) % bound;
}

/* A live block has one byte all over, by its number. */
static void fill(unsigned char *at, uint32_t bytes, int number)
{
    for (uint32_t k = 0; k < bytes; k++) {
        at[k] = (unsigned char)number;
    }
}

static bool is_filled(const unsigned char *at, uint32_t bytes, int number)
{
    uint32_t k = 0;
    while (k < bytes && at[k] == (unsigned char)number) {
        k++;
    }
    return k == bytes;
}

/* Blocks come and go over the array, and none's bytes change while it is live. */
static bool serves(tlsf_heap *heap)
{
    static tlsf_heap_block blocks[BLOCKS];
    static uint32_t sizes[BLOCKS];
    for (int call = 0; call < CALLS; call++) {
        int k = (int)below(BLOCKS);
        unsigned char *at = (unsigned char *)tlsf_heap_address(array, blocks[k]);
        if (sizes[k] > 0) {
            if (!is_filled(at, sizes[k], k) || tlsf_heap_free(heap, blocks[k]) != TLSF_OK) {
                return false;
            }
            sizes[k] = 0;
        } else {
            uint32_t bytes = 1 + below(MOST);
            bool is_aligned = call % 4 == 0;
            enum tlsf_status status = is_aligned
                                          ? tlsf_heap_memalign(heap, ALIGN / 4, bytes, &blocks[k])
                                          : tlsf_heap_malloc(heap, bytes, &blocks[k]);
            if (status == TLSF_OK) {
                sizes[k] = bytes;
                fill((unsigned char *)tlsf_heap_address(array, blocks[k]), bytes, k);
            }
        }
    }
    return tlsf_heap_check(heap);
}

/* The heap that is loaded from an image has the same blocks. */
static bool comes_back(tlsf_heap *heap)
{
    tlsf_heap second = {0};
    uint64_t bytes = 0, count = 0, second_count = 1;
    if (tlsf_heap_save(heap, image, sizeof image, &bytes) != TLSF_OK
        || tlsf_heap_load_in(memory, sizeof memory, image, bytes, &second) != TLSF_OK
        || tlsf_heap_walk(heap, 0, 0, rows, RECORDS, &count) != TLSF_OK
        || tlsf_heap_walk(&second, 0, 0, second_rows, RECORDS, &second_count) != TLSF_OK) {
        return false;
    }
    bool same = count > BLOCKS / 2 && count == second_count && tlsf_heap_check(&second);
    for (uint64_t k = 0; k < count && same; k++) {
        same = rows[k].place == second_rows[k].place && rows[k].size == second_rows[k].size
               && rows[k].used == second_rows[k].used;
    }
    tlsf_heap_destroy(&second);
    return same;
}

/* The calls of Conte's library, over another array. */
static bool serves_by_pointer(void)
{
    tlsf_t tlsf = tlsf_create_with_pool(memory, sizeof memory);
    unsigned char *first = (unsigned char *)tlsf_malloc(tlsf, 100);
    unsigned char *second = (unsigned char *)tlsf_memalign(tlsf, ALIGN, 100);
    if (first == NULL || second == NULL || (uintptr_t)second % ALIGN != 0) {
        return false;
    }
    fill(first, 100, 7);
    first = (unsigned char *)tlsf_realloc(tlsf, first, LARGE);
    bool same = first != NULL && is_filled(first, 100, 7);
    tlsf_free(tlsf, second);
    tlsf_free(tlsf, first);
    return same && tlsf_check(tlsf) == 0 && tlsf_malloc(tlsf, sizeof memory) == NULL;
}

static bool expect(bool holds, const char *what)
{
    say(holds ? "served: " : "FAILED: ");
    say(what);
    say("\n");
    return holds;
}

int main(void)
{
    tlsf_heap heap = {0};
    bool good = expect(tlsf_heap_create_in(table, sizeof table, RECORDS, &heap) == TLSF_OK
                           && tlsf_heap_add_pool(&heap, 0, sizeof array) == TLSF_OK,
                       "a heap over an array");
    good = good && expect(serves(&heap), "200,000 calls")
           && expect(comes_back(&heap), "an image of it, loaded")
           && expect(serves_by_pointer(), "the calls of tlsf.h");
    tlsf_heap_destroy(&heap);
    say(good ? "ok\n" : "not ok\n");
    return good ? 0 : 1;
}
