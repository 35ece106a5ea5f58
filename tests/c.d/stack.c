/* The stack of each call: bytes below the frame that calls, the most over calls that take different
 * ways. Each runs on a stack of its own, filled with one byte before. It writes a line for each
 * call, its name and the bytes. */
#define _DEFAULT_SOURCE
#include <stdio.h>
#include <string.h>
#include <ucontext.h>

#include "tlsf.h"
#include "tlsf_heap.h"

enum { STACK = 1 << 17, FILL = 0xa5, RECORDS = 1024, BLOCKS = 100 };

static _Alignas(16) unsigned char stack[STACK], memory[1 << 20], table[1 << 16];
static _Alignas(16) unsigned char image[TLSF_HEAP_IMAGE_BYTES(RECORDS)];
static ucontext_t outside, inside;
static void (*now)(void);
static unsigned char *frame;

static tlsf_heap heap, other;
static tlsf_heap_block blocks[BLOCKS];
static tlsf_t tlsf;
static void *pointers[BLOCKS];
static int k, seen;
static uint64_t count, walked;
static size_t bytes;

static void run(void)
{
    frame = (unsigned char *)__builtin_frame_address(0);
    now();
}

static size_t stack_of(void (*call)(void))
{
    size_t untouched = 0;
    memset(stack, FILL, sizeof stack);
    now = call;
    getcontext(&inside);
    inside.uc_stack.ss_sp = stack;
    inside.uc_stack.ss_size = sizeof stack;
    inside.uc_link = &outside;
    makecontext(&inside, run, 0);
    swapcontext(&outside, &inside);
    while (stack[untouched] == FILL) {
        untouched++;
    }
    return (size_t)(frame - stack) - untouched;
}

static void most(const char *name, void (*call)(void), void (*empty)(void))
{
    size_t least = stack_of(empty), greatest = 0;
    for (k = 0; k < BLOCKS; k++) {
        size_t one = stack_of(call);
        greatest = one > greatest ? one : greatest;
    }
    printf("%s %zu\n", name, greatest < least ? 0 : greatest - least);
}

static void nothing(void) {}

static void heap_create_in(void)
{
    heap.at = NULL;
    tlsf_heap_create_in(table, sizeof table / 2, RECORDS, &heap);
}
/* Each in front of those that are there, and then the first of them. */
static void heap_add_pool(void) { tlsf_heap_add_pool(&heap, (uint64_t)(7 - k % 8) << 20, 1 << 20); }
static void heap_remove_pool(void) { tlsf_heap_remove_pool(&heap, (uint64_t)(k % 8) << 20); }
static void heap_malloc(void) { tlsf_heap_malloc(&heap, 1 + 37 * (size_t)k, &blocks[k]); }
static void heap_memalign(void) { tlsf_heap_memalign(&heap, 1u << k % 12, 100, &blocks[k]); }
static void heap_realloc(void)
{
    tlsf_heap_realloc(&heap, blocks[k], k % 3 == 0 ? 5000 : 50, &blocks[k]);
}
static void heap_block_size(void)
{
    uint32_t size;
    tlsf_heap_block_size(&heap, blocks[k], &size);
}
static void heap_free(void) { tlsf_heap_free(&heap, blocks[k * 7 % BLOCKS]); }
static tlsf_heap_row rows[RECORDS];
static void heap_walk(void)
{
    tlsf_heap_walk(&heap, 7 << 20, 0, rows, RECORDS, &count);
    walked += count;
}
static void heap_check(void) { seen += tlsf_heap_check(&heap); }
static void heap_save(void) { tlsf_heap_save(&heap, image, sizeof image, &count); }
static void heap_load_in(void)
{
    other.at = NULL;
    tlsf_heap_load_in(table + sizeof table / 2, sizeof table / 2, image, sizeof image, &other);
}
static void heap_destroy(void) { tlsf_heap_destroy(&heap); }

static void of_heap(void)
{
    most("tlsf_heap_create_in", heap_create_in, nothing);
    k = 0;
    stack_of(heap_add_pool);
    most("tlsf_heap_malloc", heap_malloc, nothing);
    most("tlsf_heap_block_size", heap_block_size, nothing);
    most("tlsf_heap_realloc", heap_realloc, nothing);
    most("tlsf_heap_walk", heap_walk, nothing);
    most("tlsf_heap_check", heap_check, nothing);
    most("tlsf_heap_save", heap_save, nothing);
    most("tlsf_heap_load_in", heap_load_in, nothing);
    most("tlsf_heap_free", heap_free, nothing);
    most("tlsf_heap_memalign", heap_memalign, nothing);
    heap_create_in();
    most("tlsf_heap_add_pool", heap_add_pool, nothing);
    most("tlsf_heap_remove_pool", heap_remove_pool, nothing);
    most("tlsf_heap_destroy", heap_destroy, nothing);
}

static void create(void) { tlsf = tlsf_create_with_pool(memory, sizeof memory); }
/* The first of eight goes and comes back. */
static pool_t pools[8];
static void add_pool(void) { pools[k % 2 * 7] = tlsf_add_pool(tlsf, table + k % 2 * 7168, 1024); }
static void remove_pool(void) { tlsf_remove_pool(tlsf, pools[k % 2 * 7]); }
static void add_and_remove(void)
{
    add_pool();
    remove_pool();
}
static void alloc(void) { pointers[k] = tlsf_malloc(tlsf, 1 + 37 * (size_t)k); }
static void memalign(void) { pointers[k] = tlsf_memalign(tlsf, 1u << k % 12, 100); }
static void resize(void) { pointers[k] = tlsf_realloc(tlsf, pointers[k], k % 3 == 0 ? 5000 : 50); }
/* The second is no block's pointer, and the pool's chain is read for it. */
static void release(void)
{
    tlsf_free(tlsf, pointers[k * 7 % BLOCKS]);
    tlsf_free(tlsf, (unsigned char *)pointers[k * 7 % BLOCKS] + 16);
}
static void stats(void)
{
    tlsf_figures figures;
    seen += tlsf_stats(tlsf, &figures) == 0;
}
static void block_size(void) { bytes += tlsf_block_size(pointers[k]); }
static void see(void *ptr, size_t size, int used, void *user)
{
    (void)ptr, (void)user;
    bytes += used ? size : 0;
}
static void walk(void) { tlsf_walk_pool(tlsf_get_pool(tlsf), see, NULL); }
static void check(void) { seen += tlsf_check(tlsf) == 0; }

static void of_tlsf(void)
{
    most("tlsf_create_with_pool", create, nothing);
    for (int one = 0; one < 7; one++) {
        pools[one] = tlsf_add_pool(tlsf, table + 1024 * one, 1024);
    }
    most("tlsf_remove_pool", remove_pool, nothing);
    most("tlsf_add_pool", add_and_remove, nothing);
    most("tlsf_malloc", alloc, nothing);
    most("tlsf_block_size", block_size, nothing);
    most("tlsf_realloc", resize, nothing);
    most("tlsf_walk_pool", walk, nothing);
    most("tlsf_check", check, nothing);
    most("tlsf_stats", stats, nothing);
    most("tlsf_free", release, nothing);
    most("tlsf_memalign", memalign, nothing);
}

int main(void)
{
    of_heap();
    of_tlsf();
    return seen > 0 && bytes > 0 && walked > 2 * BLOCKS ? 0 : 1;
}
