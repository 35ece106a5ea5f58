/* c/rtos/heap_tlsf.c by the calls of FreeRTOS's manual, beside a list of what is live: the free
 * blocks and all figures are reckoned by that list. tests/c.d/rtos has the kernel's names. With
 * configTLSF_REGIONS the heap has three regions, else ucHeap. */
#include <stdlib.h>
#include <string.h>

#include "FreeRTOS.h"
#include "task.h"

#include "cases.h"
#include "suspended.h"

enum { BLOCKS = 60, STEPS = 20000, MOST = 400, FRONT = 8, UNIT = 16 };

#ifdef configTLSF_REGIONS
enum { PARTS = 3, FIRST = 6000 };
static _Alignas(16) uint8_t memory[24000];
#else
enum { PARTS = 1, FIRST = configTOTAL_HEAP_SIZE };
_Alignas(16) uint8_t ucHeap[FIRST];
#define memory ucHeap
#endif

/* What is live: the bytes from the front of each block on, in order of address. */
struct live {
    uint8_t *at;
    size_t whole;
    uint8_t value;
};
static struct live live[BLOCKS];
static size_t count;
/* The memory of each pool, which is found in an empty heap. */
static struct {
    uint8_t *first;
    size_t bytes;
} parts[PARTS];

static int depth, defining;
static size_t suspended, hooks, failed_assertions, traced, unsuspended;

void vTaskSuspendAll(void)
{
    depth++;
    suspended++;
}

BaseType_t xTaskResumeAll(void)
{
    depth--;
    return 0;
}

void expect_suspended(const void *tlsf)
{
    (void)tlsf;
    unsuspended += depth != 1 && defining == 0;
}
void vApplicationMallocFailedHook(void) { hooks += depth == 0; }
void count_assertion(int holds) { failed_assertions += holds == 0; }
void count_trace(const void *block, size_t bytes)
{
    traced += block != NULL && bytes > 0 && depth == 1;
}

static uint32_t below(uint32_t bound)
{
    static uint32_t state = 1;
    state = state * 1664525u + 1013904223u;
    return (state >> 8) % bound;
}

static void insert(void *block, size_t bytes)
{
    size_t k = count++;
    uint8_t *at = (uint8_t *)block - FRONT;
    for (; k > 0 && live[k - 1].at > at; k--) {
        live[k] = live[k - 1];
    }
    live[k] = (struct live){at, (bytes + FRONT + UNIT - 1) / UNIT * UNIT, (uint8_t)below(256)};
    memset(block, live[k].value, bytes);
}

/* Whether the block at this number has its bytes; it is taken off the list. */
static bool take(size_t k, size_t bytes_told)
{
    bool good = live[k].whole >= bytes_told + FRONT;
    for (size_t byte = 0; byte < bytes_told; byte++) {
        good = good && live[k].at[FRONT + byte] == live[k].value;
    }
    memmove(&live[k], &live[k + 1], (--count - k) * sizeof live[0]);
    return good;
}

/* A gap between live blocks is one free block. */
static void add_gap(HeapStats_t *stats, size_t bytes)
{
    if (bytes > 0) {
        bool is_smallest =
            stats->xNumberOfFreeBlocks == 0 || bytes < stats->xSizeOfSmallestFreeBlockInBytes;
        stats->xNumberOfFreeBlocks++;
        stats->xAvailableHeapSpaceInBytes += bytes;
        stats->xSizeOfSmallestFreeBlockInBytes =
            is_smallest ? bytes : stats->xSizeOfSmallestFreeBlockInBytes;
        stats->xSizeOfLargestFreeBlockInBytes = bytes > stats->xSizeOfLargestFreeBlockInBytes
                                                    ? bytes
                                                    : stats->xSizeOfLargestFreeBlockInBytes;
    }
}

static HeapStats_t stats_by_list(void)
{
    HeapStats_t stats = {0};
    for (size_t part = 0, k = 0; part < PARTS; part++) {
        uint8_t *at = parts[part].first, *end = at + parts[part].bytes;
        for (; k < count && live[k].at >= at && live[k].at < end; k++) {
            add_gap(&stats, (size_t)(live[k].at - at));
            at = live[k].at + live[k].whole;
        }
        add_gap(&stats, (size_t)(end - at));
    }
    return stats;
}

static size_t asked, given_back, least;

static bool agrees(void)
{
    HeapStats_t told, wanted = stats_by_list();
    vPortGetHeapStats(&told);
    return told.xAvailableHeapSpaceInBytes == wanted.xAvailableHeapSpaceInBytes
           && told.xAvailableHeapSpaceInBytes == xPortGetFreeHeapSize()
           && told.xSizeOfLargestFreeBlockInBytes == wanted.xSizeOfLargestFreeBlockInBytes
           && told.xSizeOfSmallestFreeBlockInBytes == wanted.xSizeOfSmallestFreeBlockInBytes
           && told.xNumberOfFreeBlocks == wanted.xNumberOfFreeBlocks
           && told.xMinimumEverFreeBytesRemaining == least
           && xPortGetMinimumEverFreeHeapSize() == least
           && told.xNumberOfSuccessfulAllocations == asked
           && told.xNumberOfSuccessfulFrees == given_back;
}

static void note(void *block, size_t bytes)
{
    asked++;
    insert(block, bytes);
    size_t free_now = stats_by_list().xAvailableHeapSpaceInBytes;
    least = free_now < least ? free_now : least;
}

/* Blocks of 1 to 400 bytes come and go, by both calls that ask. Each is refused only where no free
 * block is twice as large. */
static bool runs(void)
{
    static size_t bytes_of[BLOCKS];
    static uint8_t *blocks[BLOCKS];
    size_t refused = hooks;
    bool good = true;
    for (int step = 0; step < STEPS && good; step++) {
        size_t k = below(BLOCKS), bytes = 1 + below(MOST);
        if (blocks[k] == NULL) {
            blocks[k] = (uint8_t *)(step % 3 == 0 ? pvPortCalloc(bytes, 1) : pvPortMalloc(bytes));
            for (size_t byte = 0; step % 3 == 0 && blocks[k] != NULL && byte < bytes; byte++) {
                good = good && blocks[k][byte] == 0;
            }
            good = good
                   && (blocks[k] != NULL
                       || stats_by_list().xSizeOfLargestFreeBlockInBytes < 2 * bytes + 32);
            bytes_of[k] = bytes;
            if (blocks[k] != NULL) {
                note(blocks[k], bytes);
            }
        } else {
            size_t at = 0;
            while (live[at].at + FRONT != blocks[k]) {
                at++;
            }
            good = take(at, bytes_of[k]);
            vPortFree(blocks[k]);
            blocks[k] = NULL;
            given_back++;
        }
        good = good && (step % 50 != 0 || agrees());
    }
    good = good && agrees() && hooks > refused;
    for (size_t k = 0; k < BLOCKS; k++) {
        given_back += blocks[k] != NULL;
        vPortFree(blocks[k]);
    }
    count = 0;
    return good && agrees();
}

#ifdef configTLSF_REGIONS
static void define(void)
{
    const HeapRegion_t regions[] = {
        {memory, FIRST}, {memory + 8008, 3000}, {memory + 16008, 4001}, {NULL, 0}};
    defining = 1;
    vPortDefineHeapRegions(regions);
    defining = 0;
    parts[1].first = memory + 8008;
    parts[1].bytes = 2992;
    parts[2].first = memory + 16008;
    parts[2].bytes = 4000;
    expect(failed_assertions == 0, "three regions are a heap");
}
#endif

/* The first pool of an empty heap has the bytes that the others don't have, and ends as the first
 * memory does: 8 bytes behind a multiple of 16. */
static void find_first(void)
{
    parts[0].bytes = xPortGetFreeHeapSize();
    for (size_t part = 1; part < PARTS; part++) {
        parts[0].bytes -= parts[part].bytes;
    }
    parts[0].first = memory + (FIRST - 8) / UNIT * UNIT + 8 - parts[0].bytes;
    least = xPortGetFreeHeapSize();
    expect(parts[0].bytes % UNIT == 0 && parts[0].first > memory && parts[0].bytes > FIRST / 8,
           "the first memory has a pool behind the table");
}

static void refusals(void)
{
    size_t hooked = hooks, assertions = failed_assertions;
    HeapStats_t before, after;
    vPortGetHeapStats(&before);
    expect(pvPortMalloc(0) == NULL && hooks == hooked + 1,
           "0 bytes are refused, and the hook is called");
    expect(pvPortMalloc(1 << 20) == NULL && hooks == hooked + 2,
           "too many bytes are refused, and the hook is called");
    expect(pvPortCalloc(SIZE_MAX / 2, 3) == NULL && pvPortCalloc(0, 9) == NULL
               && pvPortCalloc(9, 0) == NULL && hooks == hooked + 5,
           "so are a product that is too great, and products of 0");
    vPortFree(NULL);
    expect(failed_assertions == assertions, "to free a null pointer does nothing");
    uint8_t *one = (uint8_t *)pvPortMalloc(100);
    vPortFree(one + 16);
    vPortFree(one);
    vPortFree(one);
    expect(failed_assertions == assertions + 2, "a pointer of no live block fails an assertion");
    vPortGetHeapStats(&after);
    expect(after.xNumberOfSuccessfulAllocations == before.xNumberOfSuccessfulAllocations + 1
               && after.xNumberOfSuccessfulFrees == before.xNumberOfSuccessfulFrees + 1
               && after.xAvailableHeapSpaceInBytes == before.xAvailableHeapSpaceInBytes,
           "and counts for nothing");
    asked++;
    given_back++;
}

int main(void)
{
    HeapStats_t stats;
    vPortGetHeapStats(&stats);
    expect(xPortGetFreeHeapSize() == 0 && stats.xNumberOfFreeBlocks == 0,
           "before there is a heap all figures are 0");
#ifdef configTLSF_REGIONS
    define();
#else
    vPortInitialiseBlocks();
#endif
    find_first();
    expect(agrees(), "an empty heap");
    expect(runs(), "random calls, and the figures of each");
    refusals();
    expect(agrees(), "the figures at the end");
    expect(unsuspended == 0 && depth == 0 && suspended > STEPS,
           "each call of the heap ran with the scheduler suspended");
    expect(traced == asked + given_back, "each block was traced, asked for and given back");
    return cases_end();
}
