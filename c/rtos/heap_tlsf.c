/* heap_tlsf.c: FreeRTOS's heap over tlsf.h, in the place of the kernel's heap_1.c to heap_5.c. Not
 * proved.
 *
 * It is compiled with the kernel, and linked with libtlsf.a. Its calls are those of the kernel's
 * manual, and each tells its own bounds of time below. FreeRTOSConfig.h may tell
 *
 * - configTOTAL_HEAP_SIZE: the bytes of the array ucHeap. The first call makes the heap there.
 * - configTLSF_REGIONS: 1 where there is no array, as where its bytes aren't told. Then
 *   vPortDefineHeapRegions comes before any other call.
 * - configAPPLICATION_ALLOCATED_HEAP: 1 where the program has the array ucHeap itself.
 * - configTLSF_RECORDS: how many records the heap has, from 1 to 65,535. Each block, live or free,
 *   takes one, of 16 bytes. By default there is one for each 80 bytes.
 * - configUSE_MALLOC_FAILED_HOOK: 1 where vApplicationMallocFailedHook is called for each request
 *   that is refused.
 *
 * Blocks begin at a multiple of 16. The scheduler is suspended during each call's work on the heap.
 * So no handler of an interrupt may call these, as with the kernel's own. All sizes that are told
 * count the 8 bytes in front of each block, as the kernel's heaps count their heads.
 */
#define MPU_WRAPPERS_INCLUDED_FROM_API_FILE
#include "FreeRTOS.h"
#include "task.h"
#undef MPU_WRAPPERS_INCLUDED_FROM_API_FILE

#include <stdbool.h>
#include <stdint.h>
#include <string.h>

#include "tlsf.h"

#if defined(configSUPPORT_DYNAMIC_ALLOCATION) && configSUPPORT_DYNAMIC_ALLOCATION == 0
#error "heap_tlsf.c isn't for configSUPPORT_DYNAMIC_ALLOCATION 0"
#endif
#if defined(portBYTE_ALIGNMENT) && portBYTE_ALIGNMENT > 16
#error "heap_tlsf.c aligns blocks by 16, and portBYTE_ALIGNMENT is more"
#endif
#ifndef traceMALLOC
#define traceMALLOC(block, bytes)
#endif
#ifndef traceFREE
#define traceFREE(block, bytes)
#endif

enum { POOLS = 8, MOST_RECORDS = 65535, BYTES_A_RECORD = 80 };

/* The bytes may be an expression with a cast, which #if doesn't take. */
#if defined(configTOTAL_HEAP_SIZE) && !(defined(configTLSF_REGIONS) && configTLSF_REGIONS == 1)
#define HAS_ARRAY 1
#if defined(configAPPLICATION_ALLOCATED_HEAP) && configAPPLICATION_ALLOCATED_HEAP == 1
extern uint8_t ucHeap[configTOTAL_HEAP_SIZE];
#else
static uint8_t ucHeap[configTOTAL_HEAP_SIZE] __attribute__((aligned(16)));
#endif
#else
#define HAS_ARRAY 0
#endif

static tlsf_t heap;
static pool_t pools[POOLS];
static size_t free_bytes, least_free_bytes, allocations, frees;

/* The bytes of a block in its pool. */
static size_t taken_by(void *block) { return tlsf_block_size(block) + tlsf_alloc_overhead(); }

/* How many records the heap has, over regions of this many bytes. */
static uint32_t records_of(size_t bytes)
{
#ifdef configTLSF_RECORDS
    (void)bytes;
    return configTLSF_RECORDS;
#else
    size_t records = bytes / BYTES_A_RECORD + 1;
    return records > MOST_RECORDS ? MOST_RECORDS : (uint32_t)records;
#endif
}

/* Makes the heap of up to eight regions of memory, told from the lowest address up. A region of 0
 * bytes ends them. The first has the heap's table, too. It is called once, before any other call,
 * and with no scheduler. A region that is too small, or a ninth, fails an assertion; where there is
 * none, such a region isn't used. */
void vPortDefineHeapRegions(const HeapRegion_t *const regions)
{
    tlsf_figures figures = {0};
    size_t bytes = 0;
    configASSERT(heap == NULL);
    for (size_t k = 0; regions[k].xSizeInBytes > 0; k++) {
        bytes += regions[k].xSizeInBytes;
    }
    heap =
        tlsf_create_records(regions[0].pucStartAddress, regions[0].xSizeInBytes, records_of(bytes));
    configASSERT(heap != NULL);
    pools[0] = tlsf_get_pool(heap);
    for (size_t k = 1, added = 1; regions[k - 1].xSizeInBytes > 0 && regions[k].xSizeInBytes > 0;
         k++) {
        pool_t pool = tlsf_add_pool(heap, regions[k].pucStartAddress, regions[k].xSizeInBytes);
        configASSERT(pool != NULL);
        if (pool != NULL && added < POOLS) {
            pools[added++] = pool;
        }
    }
    (void)tlsf_stats(heap, &figures);
    free_bytes = least_free_bytes = figures.bytes_free;
}

/* Makes the heap over ucHeap, where it isn't made. */
static void make_once(void)
{
#if HAS_ARRAY
    static const HeapRegion_t array[] = {{ucHeap, configTOTAL_HEAP_SIZE}, {NULL, 0}};
    if (heap == NULL) {
        vPortDefineHeapRegions(array);
    }
#endif
}

/* Makes the heap over ucHeap, where it isn't made: so the first pvPortMalloc takes no longer than
 * another. */
void vPortInitialiseBlocks(void)
{
    vTaskSuspendAll();
    make_once();
    (void)xTaskResumeAll();
}

/* Answers a block, or a null pointer: for 0 bytes, or where none is surely large enough. At most 23
 * touches of the heap's table. */
void *pvPortMalloc(size_t bytes)
{
    vTaskSuspendAll();
    make_once();
    void *block = tlsf_malloc(heap, bytes);
    if (block != NULL) {
        free_bytes -= taken_by(block);
        least_free_bytes = free_bytes < least_free_bytes ? free_bytes : least_free_bytes;
        allocations++;
    }
    traceMALLOC(block, bytes);
    (void)xTaskResumeAll();
#if defined(configUSE_MALLOC_FAILED_HOOK) && configUSE_MALLOC_FAILED_HOOK == 1
    extern void vApplicationMallocFailedHook(void);
    if (block == NULL) {
        vApplicationMallocFailedHook();
    }
#endif
    return block;
}

/* As pvPortMalloc, of `count` times `bytes` bytes, which are zeros. Answers a null pointer where
 * the product is more than a size_t tells. */
void *pvPortCalloc(size_t count, size_t bytes)
{
    size_t all = bytes == 0 || count <= SIZE_MAX / bytes ? count * bytes : SIZE_MAX;
    void *block = pvPortMalloc(all);
    return block == NULL ? NULL : memset(block, 0, all);
}

/* Frees the block. Does nothing for a null pointer. A pointer that is no live block's fails an
 * assertion; where there is none, it is refused, and nothing changes. At most 32 touches. */
void vPortFree(void *block)
{
    if (block == NULL) {
        return;
    }
    vTaskSuspendAll();
    size_t bytes = tlsf_live_size(heap, block);
    configASSERT(bytes != 0);
    traceFREE(block, bytes);
    tlsf_free(heap, block);
    if (bytes != 0) {
        free_bytes += bytes + tlsf_alloc_overhead();
        frees++;
    }
    (void)xTaskResumeAll();
}

/* The bytes of all free blocks now, and the fewest that there were. Before the heap is made they
 * are 0. */
size_t xPortGetFreeHeapSize(void) { return free_bytes; }
size_t xPortGetMinimumEverFreeHeapSize(void) { return least_free_bytes; }

/* Adds a block of a walk to the figures. */
static void count_free(void *block, size_t bytes, int used, void *of)
{
    HeapStats_t *stats = (HeapStats_t *)of;
    size_t whole = bytes + tlsf_alloc_overhead();
    (void)block;
    if (used == 0) {
        bool is_first = stats->xNumberOfFreeBlocks == 0;
        bool is_smallest = is_first || whole < stats->xSizeOfSmallestFreeBlockInBytes;
        bool is_largest = whole > stats->xSizeOfLargestFreeBlockInBytes;
        stats->xNumberOfFreeBlocks++;
        stats->xSizeOfSmallestFreeBlockInBytes =
            is_smallest ? whole : stats->xSizeOfSmallestFreeBlockInBytes;
        stats->xSizeOfLargestFreeBlockInBytes =
            is_largest ? whole : stats->xSizeOfLargestFreeBlockInBytes;
    }
}

/* Puts the figures into *stats, exactly. Where no block is free the largest and the smallest are 0.
 * It reads all blocks, each 64 of them anew from the pool's first on, and takes tlsf_walk_pool's
 * stack (c/bounds.txt). */
void vPortGetHeapStats(HeapStats_t *stats)
{
    memset(stats, 0, sizeof *stats);
    vTaskSuspendAll();
    for (size_t k = 0; k < POOLS; k++) {
        tlsf_walk_pool(pools[k], count_free, stats);
    }
    stats->xAvailableHeapSpaceInBytes = free_bytes;
    stats->xMinimumEverFreeBytesRemaining = least_free_bytes;
    stats->xNumberOfSuccessfulAllocations = allocations;
    stats->xNumberOfSuccessfulFrees = frees;
    (void)xTaskResumeAll();
}
