/* One allocator at work: some blocks are live, and each step frees one of them and asks for another
 * of 1 to 512 bytes. Each allocator gets equal choices. Built with -DOVER_HEAP it is tlsf_heap.h,
 * with -DOVER_TLSF tlsf.h, with -DOVER_CONTE Conte's own, else whatever malloc is. Where the
 * environment has HUGE_PAGES, tlsf.h's and Conte's memory is of huge pages, if the system gives
 * them. The words are a mode and how many blocks are live:
 *   times LIVE   nanoseconds of a pair of free and malloc
 *   calls LIVE   nanoseconds of one call: 50, 99, 99.9 and 99.99 of a hundred take no more
 *   pairs LIVE   pairs alone, for callgrind to count the instructions of counted_pairs
 * Behind these it writes how many calls were refused. No test. */
#define _DEFAULT_SOURCE
#include <stdbool.h>
#include <stdint.h>
#include <stdio.h>
#include <stdlib.h>
#include <string.h>
#include <sys/mman.h>
#include <time.h>
#include <x86intrin.h>

#if defined OVER_HEAP
#include "tlsf_heap.h"
#elif defined OVER_TLSF || defined OVER_CONTE
#include "tlsf.h"
#endif

enum { MOST = 60000, RECORDS = 65535, POOL = 1 << 28, TIMES = 9, PAIRS = 500000, COUNTED = 20000 };

static uint64_t state = 1;
static unsigned refused;

static uint32_t next(void)
{
    state = state * 6364136223846793005u + 1442695040888963407u;
    return (uint32_t)(state >> 33);
}

/* ---- the allocator ---- */

#if defined OVER_HEAP
static tlsf_heap heap;
static tlsf_heap_block blocks[MOST];

static void start(void)
{
    tlsf_heap_create(RECORDS, &heap);
    tlsf_heap_add_pool(&heap, 0, POOL);
}

static inline void take(uint32_t k, size_t bytes)
{
    refused += tlsf_heap_malloc(&heap, bytes, &blocks[k]) != TLSF_OK;
}

static inline void give(uint32_t k) { refused += tlsf_heap_free(&heap, blocks[k]) != TLSF_OK; }
#else
static void *blocks[MOST];

#if defined OVER_CONTE
#define tlsf_create_records(memory, bytes, records) tlsf_create_with_pool(memory, bytes)
#endif
#if defined OVER_TLSF || defined OVER_CONTE
static tlsf_t heap;

static void start(void)
{
    size_t bytes = POOL + ((size_t)1 << 21);
    void *memory = mmap(NULL, bytes, PROT_READ | PROT_WRITE,
                        MAP_PRIVATE | MAP_ANONYMOUS | MAP_NORESERVE, -1, 0);
    if (getenv("HUGE_PAGES") != NULL && madvise(memory, bytes, MADV_HUGEPAGE) != 0) {
        perror("no huge pages");
    }
    heap = memory == MAP_FAILED ? NULL : tlsf_create_records(memory, bytes, RECORDS);
}
#define MALLOC(bytes) tlsf_malloc(heap, bytes)
#define FREE(block) tlsf_free(heap, block)
#else
static void start(void) {}
#define MALLOC(bytes) malloc(bytes)
#define FREE(block) free(block)
#endif

static inline void take(uint32_t k, size_t bytes)
{
    blocks[k] = MALLOC(bytes);
    refused += blocks[k] == NULL;
}

static inline void give(uint32_t k) { FREE(blocks[k]); }
#endif

/* ---- what is measured ---- */

static double seconds(clockid_t clock)
{
    struct timespec now;
    clock_gettime(clock, &now);
    return (double)now.tv_sec + 1e-9 * (double)now.tv_nsec;
}

__attribute__((noinline)) static void counted_pairs(uint32_t live, uint32_t pairs)
{
    for (uint32_t pair = 0; pair < pairs; pair++) {
        uint32_t k = next() % live;
        give(k);
        take(k, 1 + next() % 512);
    }
}

/* Of the processor's time, the least. */
static double nanoseconds_of_pair(uint32_t live)
{
    double least = 1e9;
    for (int time = 0; time < TIMES; time++) {
        double from = seconds(CLOCK_PROCESS_CPUTIME_ID);
        counted_pairs(live, PAIRS);
        double taken = seconds(CLOCK_PROCESS_CPUTIME_ID) - from;
        least = taken < least ? taken : least;
    }
    return 1e9 * least / PAIRS;
}

static uint32_t samples[2 * PAIRS];

static uint64_t ticks(void)
{
    _mm_lfence();
    uint64_t now = __rdtsc();
    _mm_lfence();
    return now;
}

static int compare(const void *one, const void *other)
{
    uint32_t a = *(const uint32_t *)one, b = *(const uint32_t *)other;
    return a < b ? -1 : a > b;
}

/* Each call alone, less what the clock takes. */
static void calls(uint32_t live)
{
    uint32_t clock = UINT32_MAX;
    memset(samples, 1, sizeof samples);
    counted_pairs(live, PAIRS);
    double from = seconds(CLOCK_MONOTONIC);
    uint64_t first = ticks();
    for (uint32_t k = 0; k < 10000; k++) {
        uint64_t before = ticks();
        uint32_t one = (uint32_t)(ticks() - before);
        clock = one < clock ? one : clock;
    }
    for (uint32_t pair = 0; pair < PAIRS; pair++) {
        uint32_t k = next() % live;
        size_t bytes = 1 + next() % 512;
        uint64_t before = ticks();
        give(k);
        uint64_t between = ticks();
        take(k, bytes);
        uint64_t after = ticks();
        samples[2 * pair] = (uint32_t)(between - before);
        samples[2 * pair + 1] = (uint32_t)(after - between);
    }
    double of_tick = 1e9 * (seconds(CLOCK_MONOTONIC) - from) / (double)(ticks() - first);
    qsort(samples, 2 * PAIRS, sizeof samples[0], compare);
    const double parts[] = {0.5, 0.99, 0.999, 0.9999};
    for (int k = 0; k < 4; k++) {
        uint32_t sample = samples[(size_t)(parts[k] * 2 * PAIRS)];
        printf("%.0f ", of_tick * (sample < clock ? 0 : sample - clock));
    }
}

int main(int argc, char **argv)
{
    uint32_t live = argc == 3 ? (uint32_t)strtoul(argv[2], NULL, 10) : 0;
    if (live == 0 || live > MOST) {
        return 2;
    }
    start();
    for (uint32_t k = 0; k < live; k++) {
        take(k, 1 + next() % 512);
    }
    if (strcmp(argv[1], "times") == 0) {
        printf("%.0f ", nanoseconds_of_pair(live));
    } else if (strcmp(argv[1], "calls") == 0) {
        calls(live);
    } else {
        counted_pairs(live, COUNTED);
    }
    printf("%u\n", refused);
    return 0;
}
