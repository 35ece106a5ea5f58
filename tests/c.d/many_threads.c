/* Threads that ask at once: each has some blocks, and each step frees one of its own and asks for
 * another of 1 to 512 bytes. All threads of all allocators make the same choices. Built with
 * -DOVER_TLSF each thread has a heap of tlsf.h without a lock, else malloc is whatever it is. The
 * words are how many threads there are, the blocks of each, and its calls. It writes the
 * processor's nanoseconds a call. No test. */
#define _DEFAULT_SOURCE
#include <pthread.h>
#include <stdint.h>
#include <stdio.h>
#include <stdlib.h>
#include <sys/mman.h>
#include <time.h>

enum { THREADS_MOST = 64, LIVE_MOST = 60000 };
static uint32_t live, calls;

#ifdef OVER_TLSF
#include "tlsf.h"
enum { RECORDS = 65535, POOL = 1 << 29, LARGE_PAGE = 1 << 21 };
static __thread tlsf_t heap;
#define MALLOC(bytes) tlsf_malloc(heap, bytes)
#define FREE(block) tlsf_free(heap, block)

/* Of large pages, as the heaps of libtlsf_malloc.so. */
static void start(void)
{
    unsigned char *memory = mmap(NULL, POOL + LARGE_PAGE, PROT_READ | PROT_WRITE,
                                 MAP_PRIVATE | MAP_ANONYMOUS | MAP_NORESERVE, -1, 0);
    if (memory == MAP_FAILED) {
        exit(1);
    }
    memory += -(uintptr_t)memory & (LARGE_PAGE - 1);
    (void)madvise(memory, POOL, MADV_HUGEPAGE);
    heap = tlsf_create_records(memory, POOL, RECORDS);
}
#else
#define MALLOC(bytes) malloc(bytes)
#define FREE(block) free(block)
static void start(void) {}
#endif

static uint32_t next(uint64_t *state)
{
    *state = *state * 6364136223846793005u + 1442695040888963407u;
    return (uint32_t)(*state >> 33);
}

static void *work(void *name)
{
    static __thread void *blocks[LIVE_MOST];
    uint64_t state = (uintptr_t)name;
    start();
    for (uint32_t k = 0; k < live; k++) {
        blocks[k] = MALLOC(1 + next(&state) % 512);
    }
    for (uint32_t call = 0; call < calls; call += 2) {
        uint32_t k = next(&state) % live;
        FREE(blocks[k]);
        blocks[k] = MALLOC(1 + next(&state) % 512);
        if (blocks[k] == NULL) {
            exit(1);
        }
    }
    return NULL;
}

int main(int argc, char **argv)
{
    pthread_t threads[THREADS_MOST];
    struct timespec taken;
    uint32_t count = argc == 4 ? (uint32_t)strtoul(argv[1], NULL, 10) : 0;
    live = argc == 4 ? (uint32_t)strtoul(argv[2], NULL, 10) : 0;
    calls = argc == 4 ? (uint32_t)strtoul(argv[3], NULL, 10) : 0;
    if (count == 0 || count > THREADS_MOST || live == 0 || live > LIVE_MOST || calls == 0) {
        return 2;
    }
    for (uintptr_t k = 0; k < count; k++) {
        if (pthread_create(&threads[k], NULL, work, (void *)(k + 1)) != 0) {
            return 1;
        }
    }
    for (uint32_t k = 0; k < count; k++) {
        pthread_join(threads[k], NULL);
    }
    clock_gettime(CLOCK_PROCESS_CPUTIME_ID, &taken);
    printf("%.1f\n",
           ((double)taken.tv_sec * 1e9 + (double)taken.tv_nsec) / ((double)count * calls));
    return 0;
}
