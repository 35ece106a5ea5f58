/* Threads on one heap, by a tlsf.c that is built with a lock: each has blocks of its own, with
 * bytes of its own, and now and then reads all. The lock says where a call takes it twice, or gives
 * back what it hasn't. */
#define _GNU_SOURCE
#include <pthread.h>
#include <string.h>

#include "cases.h"
#include "lock.h"
#include "tlsf.h"

enum { THREADS = 4, STEPS = 20000, HELD = 40 };

static _Alignas(16) unsigned char memory[1 << 18], more[1 << 14], last[4096];
static pthread_mutex_t lock;
static size_t takes;
static bool wrong, is_held, ends;
static tlsf_t heap;

/* Where `ends` is set, another thread ends the heap while this one waits for the lock. */
void take_lock(void *tlsf)
{
    wrong = pthread_mutex_lock(&lock) != 0 || wrong;
    wrong = tlsf != heap || wrong;
    takes++;
    is_held = true;
    if (ends) {
        memset(heap, 0, sizeof(uint64_t));
    }
}

void give_lock(void *tlsf)
{
    wrong = tlsf != heap || wrong;
    is_held = false;
    if (pthread_mutex_unlock(&lock) != 0) {
        wrong = true;
    }
}

/* What a thread has, and whether all was right. */
struct worker {
    unsigned seed;
    bool good;
    unsigned char *blocks[HELD];
    size_t bytes[HELD];
};

static unsigned below(struct worker *worker, unsigned most)
{
    worker->seed = worker->seed * 1664525u + 1013904223u;
    return (worker->seed >> 8) % most;
}

static void see(void *ptr, size_t size, int used, void *user)
{
    (void)ptr, (void)used;
    *(size_t *)user += size;
}

static void read_all(void)
{
    tlsf_figures figures;
    size_t bytes = 0;
    tlsf_walk_pool(tlsf_get_pool(heap), see, &bytes);
    tlsf_check_pool(tlsf_get_pool(heap));
    if (tlsf_stats(heap, &figures) != 0 || tlsf_check(heap) != 0 || bytes == 0) {
        wrong = true;
    }
}

static void step(struct worker *worker)
{
    unsigned k = below(worker, HELD);
    unsigned char byte = (unsigned char)(17 * k + 5);
    size_t bytes = 1 + below(worker, 300), had = worker->bytes[k];
    unsigned char *block = worker->blocks[k];
    bool same = true;
    for (size_t at = 0; at < had; at++) {
        same = same && block[at] == byte;
    }
    same = same && (block == NULL || tlsf_live_size(heap, block) >= had);
    if (below(worker, 3) == 0) {
        tlsf_free(heap, block);
        block = NULL;
    } else if (block == NULL && below(worker, 2) == 0) {
        block = (unsigned char *)tlsf_memalign(heap, 64, bytes);
    } else {
        block = (unsigned char *)tlsf_realloc(heap, block, bytes);
    }
    worker->blocks[k] = block;
    worker->bytes[k] = block == NULL ? 0 : bytes;
    worker->good = worker->good && same && (block == NULL || memset(block, byte, bytes) == block);
}

static void *work(void *user)
{
    struct worker *worker = (struct worker *)user;
    for (unsigned k = 0; k < STEPS; k++) {
        step(worker);
        if (k % 1000 == worker->seed % 1000) {
            read_all();
        }
    }
    for (unsigned k = 0; k < HELD; k++) {
        tlsf_free(heap, worker->blocks[k]);
    }
    return NULL;
}

/* Pools come and go beside the threads. */
static void *change_pools(void *user)
{
    size_t *pools = (size_t *)user;
    for (unsigned k = 0; k < 200; k++) {
        pool_t pool = tlsf_add_pool(heap, more, sizeof more);
        *pools += pool != NULL;
        tlsf_remove_pool(heap, pool);
    }
    return NULL;
}

/* Whether the calls since the last time that this was asked took the lock so often. */
static bool took(size_t times)
{
    static size_t before;
    bool good = takes == before + times;
    before = takes;
    return good;
}

/* What a walker or a hook saw of the lock. */
struct seen {
    size_t calls, held;
    void *kept;
};

static void look(struct seen *seen)
{
    seen->calls++;
    seen->held += is_held;
}

/* A walker may call the heap: each call takes the lock, and gives it back. */
static void look_and_call(void *ptr, size_t size, int used, void *user)
{
    struct seen *seen = (struct seen *)user;
    (void)size;
    look(seen);
    if (used && ptr != seen->kept) {
        tlsf_free(heap, ptr);
    }
    look(seen);
}

static void look_in_hook(enum tlsf_refusal what, const void *ptr, size_t bytes, void *user)
{
    (void)what, (void)ptr, (void)bytes;
    look((struct seen *)user);
}

/* A walker runs without the lock, and a hook with it. */
static void callbacks(void)
{
    struct seen walker = {0, 0, NULL}, hook = {0, 0, NULL};
    tlsf_create_with_pool(heap, sizeof memory);
    for (int k = 0; k < 200; k++) {
        walker.kept = tlsf_malloc(heap, 16);
    }
    size_t before = takes;
    tlsf_walk_pool(tlsf_get_pool(heap), look_and_call, &walker);
    expect(walker.calls >= 2 * 200 && walker.held == 0 && !wrong && takes > before + 199,
           "a walker runs without the lock, and may call the heap");
    tlsf_set_refusal_hook(heap, look_in_hook, &hook);
    void *one = walker.kept;
    bool good = tlsf_malloc(heap, SIZE_MAX) == NULL && tlsf_memalign(heap, 3, 1) == NULL
                && tlsf_realloc(heap, one, SIZE_MAX) == NULL;
    tlsf_free(heap, one);
    tlsf_free(heap, one);
    expect(good && hook.calls == 4 && hook.held == 4 && !is_held && !wrong,
           "a hook runs with the lock");
}

/* Each call takes the lock once. */
static void each_call(void)
{
    tlsf_figures figures;
    size_t bytes = 0;
    took(0);
    pool_t pool = tlsf_add_pool(heap, last, sizeof last);
    bool good = pool != NULL && took(1) && tlsf_get_pool(heap) != NULL && took(1);
    void *one = tlsf_malloc(heap, 100);
    good = good && took(1);
    void *two = tlsf_memalign(heap, 64, 100);
    good = good && took(1);
    one = tlsf_realloc(heap, one, 200);
    good = good && took(1) && tlsf_live_size(heap, one) == 200 && took(1);
    tlsf_free(heap, one);
    good = good && took(1) && tlsf_realloc(heap, two, 0) == NULL && took(1)
           && tlsf_stats(heap, &figures) == 0 && took(1) && tlsf_check(heap) == 0 && took(1)
           && tlsf_check_pool(pool) == 0 && took(1);
    tlsf_walk_pool(pool, see, &bytes);
    good = good && took(1);
    tlsf_remove_pool(heap, pool);
    good = good && took(1);
    tlsf_set_refusal_hook(heap, NULL, NULL);
    good = good && took(1);
    tlsf_destroy(heap);
    expect(good && took(1) && !wrong,
           "each call takes the lock of its heap once, and gives it back");
}

/* The heap, as before it was ended. */
static void begin_again(void)
{
    ends = false;
    heap = memory;
    tlsf_create_with_pool(memory, sizeof memory);
}

/* Each call looks for its heap with the lock: what ended before is gone. */
static void ended_while_waiting(void)
{
    static unsigned char image[1 << 17];
    tlsf_figures figures;
    size_t bytes = 0;
    bool none = true;
    for (int call = 0; call < 13; call++) {
        begin_again();
        void *one = tlsf_malloc(heap, 100);
        pool_t pool = tlsf_get_pool(heap);
        ends = true;
        switch (call) {
        case 0: none = none && tlsf_malloc(heap, 100) == NULL; break;
        case 1: none = none && tlsf_memalign(heap, 64, 100) == NULL; break;
        case 2: none = none && tlsf_realloc(heap, one, 300) == NULL; break;
        case 3: tlsf_free(heap, one); break;
        case 4: none = none && tlsf_live_size(heap, one) == 0; break;
        case 5: none = none && tlsf_stats(heap, &figures) == -1; break;
        case 6: none = none && tlsf_check(heap) == -1; break;
        case 7: none = none && tlsf_check_pool(pool) == -1; break;
        case 8: tlsf_walk_pool(pool, see, &bytes); break;
        case 9: none = none && tlsf_add_pool(heap, more, sizeof more) == NULL; break;
        case 10: tlsf_remove_pool(heap, pool); break;
        case 11: none = none && tlsf_get_pool(heap) == NULL; break;
        default: none = none && tlsf_save(heap, image, sizeof image) == 0; break;
        }
        ends = false;
        uint64_t owner = 0;
        memcpy(&owner, memory, sizeof owner);
        none = none && owner == 0;
    }
    expect(none && bytes == 0 && !wrong,
           "a heap that ends while a call waits for its lock has no blocks");
}

int main(void)
{
    static struct worker workers[THREADS];
    pthread_t threads[THREADS + 1];
    pthread_mutexattr_t kind;
    size_t pools = 0;
    pthread_mutexattr_init(&kind);
    pthread_mutexattr_settype(&kind, PTHREAD_MUTEX_ERRORCHECK);
    pthread_mutex_init(&lock, &kind);
    heap = memory;
    bool good = tlsf_create_with_pool(memory, sizeof memory) == heap;
    for (unsigned k = 0; k < THREADS; k++) {
        workers[k] = (struct worker){.seed = k + 1, .good = true};
        good = pthread_create(&threads[k], NULL, work, &workers[k]) == 0 && good;
    }
    good = pthread_create(&threads[THREADS], NULL, change_pools, &pools) == 0 && good;
    for (unsigned k = 0; k <= THREADS; k++) {
        pthread_join(threads[k], NULL);
    }
    for (unsigned k = 0; k < THREADS; k++) {
        good = good && workers[k].good;
    }
    expect(good && pools > 0, "each thread's blocks keep its bytes");
    tlsf_figures figures;
    good = tlsf_stats(heap, &figures) == 0 && figures.blocks_live == 0 && figures.bytes_live == 0
           && figures.refusals[TLSF_REFUSED_POINTER] == 0 && tlsf_check(heap) == 0;
    expect(good, "and all is given back");
    each_call();
    callbacks();
    ended_while_waiting();
    return cases_end();
}
