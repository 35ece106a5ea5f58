/* Threads that make heaps at once, each in memory of its own and of malloc's in turn: no call takes
 * from what another thread handed in. */
#include <pthread.h>
#include <string.h>

#include "cases.h"
#include "tlsf_heap.h"

enum { THREADS = 4, ROUNDS = 3000, RECORDS = 60, BYTES = TLSF_HEAP_TABLE_BYTES(RECORDS) };

static _Alignas(16) unsigned char tables[THREADS][BYTES];
static bool right[THREADS];

static bool is_in(const tlsf_heap *heap, unsigned k)
{
    uintptr_t at = (uintptr_t)heap->at, table = (uintptr_t)tables[k];
    return at >= table && at < table + BYTES;
}

static bool works(tlsf_heap *heap)
{
    tlsf_heap_block block;
    bool served = tlsf_heap_add_pool(heap, 0, 1024) == TLSF_OK;
    served = served && tlsf_heap_malloc(heap, 1000, &block) == TLSF_OK && tlsf_heap_check(heap);
    return served && tlsf_heap_free(heap, block) == TLSF_OK;
}

static void *make(void *name)
{
    unsigned k = (unsigned)(uintptr_t)name;
    unsigned char image[TLSF_HEAP_IMAGE_BYTES(RECORDS)];
    bool good = true;
    for (unsigned round = 0; round < ROUNDS; round++) {
        tlsf_heap in = {0}, of_malloc = {0};
        uint64_t count = 0;
        good =
            good && tlsf_heap_create_in(tables[k], BYTES, RECORDS, &in) == TLSF_OK && is_in(&in, k);
        good = good && tlsf_heap_create(RECORDS, &of_malloc) == TLSF_OK && !is_in(&of_malloc, k);
        good = good && works(&in) && works(&of_malloc);
        good = good && tlsf_heap_save(&of_malloc, image, sizeof image, &count) == TLSF_OK;
        tlsf_heap_destroy(&in);
        good = good && tlsf_heap_load_in(tables[k], BYTES, image, count, &in) == TLSF_OK
               && is_in(&in, k);
        good = good && tlsf_heap_check(&in);
        tlsf_heap_destroy(&in);
        tlsf_heap_destroy(&of_malloc);
    }
    right[k] = good;
    return NULL;
}

int main(void)
{
    pthread_t threads[THREADS];
    bool made = true;
    for (uintptr_t k = 0; k < THREADS; k++) {
        made = pthread_create(&threads[k], NULL, make, (void *)k) == 0 && made;
    }
    for (unsigned k = 0; k < THREADS; k++) {
        pthread_join(threads[k], NULL);
        made = made && right[k];
    }
    expect(made, "heaps made by four threads at once");
    return cases_end();
}
