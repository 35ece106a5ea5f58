/* Heaps of each number of records, 1 to 65,535. Each is created. Each of at most 4,096 records, and
 * each 61st above, is also saved and loaded. No call is refused memory that is there. On processors
 * other than x86-64 fewer are created: those that are saved. */
#include <stdlib.h>

#include "cases.h"
#include "tlsf_heap.h"

enum { MOST = 65535, ALL = 4096, STEP = 61 };

static unsigned char image[TLSF_HEAP_IMAGE_BYTES(MOST)];

/* Whether a heap of so many records is saved too. */
static bool is_saved(uint32_t records) { return records <= ALL || records % STEP == 0; }

/* Whether a heap of so many records is made. */
static bool is_made(uint32_t records)
{
#if defined(__x86_64__)
    (void)records;
    return true;
#else
    return is_saved(records);
#endif
}

/* Whether the heap is saved, and its image loaded. */
static bool comes_again(const tlsf_heap *heap)
{
    uint64_t count = 0;
    tlsf_heap loaded = {0};
    bool is_loaded = tlsf_heap_save(heap, image, sizeof image, &count) == TLSF_OK
                     && tlsf_heap_load(image, (size_t)count, &loaded) == TLSF_OK;
    tlsf_heap_destroy(&loaded);
    return is_loaded;
}

/* Whether a heap of so many records is created, and, where it is to be, saved and loaded. */
static bool stands(uint32_t records)
{
    tlsf_heap heap = {0};
    bool is_created = tlsf_heap_create(records, &heap) == TLSF_OK;
    bool is_good = is_created && (!is_saved(records) || comes_again(&heap));
    tlsf_heap_destroy(&heap);
    return is_good;
}

int main(void)
{
    uint32_t refused = 0;
    for (uint32_t records = MOST; records > 0; records--)
        if (is_made(records) && !stands(records))
            refused = records;
    if (refused != 0)
        printf("%u records\n", (unsigned)refused);
    expect(refused == 0, "a heap of each number of records");
    return cases_end();
}
