/* tlsf_image.c: tlsf_save and tlsf_load of tlsf.h, which put a heap into bytes and take it out
 * again. This file isn't proved. Whether an image is a heap is, in the calls of tlsf_front.h and
 * tlsf_heap.h. */
#include "tlsf.h"

#include <string.h>

#include "tlsf_front.h"
#include "tlsf_heap.h"

/* What an image of a heap begins with. Behind it the table's image follows. */
#define SAVED 0x31474d4953465354u /* TSFSIMG1, lowest byte first */
struct saved {
    uint64_t magic;
    uint64_t records;
    uint64_t most_bytes;
    struct pool pools[POOLS];
};
typedef char image_is_told[sizeof(struct saved) + 1520u == TLSF_IMAGE_BYTES(0u) ? 1 : -1];

size_t tlsf_save(tlsf_t tlsf, void *image, size_t room)
{
    ON_HEAP(tlsf);
    struct saved saved = {.magic = SAVED};
    unsigned char *bytes = (unsigned char *)image;
    uint64_t count = 0;
    if (control == NULL || room <= sizeof saved) {
        return 0;
    }
    saved.records = control->records;
    saved.most_bytes = control->at.live.most_bytes;
    (void)memcpy(saved.pools, control->at.pools, sizeof saved.pools);
    (void)memcpy(image, &saved, sizeof saved);
    bool whole =
        tlsf_heap_save(&control->at.heap, &bytes[sizeof saved], room - sizeof saved, &count)
        == TLSF_OK;
    return whole ? sizeof saved + (size_t)count : 0u;
}

/* Gives each pool of an image the memory handed in for it, or the rest behind the table. Then each
 * front is looked at, before one is moved. */
static int take_pools(struct control *control, const struct saved *saved, const tlsf_memory *rest,
                      const tlsf_memory *memory, tlsf_fault *out)
{
    int lost = 0;
    for (uint32_t k = 0; k < POOLS; k++) {
        const tlsf_memory *of = memory == NULL || memory[k].mem == NULL ? rest : &memory[k];
        uintptr_t address = (uintptr_t)of->mem + skipped(of->mem);
        size_t bytes = of->bytes - skipped(of->mem);
        struct pool *own = &control->at.pools[k];
        if (saved->pools[k].reach != 0u) {
            *own = saved->pools[k];
            own->control = control;
            own->number = k;
            if (!is_apart(control, address, bytes)
                || !tlsf_placed_move(&control->at, k, address, bytes, UINTPTR_MAX)) {
                return TLSF_BAD_MEMORY;
            }
        }
    }
    if (!tlsf_placed_adopt(&control->at)) {
        return TLSF_BROKEN_ADDRESSES;
    }
    for (uint32_t k = 0; k < 2u * POOLS && lost == 0; k++) {
        lost = lost_fronts(control, k % POOLS, saved->pools[k % POOLS].first, k >= POOLS, out);
    }
    return lost == 0 ? 0 : TLSF_BROKEN_FRONTS;
}

int tlsf_load(void *mem, size_t bytes, const void *image, size_t length, const tlsf_memory *memory)
{
    return tlsf_load_at(mem, bytes, image, length, memory, NULL);
}

int tlsf_load_at(void *mem, size_t bytes, const void *image, size_t length,
                 const tlsf_memory *memory, tlsf_fault *out)
{
    struct control *control = (struct control *)mem;
    const unsigned char *table = (const unsigned char *)image;
    struct saved saved = {.magic = 0};
    struct places places;
    if (length > sizeof saved) {
        (void)memcpy(&saved, image, sizeof saved);
    }
    if (saved.magic != SAVED || saved.most_bytes > UINT32_MAX
        || saved.records > TLSF_HEAP_RECORDS_MOST || length != TLSF_IMAGE_BYTES(saved.records)) {
        return TLSF_BROKEN_HEAD;
    }
    uint32_t records = (uint32_t)saved.records;
    if (!tlsf_placed_places((uintptr_t)mem, bytes, sizeof *control, records, UINTPTR_MAX,
                            &places)) {
        return TLSF_BAD_MEMORY;
    }
    *control = (struct control){.records = records, .at.live.most_bytes = saved.most_bytes};
    int status =
        (int)tlsf_heap_load_in((void *)(uintptr_t)places.table, TLSF_HEAP_TABLE_BYTES(records),
                               &table[sizeof saved], length - sizeof saved, &control->at.heap);
    tlsf_memory rest = {(void *)(uintptr_t)places.pool, (size_t)places.bytes};
    status = status == 0 ? take_pools(control, &saved, &rest, memory, out) : status;
    if (status != 0) {
        (void)memset(control, 0, sizeof *control);
        return status;
    }
    control->at.owner = (uint64_t)(uintptr_t)mem + MAGIC;
    control->mark = mark_of(control);
    return status;
}
