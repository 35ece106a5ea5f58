/* The heap of plain_heap.h. Each call does what the library's does, with its records, class heads
 * and bitmaps. */
#include "plain_heap.h"

#include <stdlib.h>
#include <string.h>

enum { NIL = 65535, VACANT = 0, FREE = 1, LIVE = 2 };
#define GREATEST 1073741808u

static uint32_t size_of(const struct plain_record *r) { return r->word & ~15u; }

static uint32_t state_of(const struct plain_record *r) { return r->word & 15u; }

static uint32_t class_of(uint32_t size)
{
    if (size < 512) {
        return size / 16;
    }
    uint32_t top = 31 - (uint32_t)__builtin_clz(size);
    return (top - 8) * 32 + ((size >> (top - 5)) & 31);
}

/* The least class whose blocks all have this size or more; it may be past the last. */
static uint32_t class_for(uint32_t size)
{
    if (size < 512) {
        return size / 16;
    }
    uint32_t top = 31 - (uint32_t)__builtin_clz(size);
    return class_of(size + (1u << (top - 5)) - 1);
}

static void link_free(plain_heap *heap, uint16_t slot)
{
    struct plain_record *r = &heap->records[slot];
    uint32_t class = class_of(size_of(r));
    uint16_t head = heap->heads[class];
    r->prev_free = NIL;
    r->next_free = head;
    if (head != NIL) {
        heap->records[head].prev_free = slot;
    } else {
        heap->steps[class / 32] |= 1u << class % 32;
        heap->levels |= 1u << class / 32;
    }
    heap->heads[class] = slot;
}

static void unlink_free(plain_heap *heap, uint16_t slot)
{
    struct plain_record *r = &heap->records[slot];
    if (r->next_free != NIL) {
        heap->records[r->next_free].prev_free = r->prev_free;
    }
    if (r->prev_free != NIL) {
        heap->records[r->prev_free].next_free = r->next_free;
        return;
    }
    uint32_t class = class_of(size_of(r));
    heap->heads[class] = r->next_free;
    if (r->next_free == NIL) {
        heap->steps[class / 32] &= ~(1u << class % 32);
        if (heap->steps[class / 32] == 0) {
            heap->levels &= ~(1u << class / 32);
        }
    }
}

/* The first block of the first list that isn't empty, from class_for(size) on. */
static uint16_t find(const plain_heap *heap, uint32_t size)
{
    uint32_t class = class_for(size);
    if (class >= PLAIN_CLASSES) {
        return NIL;
    }
    uint32_t level = class / 32;
    uint32_t word = heap->steps[level] & (~0u << class % 32);
    if (word == 0) {
        uint32_t levels = heap->levels & (uint32_t)(~1ull << level);
        if (levels == 0) {
            return NIL;
        }
        level = (uint32_t)__builtin_ctz(levels);
        word = heap->steps[level];
    }
    return heap->heads[level * 32 + (uint32_t)__builtin_ctz(word)];
}

static uint16_t take_vacant(plain_heap *heap)
{
    uint16_t slot = heap->vacant;
    heap->vacant = heap->records[slot].next;
    heap->left--;
    return slot;
}

static void give_vacant(plain_heap *heap, uint16_t slot)
{
    heap->records[slot].word = VACANT;
    heap->records[slot].next = heap->vacant;
    heap->vacant = slot;
    heap->left++;
}

/* A block of the last bytes of one, behind it in the pool. */
static uint16_t split(plain_heap *heap, uint16_t slot, uint32_t kept, uint32_t state)
{
    struct plain_record *r = &heap->records[slot];
    uint16_t other = take_vacant(heap);
    struct plain_record *o = &heap->records[other];
    o->place = r->place + kept;
    o->word = (size_of(r) - kept) | state;
    o->prev = slot;
    o->next = r->next;
    o->prev_free = o->next_free = NIL;
    if (r->next != NIL) {
        heap->records[r->next].prev = other;
    }
    r->next = other;
    r->word = kept | state_of(r);
    return other;
}

/* The block takes in the one behind it. */
static void take_in(plain_heap *heap, uint16_t slot)
{
    struct plain_record *r = &heap->records[slot];
    uint16_t other = r->next;
    struct plain_record *o = &heap->records[other];
    r->word += size_of(o);
    r->next = o->next;
    if (r->next != NIL) {
        heap->records[r->next].prev = slot;
    }
    give_vacant(heap, other);
}

static bool is_free(const plain_heap *heap, uint16_t slot)
{
    return slot != NIL && state_of(&heap->records[slot]) == FREE;
}

static bool is_live(const plain_heap *heap, tlsf_heap_block block)
{
    return block.slot < heap->count && state_of(&heap->records[block.slot]) == LIVE
           && heap->records[block.slot].place == block.place;
}

uint32_t plain_create(uint32_t records, plain_heap *heap)
{
    if (records == 0 || records > 65535) {
        return TLSF_BAD_COUNT;
    }
    memset(heap, 0, sizeof *heap);
    memset(heap->heads, 0xff, sizeof heap->heads);
    heap->records = malloc(records * sizeof *heap->records);
    if (heap->records == NULL) {
        return TLSF_OUT_OF_MEMORY;
    }
    heap->count = records;
    heap->vacant = NIL;
    for (uint32_t k = records; k > 0; k--) {
        give_vacant(heap, (uint16_t)(k - 1));
    }
    return TLSF_OK;
}

void plain_destroy(plain_heap *heap) { free(heap->records); }

uint32_t plain_add_pool(plain_heap *heap, uint64_t base, uint64_t bytes)
{
    if (base % 16 != 0 || bytes % 16 != 0 || bytes == 0 || bytes > GREATEST
        || base + bytes > 1ull << 32) {
        return TLSF_BAD_POOL;
    }
    for (uint32_t k = 0; k < heap->pool_count; k++) {
        if (base < heap->pools[k].base + heap->pools[k].bytes
            && heap->pools[k].base < base + bytes) {
            return TLSF_BAD_POOL;
        }
    }
    if (heap->pool_count == PLAIN_POOLS) {
        return TLSF_POOLS_FULL;
    }
    if (heap->left == 0) {
        return TLSF_TABLE_FULL;
    }
    uint16_t slot = take_vacant(heap);
    struct plain_record whole = {(uint32_t)base, (uint32_t)bytes | FREE, NIL, NIL, NIL, NIL};
    struct plain_pool pool = {base, bytes, slot};
    heap->records[slot] = whole;
    heap->pools[heap->pool_count++] = pool;
    link_free(heap, slot);
    return TLSF_OK;
}

uint32_t plain_malloc(plain_heap *heap, uint64_t bytes, tlsf_heap_block *out)
{
    if (bytes == 0) {
        return TLSF_ZERO_SIZE;
    }
    if (bytes > GREATEST) {
        return TLSF_NO_FIT;
    }
    uint32_t size = ((uint32_t)bytes + 15) & ~15u;
    uint16_t slot = find(heap, size);
    if (slot == NIL) {
        return TLSF_NO_FIT;
    }
    struct plain_record *r = &heap->records[slot];
    bool rest = size_of(r) > size;
    if (rest && heap->left == 0) {
        return TLSF_TABLE_FULL;
    }
    unlink_free(heap, slot);
    r->word = size_of(r) | LIVE;
    r->prev_free = r->next_free = NIL;
    if (rest) {
        link_free(heap, split(heap, slot, size, FREE));
    }
    out->place = r->place;
    out->slot = slot;
    return TLSF_OK;
}

uint32_t plain_memalign(plain_heap *heap, uint64_t align, uint64_t bytes, tlsf_heap_block *out)
{
    if (align == 0 || align > 1u << 29 || (align & (align - 1)) != 0) {
        return TLSF_BAD_ALIGN;
    }
    if (bytes == 0) {
        return TLSF_ZERO_SIZE;
    }
    uint64_t size = (bytes + 15) & ~15ull, wanted = align <= 16 ? size : size + align - 16;
    uint16_t slot = bytes > GREATEST || wanted > GREATEST ? NIL : find(heap, (uint32_t)wanted);
    if (slot == NIL) {
        return TLSF_NO_FIT;
    }
    struct plain_record *r = &heap->records[slot];
    uint64_t start = (r->place + align - 1) & ~(align - 1);
    uint32_t gap = (uint32_t)(start - r->place), rest = size_of(r) - gap - (uint32_t)size;
    if (heap->left < (uint32_t)(gap > 0) + (uint32_t)(rest > 0)) {
        return TLSF_TABLE_FULL;
    }
    unlink_free(heap, slot);
    if (gap > 0) {
        uint16_t front = slot;
        slot = split(heap, front, gap, LIVE);
        link_free(heap, front);
        r = &heap->records[slot];
    }
    r->word = size_of(r) | LIVE;
    r->prev_free = r->next_free = NIL;
    if (rest > 0) {
        link_free(heap, split(heap, slot, (uint32_t)size, FREE));
    }
    out->place = r->place;
    out->slot = slot;
    return TLSF_OK;
}

uint32_t plain_free(plain_heap *heap, tlsf_heap_block block)
{
    if (!is_live(heap, block)) {
        return TLSF_BAD_POINTER;
    }
    uint16_t slot = block.slot;
    struct plain_record *r = &heap->records[slot];
    r->word = size_of(r) | FREE;
    if (is_free(heap, r->prev)) {
        slot = r->prev;
        unlink_free(heap, slot);
        take_in(heap, slot);
        r = &heap->records[slot];
    }
    if (is_free(heap, r->next)) {
        unlink_free(heap, r->next);
        take_in(heap, slot);
    }
    link_free(heap, slot);
    return TLSF_OK;
}

uint32_t plain_realloc(plain_heap *heap, tlsf_heap_block block, uint64_t bytes,
                       tlsf_heap_block *out)
{
    if (!is_live(heap, block)) {
        return TLSF_BAD_POINTER;
    }
    if (bytes == 0) {
        return plain_free(heap, block);
    }
    if (bytes > GREATEST) {
        return TLSF_NO_FIT;
    }
    struct plain_record *r = &heap->records[block.slot];
    uint32_t size = ((uint32_t)bytes + 15) & ~15u;
    bool behind = is_free(heap, r->next);
    if (size_of(r) + (behind ? size_of(&heap->records[r->next]) : 0) < size) {
        uint32_t status = plain_malloc(heap, bytes, out);
        return status == TLSF_OK ? plain_free(heap, block) : status;
    }
    if (behind) {
        unlink_free(heap, r->next);
        take_in(heap, block.slot);
    }
    if (size_of(r) > size && heap->left > 0) {
        link_free(heap, split(heap, block.slot, size, FREE));
    }
    *out = block;
    return TLSF_OK;
}
