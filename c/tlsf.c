/* tlsf.c: the calls of Conte's tlsf over the proved heap of tlsf_heap.h. Those that look at a whole
 * heap are in tlsf_check.c, and images in tlsf_image.c. These three files aren't proved.
 *
 * What is reckoned here is proved, in the calls of tlsf_front.h: they choose blocks, answer their
 * addresses, find the block that a pointer means, find places for a pool, and keep the figures of
 * what is live. This file moves fronts and bytes:
 *
 * - The control part, at the start of the memory handed in, keeps each pool's address and places.
 *   It ends with its mark, a sum over it. So tlsf_check tells a byte that is changed there, and
 *   reads the table only where none is.
 * - A block begins eight bytes in front of its pointer. Its place is as far behind the pool's first
 *   place as the pointer behind the first pointer, and equals the pointer modulo TLSF_MOST_ALIGN.
 * - A pointer is taken where it lies in a pool of the heap, its front is whole, and the heap has a
 *   live block there with that slot. So a null, stale or interior pointer is refused, and so is one
 *   of another heap. Nothing is read in front of a pointer into no pool.
 * - A stale pointer where a later block begins isn't seen. tlsf_block_size gets no heap, so it
 *   tells the size in any whole front. A freed block has none, but a block of a heap that is gone
 *   may still have one. A pool_t is read by its calls, but not by tlsf_remove_pool.
 */
#include "tlsf.h"

#include <string.h>

#include "tlsf_front.h"
#include "tlsf_heap.h"

/* What a build may choose: the records of tlsf_create, and the greatest alignment, a power of
 * two. */
#ifndef TLSF_RECORDS
#define TLSF_RECORDS 1024u
#endif
#ifndef TLSF_MOST_ALIGN
#define TLSF_MOST_ALIGN 2097152u
#endif

#define LEAST_POOL (FRONT + UNIT)
/* tlsf_create_with_pool has a record for each, if a build tells nothing else. Where pointers are
 * short, blocks are, too. */
#ifndef TLSF_BYTES_A_RECORD
#define TLSF_BYTES_A_RECORD (sizeof(void *) == 4u ? 80u : 112u)
#endif
typedef char records_fit[TLSF_RECORDS > 0 && TLSF_RECORDS <= TLSF_HEAP_RECORDS_MOST ? 1 : -1];

size_t tlsf_size_records(uint32_t records)
{
    return sizeof(struct control) + HANDED_IN + TLSF_HEAP_TABLE_BYTES(records);
}
size_t tlsf_sure_bytes(uint32_t blocks, size_t bytes, size_t largest)
{
    return (size_t)tlsf_placed_sure_bytes(sizeof(struct control), blocks, bytes, largest);
}
size_t tlsf_size(void) { return MOST_SKIPPED + tlsf_size_records(TLSF_RECORDS); }
size_t tlsf_align_size(void) { return UNIT; }
size_t tlsf_block_size_min(void) { return UNIT - FRONT; }
size_t tlsf_block_size_max(void) { return TLSF_HEAP_GREATEST - FRONT; }
size_t tlsf_pool_overhead(void) { return MOST_SKIPPED + HANDED_IN + FRONT + UNIT; }
size_t tlsf_alloc_overhead(void) { return FRONT; }

/* Each word of the control part counts in its mark by an odd number of its own. So a word that
 * changes shows. */
#define WORD sizeof(size_t)
#define ODD 0x9e3779b97f4a7c15u
static inline uint64_t times(size_t at)
{
    uint64_t number = (at / WORD + 1u) * ODD;
    return (number ^ (number >> 32u)) | 1u;
}
uint64_t mark_of(const struct control *control)
{
    size_t word = 0;
    size_t live = offsetof(struct control, at.live);
    size_t end = offsetof(struct control, records);
    uint64_t sum = ODD * control->records;
    for (size_t at = 0; at < end; at += WORD) {
        (void)__builtin_memcpy(&word, (const unsigned char *)control + at, WORD);
        sum += at - live < sizeof control->at.live ? 0u : times(at) * word;
    }
    return sum;
}

pool_t tlsf_add_pool(tlsf_t tlsf, void *mem, size_t bytes)
{
    ON_HEAP(tlsf);
    uintptr_t address = (uintptr_t)mem + skipped(mem);
    size_t rest = bytes - skipped(mem);
    uint32_t entry = 0;
    if (control == NULL || !is_apart(control, address, rest)
        || tlsf_placed_add_pool(&control->at, address, rest, TLSF_MOST_ALIGN, &entry) != TLSF_OK) {
        return NULL;
    }
    struct pool *pool = &control->at.pools[entry];
    pool->control = control;
    pool->number = entry;
    control->mark = mark_of(control);
    return pool;
}

void tlsf_remove_pool(tlsf_t tlsf, pool_t pool)
{
    ON_HEAP(tlsf);
    for (uint32_t k = 0; control != NULL && k < POOLS; k++) {
        struct pool *own = &control->at.pools[k];
        if (own == pool && tlsf_placed_remove_pool(&control->at, k) == TLSF_OK) {
            (void)memset(own, 0, sizeof *own);
            control->mark = mark_of(control);
        }
    }
}

pool_t tlsf_get_pool(tlsf_t tlsf)
{
    ON_HEAP(tlsf);
    return control != NULL && control->at.pools[0].reach != 0u ? &control->at.pools[0] : NULL;
}

tlsf_t tlsf_create_records(void *mem, size_t bytes, uint32_t records)
{
    uintptr_t address = (uintptr_t)mem + skipped(mem);
    struct control *control = (struct control *)address;
    struct places places;
    if (!tlsf_placed_places(address, bytes - skipped(mem), sizeof *control, records, UINTPTR_MAX,
                            &places)) {
        return NULL;
    }
    *control = (struct control){.at.owner = address + MAGIC, .records = records};
    if (tlsf_heap_create_in((void *)(uintptr_t)places.table, TLSF_HEAP_TABLE_BYTES(records),
                            records, &control->at.heap)
        == TLSF_OK) {
        void *rest = (void *)(uintptr_t)places.pool;
        control->mark = mark_of(control);
        if (places.bytes < LEAST_POOL
            || tlsf_add_pool(control, rest, (size_t)places.bytes) != NULL) {
            return control;
        }
    }
    tlsf_destroy(control);
    return NULL;
}

tlsf_t tlsf_create(void *mem) { return tlsf_create_records(mem, tlsf_size(), TLSF_RECORDS); }

/* Too few bytes for a heap without records ask for the most of them, and so are refused. */
tlsf_t tlsf_create_with_pool(void *mem, size_t bytes)
{
    size_t records = (bytes - tlsf_size_records(0)) / TLSF_BYTES_A_RECORD + 1u;
    records = records > TLSF_HEAP_RECORDS_MOST ? TLSF_HEAP_RECORDS_MOST : records;
    tlsf_t made = tlsf_create_records(mem, bytes, (uint32_t)records);
    return tlsf_get_pool(made) == NULL ? NULL : made;
}

/* All its memory was handed in: there is nothing to give back. */
void tlsf_destroy(tlsf_t tlsf)
{
    ON_HEAP(tlsf);
    if (control != NULL) {
        (void)memset(control, 0, sizeof *control);
    }
}

size_t tlsf_live_size(tlsf_t tlsf, const void *ptr)
{
    ON_HEAP(tlsf);
    uint64_t word = 0;
    bool has = control != NULL && read_front(control, ptr, &word);
    return has ? (size_t)tlsf_placed_block_size(&control->at, (uintptr_t)ptr, word) : 0u;
}

/* A freed block's front tells none. */
size_t tlsf_block_size(void *ptr)
{
    bool may = ptr != NULL && (uintptr_t)ptr % UNIT == 0u;
    return may ? (size_t)tlsf_placed_told_size((uintptr_t)ptr, front_of(ptr)) : 0u;
}

/* Counts what is refused, and tells it. */
static void *refuse(struct control *control, enum tlsf_refusal what, const void *ptr, size_t bytes)
{
    size_t at = offsetof(struct control, refusals);
    control->refusals[what]++;
    control->mark += times(at + (size_t)what * WORD);
    if (control->hook != NULL) {
        control->hook(what, ptr, bytes, control->user);
    }
    return NULL;
}

/* A pointer into no pool. A null pointer is none. */
RARE static void *refuse_pointer(struct control *control, const void *ptr, size_t bytes)
{
    return ptr == NULL ? NULL : refuse(control, TLSF_REFUSED_POINTER, ptr, bytes);
}

/* A pointer into a pool, by what stands in front of it. */
RARE static void *refuse_front(struct control *control, const void *ptr, size_t bytes)
{
    bool lost = tlsf_placed_lost_front((uintptr_t)ptr, front_of(ptr));
    return refuse(control, lost ? TLSF_REFUSED_FRONT : TLSF_REFUSED_POINTER, ptr, bytes);
}

/* A request, by the status of the proved call. One for 0 bytes is none. */
RARE static void *refuse_bytes(struct control *control, const void *ptr, uint64_t status,
                               size_t bytes)
{
    static const enum tlsf_refusal kinds[16] = {[TLSF_NO_FIT] = TLSF_REFUSED_NO_FIT,
                                                [TLSF_TABLE_FULL] = TLSF_REFUSED_TABLE_FULL,
                                                [TLSF_BAD_ALIGN] = TLSF_REFUSED_ALIGNMENT};
    return bytes == 0u ? NULL : refuse(control, kinds[status], ptr, bytes);
}

/* The pointer to a new block, or the refusal that its word tells. */
static inline void *hand_out(struct control *control, struct placed_block block, size_t bytes)
{
    if (block.address == 0u) {
        return refuse_bytes(control, NULL, block.word, bytes);
    }
    write_front((uintptr_t)block.address, block.word);
    return (void *)(uintptr_t)block.address;
}

void *tlsf_malloc(tlsf_t tlsf, size_t bytes)
{
    ON_HEAP(tlsf);
    return control == NULL ? NULL
                           : hand_out(control, tlsf_placed_malloc(&control->at, bytes), bytes);
}

void *tlsf_memalign(tlsf_t tlsf, size_t align, size_t bytes)
{
    if (align - 1u < UNIT && (align & (align - 1u)) == 0u) {
        return tlsf_malloc(tlsf, bytes);
    }
    ON_HEAP(tlsf);
    if (control == NULL) {
        return NULL;
    }
    if (align > TLSF_MOST_ALIGN) {
        return refuse_bytes(control, NULL, TLSF_BAD_ALIGN, bytes);
    }
    return hand_out(control, tlsf_placed_memalign(&control->at, align, bytes), bytes);
}

/* Frees the block of a pointer into a pool. */
static inline void free_block(struct control *control, void *ptr)
{
    if (tlsf_placed_free(&control->at, (uintptr_t)ptr, front_of(ptr)) == TLSF_OK) {
        write_front((uintptr_t)ptr, (uintptr_t)ptr);
    } else {
        (void)refuse_front(control, ptr, 0);
    }
}

/* The same where the pointer isn't into the first pool. */
RARE static void free_elsewhere(struct control *control, void *ptr)
{
    if (tlsf_placed_has(&control->at, (uintptr_t)ptr)) {
        free_block(control, ptr);
    } else {
        (void)refuse_pointer(control, ptr, 0);
    }
}

void tlsf_free(tlsf_t tlsf, void *ptr)
{
    ON_HEAP(tlsf);
    if (control == NULL) {
        return;
    }
    if (is_in_first(control, ptr)) {
        free_block(control, ptr);
    } else {
        free_elsewhere(control, ptr);
    }
}

/* Why a block isn't resized. One that is to have no bytes is freed, and that is none. */
RARE static void *refuse_realloc(struct control *control, void *ptr, uint64_t status, size_t size)
{
    if (ptr != NULL && size == 0u && (enum tlsf_status)status == TLSF_OK) {
        write_front((uintptr_t)ptr, (uintptr_t)ptr);
        return NULL;
    }
    return (enum tlsf_status)status == TLSF_BAD_POINTER ? refuse_front(control, ptr, size)
                                                        : refuse_bytes(control, ptr, status, size);
}

/* The heap gives the new block before the old one is free: so they don't overlap. No one gets the
 * old one's bytes before the next call. */
void *tlsf_realloc(tlsf_t tlsf, void *ptr, size_t size)
{
    ON_HEAP(tlsf);
    uint64_t word = 0;
    uint64_t copied = 0;
    if (control == NULL) {
        return NULL;
    }
    if (ptr != NULL && !read_front(control, ptr, &word)) {
        return refuse_pointer(control, ptr, size);
    }
    uint64_t address = tlsf_placed_realloc(&control->at, (uintptr_t)ptr, size, &word, &copied);
    if (address == 0u) {
        return refuse_realloc(control, ptr, word, size);
    }
    if (ptr != NULL) {
        write_front((uintptr_t)ptr, (uintptr_t)ptr);
    }
    write_front((uintptr_t)address, word);
    void *now = (void *)(uintptr_t)address;
    return copied == 0u ? now : memcpy(now, ptr, (size_t)copied);
}

void tlsf_set_refusal_hook(tlsf_t tlsf, tlsf_refusal_hook hook, void *user)
{
    ON_HEAP(tlsf);
    if (control != NULL) {
        control->hook = hook;
        control->user = user;
        control->mark = mark_of(control);
    }
}
