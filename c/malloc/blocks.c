/* blocks.c: which heap, part or pages a block is taken from, and how it goes back. */
#include "blocks.h"

#include <errno.h>
#include <sched.h>
#include <string.h>

/* Threads have up to so many heaps a processor. */
enum { HEAPS_A_PROCESSOR = 4 };

size_t spilled_above;

/* The heap that served the thread last, or a null pointer. */
static __thread struct heap *home;
static unsigned heaps_of_threads;

void count_processors(void)
{
    cpu_set_t processors;
    bool told = sched_getaffinity(0, sizeof processors, &processors) == 0;
    heaps_of_threads = HEAPS_A_PROCESSOR * (told ? (unsigned)CPU_COUNT(&processors) : 1);
}

static unsigned used(void) { return __atomic_load_n(&heaps_used, __ATOMIC_ACQUIRE); }

/* The bytes that a heap looks for. */
static size_t wanted_for(size_t align, size_t bytes)
{
    size_t more = align > UNIT ? align - UNIT : 0;
    return bytes > SIZE_MAX - more ? SIZE_MAX : bytes + more;
}

/* A heap that refused isn't asked for as much until it gets a block back: where its table is full,
 * for nothing. */
__attribute__((noinline)) static void note_full(struct heap *heap, size_t wanted)
{
    size_t from = heap->refused == TLSF_REFUSED_TABLE_FULL ? 0 : wanted;
    heap->was_full = true;
    heap->refused_from = from < heap->refused_from ? from : heap->refused_from;
}

/* Asks a heap of tlsf.h. */
static inline void *ask(struct heap *heap, size_t align, size_t bytes)
{
    void *given = NULL;
    struct seat *seat = lock_it(&heap->lock);
    if (heap->use == GENERAL) {
        given = align == UNIT ? tlsf_malloc(heap->general, bytes)
                              : tlsf_memalign(heap->general, align, bytes);
        heap->live += given != NULL;
        if (given == NULL) {
            note_full(heap, wanted_for(align, bytes));
        }
    }
    unlock_it(&heap->lock, seat);
    return given;
}

/* Whether another heap may serve so many bytes: it is one, and has refused none or more. */
static bool may_serve(const struct heap *heap, size_t wanted)
{
    return __atomic_load_n(&heap->use, __ATOMIC_RELAXED) == GENERAL
           && wanted < __atomic_load_n(&heap->refused_from, __ATOMIC_RELAXED);
}

/* Gives a thread the next heap of those of threads, or makes it. */
static void find_home(void)
{
    static unsigned threads;
    unsigned seen = 0;
    unsigned last = STRETCHES_MOST;
    struct seat *of_layout = lock_it(&layout);
    unsigned turn = threads++ % heaps_of_threads;
    for (unsigned k = 0; k < heaps_used && seen <= turn; k++) {
        last = heaps[k].use == GENERAL ? k : last;
        seen += heaps[k].use == GENERAL;
    }
    unsigned made = seen <= turn ? make_general() : STRETCHES_MOST;
    unlock_it(&layout, of_layout);
    last = made == STRETCHES_MOST ? last : made;
    home = last == STRETCHES_MOST ? NULL : &heaps[last];
}

/* A heap that serves becomes the thread's. */
static void *ask_another(struct heap *heap, size_t align, size_t bytes)
{
    void *given = ask(heap, align, bytes);
    home = given == NULL ? home : heap;
    return given;
}

static void *from_new(size_t align, size_t bytes)
{
    struct seat *of_layout = lock_it(&layout);
    unsigned made = make_general();
    unlock_it(&layout, of_layout);
    return made == STRETCHES_MOST ? NULL : ask_another(&heaps[made], align, bytes);
}

/* A block of a heap that isn't the thread's, of one that is made, or of pages. */
__attribute__((noinline)) static void *from_others(size_t align, size_t bytes)
{
    size_t wanted = wanted_for(align, bytes);
    void *given = NULL;
    if (wanted > settings.greatest) {
        return take_pages(align, bytes);
    }
    if (home == NULL) {
        find_home();
        given = home == NULL ? NULL : ask(home, align, bytes);
    }
    for (unsigned k = 0; given == NULL && k < used(); k++) {
        if (&heaps[k] != home && may_serve(&heaps[k], wanted)) {
            given = ask_another(&heaps[k], align, bytes);
        }
    }
    return given != NULL ? given : from_new(align, bytes);
}

/* A block of the thread's heap, or of another. */
static inline void *from_heaps(size_t align, size_t bytes)
{
    bool may = home != NULL && wanted_for(align, bytes) <= settings.greatest;
    void *given = may ? ask(home, align, bytes) : NULL;
    return given != NULL ? given : from_others(align, bytes);
}

/* The first range whose size is enough, or none. */
static struct range *range_for(size_t bytes)
{
    uint32_t k = 0;
    while (k < settings.count && settings.ranges[k].largest < bytes) {
        k++;
    }
    return k < settings.count ? &settings.ranges[k] : NULL;
}

static void count_live(struct range *range)
{
    size_t now = __atomic_add_fetch(&range->live, 1, __ATOMIC_RELAXED);
    size_t most = __atomic_load_n(&range->most_live, __ATOMIC_RELAXED);
    while (now > most
           && !__atomic_compare_exchange_n(&range->most_live, &most, now, true, __ATOMIC_RELAXED,
                                           __ATOMIC_RELAXED)) {
    }
}

/* Asks a part. A full one isn't asked again until it gets a block back. */
static void *ask_part(struct heap *heap, size_t align, size_t bytes)
{
    struct seat *seat = lock_it(&heap->lock);
    void *given = tlsf_parts_aligned_alloc(heap->part, align, bytes);
    heap->live += given != NULL;
    heap->refused_from = given == NULL ? 0 : heap->refused_from;
    unlock_it(&heap->lock, seat);
    return given;
}

/* A block of a range's parts, the one that served last first. A full one is passed over. */
static void *from_range(struct range *range, size_t align, size_t bytes)
{
    unsigned last = __atomic_load_n(&range->served_last, __ATOMIC_RELAXED);
    for (unsigned k = 0; k < range->parts; k++) {
        unsigned number = (last + k) % range->parts;
        struct heap *heap = &heaps[range->first + number];
        bool is_full = __atomic_load_n(&heap->refused_from, __ATOMIC_RELAXED) == 0;
        void *given = is_full ? NULL : ask_part(heap, align, bytes);
        if (given != NULL) {
            __atomic_store_n(&range->served_last, number, __ATOMIC_RELAXED);
            count_live(range);
            return given;
        }
    }
    return NULL;
}

/* A block of the parts, or else one that is spilled. */
static void *from_parts(size_t align, size_t bytes)
{
    struct range *range = range_for(wanted_for(align, bytes));
    void *given = range == NULL ? NULL : from_range(range, align, bytes);
    if (given != NULL) {
        return given;
    }
    given = from_heaps(align, bytes);
    if (given != NULL) {
        __atomic_add_fetch(range == NULL ? &spilled_above : &range->spilled, 1, __ATOMIC_RELAXED);
    }
    return given;
}

void *allocate(size_t bytes)
{
    return settings.count > 0 ? from_parts(UNIT, bytes) : from_heaps(UNIT, bytes);
}

void *allocate_at(size_t align, size_t bytes)
{
    return settings.count > 0 ? from_parts(align, bytes) : from_heaps(align, bytes);
}

/* Under the heap's lock: counts that a block was given back, and answers whether one was. */
static inline bool count_freed(struct heap *heap, size_t refusals_before)
{
    bool is_freed = refusals_before == heap->refusals;
    heap->live -= is_freed;
    heap->refused_from = is_freed ? SIZE_MAX : heap->refused_from;
    return is_freed;
}

/* What asks the system leaves errno, as a free has to. */
__attribute__((noinline)) static bool release_pages(struct heap *heap, const void *address)
{
    int before = errno;
    bool is_freed = free_pages(heap, address);
    errno = before;
    return is_freed;
}

__attribute__((noinline)) static void release_heap(struct heap *heap)
{
    int before = errno;
    give_back_if_empty(heap);
    errno = before;
}

/* The same in a part, or of pages. */
__attribute__((noinline)) static bool release_other(struct heap *heap, void *address)
{
    struct seat *seat = lock_it(&heap->lock);
    bool is_pages = heap->use == PAGES;
    bool is_freed = false;
    if (heap->use == PART) {
        size_t before = heap->refusals;
        tlsf_parts_free(heap->part, address);
        is_freed = count_freed(heap, before);
        __atomic_sub_fetch(&heap->range->live, is_freed, __ATOMIC_RELAXED);
    }
    unlock_it(&heap->lock, seat);
    return is_pages ? release_pages(heap, address) : is_freed;
}

/* A heap of tlsf.h that was full and is empty gives its memory back, but the thread's own. */
static bool release_in(struct heap *heap, void *address)
{
    struct seat *seat = lock_it(&heap->lock);
    if (__builtin_expect(heap->use != GENERAL, false)) {
        unlock_it(&heap->lock, seat);
        return release_other(heap, address);
    }
    size_t before = heap->refusals;
    tlsf_free(heap->general, address);
    bool is_freed = count_freed(heap, before);
    bool is_left = heap->live == 0 && heap->was_full && is_freed;
    unlock_it(&heap->lock, seat);
    if (__builtin_expect(is_left, false) && home != heap) {
        release_heap(heap);
    }
    return is_freed;
}

bool release(void *address)
{
    struct heap *heap = heap_at(address);
    return heap != NULL && release_in(heap, address);
}

/* Under the heap's lock: the bytes of a live block, else 0. */
static size_t room_in(struct heap *heap, const void *address)
{
    switch (heap->use) {
    case GENERAL: return tlsf_live_size(heap->general, address);
    case PART: return tlsf_parts_live_size(heap->part, address);
    case PAGES: return room_of_pages(heap, address);
    default: return 0;
    }
}

/* Under the heap's lock: room for so many bytes in the same heap, or a null pointer. Where no live
 * block begins at the address it is refused. */
static void *resize_in(struct heap *heap, void *address, size_t bytes)
{
    if (heap->use == GENERAL) {
        void *now = tlsf_realloc(heap->general, address, bytes);
        heap->refused_from = now == NULL ? heap->refused_from : SIZE_MAX;
        return now;
    }
    if (heap->use == PART) {
        return range_for(bytes) == heap->range ? tlsf_parts_realloc(heap->part, address, bytes)
                                               : NULL;
    }
    return room_in(heap, address) != 0 && resize_pages(heap, bytes) ? address : NULL;
}

void *resize(void *address, size_t bytes)
{
    struct heap *heap = heap_at(address);
    if (heap == NULL) {
        return NULL;
    }
    struct seat *seat = lock_it(&heap->lock);
    void *now = resize_in(heap, address, bytes);
    size_t room = now == NULL ? room_in(heap, address) : 0;
    unlock_it(&heap->lock, seat);
    if (room == 0) {
        return now;
    }
    now = allocate(bytes);
    if (now != NULL) {
        (void)memcpy(now, address, room < bytes ? room : bytes);
        (void)release(address);
    }
    return now;
}

size_t room_of(const void *address)
{
    struct heap *heap = heap_at(address);
    if (heap == NULL) {
        return 0;
    }
    struct seat *seat = lock_it(&heap->lock);
    size_t room = room_in(heap, address);
    unlock_it(&heap->lock, seat);
    return room;
}
