/* heaps.c: stretches of addresses, and the heaps, parts and blocks of pages in them. */
#include "heaps.h"

#include <string.h>
#include <sys/mman.h>

/* All stretches together have at most these addresses. Large pages begin at a multiple of
 * LARGE_PAGE. */
#define ADDRESSES ((size_t)1 << 40)
#define LARGE_PAGE ((size_t)1 << 21)
/* So much more is reserved, to begin at such a multiple. Bytes that are none are put right below
 * what was mapped before. Else there would be a gap, and the program's own next mapping in it, far
 * from its others. */
#define MORE (LARGE_PAGE + PAGE)
/* A smaller stretch is for fewer than so many heaps, but not below 2^23 bytes. */
enum { LEAST_SHIFT = 23, HEAPS_SURE = 256 };

struct heap heaps[STRETCHES_MOST];
struct reserved reserved;
struct lock layout;
unsigned heaps_used;
size_t blocks_of_pages, bytes_of_pages, most_bytes_of_pages;
unsigned general_heaps, most_general_heaps;
bool was_broken;

/* Blocks of pages are in the stretches from here on, at the end. */
static unsigned pages_from;
static unsigned locked, locked_from;

static size_t length_of_stretch(void) { return (size_t)1 << reserved.shift; }
static unsigned char *start_of(unsigned number)
{
    return reserved.base + ((size_t)number << reserved.shift);
}

/* While a thread forks it has the locks, and may still call: the program's own handlers of a fork
 * run between these two, and may ask for memory. A heap that they make isn't locked. */
void lock_all(void)
{
    hold_for_fork(&layout);
    locked = heaps_used;
    locked_from = pages_from > locked ? pages_from : locked;
    for (unsigned k = 0; k < reserved.stretches; k++) {
        if (k < locked || k >= locked_from) {
            hold_for_fork(&heaps[k].lock);
        }
    }
    begin_fork();
}

void unlock_all(void)
{
    end_fork();
    for (unsigned k = 0; k < reserved.stretches; k++) {
        if (k < locked || k >= locked_from) {
            leave_after_fork(&heaps[k].lock);
        }
    }
    leave_after_fork(&layout);
}

/* The bytes of a part with so many blocks. */
static size_t bytes_of_part(uint32_t largest, uint32_t blocks)
{
    tlsf_part told = {largest, blocks};
    return tlsf_parts_bytes(&told, 1);
}

/* Parts of a range have as many blocks as one can, and the last the others. */
static uint32_t blocks_of_part(const struct range *range, unsigned number)
{
    uint32_t most = most_blocks_of_part(range->largest);
    return number + 1 < range->parts ? most : range->blocks - most * (range->parts - 1);
}

static size_t bytes_of_general(void) { return tlsf_size_records(settings.records) + settings.pool; }

/* The least power of two that is enough for each heap and each part, and how many of them are
 * sure. */
static unsigned choose_length(void)
{
    size_t most = bytes_of_general();
    unsigned needed = 1;
    for (uint32_t k = 0; k < settings.count; k++) {
        size_t bytes =
            bytes_of_part(settings.ranges[k].largest, blocks_of_part(&settings.ranges[k], 0));
        most = bytes > most ? bytes : most;
        needed += settings.ranges[k].parts;
    }
    for (reserved.shift = 12; length_of_stretch() < most; reserved.shift++) {
    }
    return needed;
}

/* Where addresses are few, and no part or pool was told, heaps are smaller, so that there are
 * many. */
static void choose_pool(size_t bytes)
{
    bool is_told = settings.is_one_heap || settings.count > 0;
    while (!is_told && reserved.shift > LEAST_SHIFT && bytes >> reserved.shift < HEAPS_SURE) {
        reserved.shift--;
    }
    if (length_of_stretch() < bytes_of_general()) {
        settings.pool =
            length_of_stretch() - tlsf_size_records(settings.records) / UNIT * UNIT - UNIT;
    }
}

/* As many stretches as there may be, or half of these, and so on. Where the system hasn't addresses
 * for all, half of what it has is left to the program. */
static bool reserve(unsigned needed)
{
    size_t bytes = needed * length_of_stretch();
    size_t least = settings.is_one_heap || settings.count > 0 ? bytes : (size_t)1 << LEAST_SHIFT;
    while (!settings.is_one_heap && bytes * 2 <= ADDRESSES
           && bytes * 2 >> reserved.shift <= STRETCHES_MOST) {
        bytes *= 2;
    }
    size_t most = bytes;
    unsigned char *memory = MAP_FAILED;
    while (bytes >= least && memory == MAP_FAILED) {
        memory = mmap(NULL, bytes + MORE, PROT_NONE, MAP_PRIVATE | MAP_ANONYMOUS, -1, 0);
        bytes = memory == MAP_FAILED ? bytes / 2 : bytes;
    }
    if (memory == MAP_FAILED) {
        return false;
    }
    if (bytes < most && bytes / 2 >= least) {
        bytes /= 2;
        (void)munmap(memory + bytes + MORE, bytes);
    }
    choose_pool(bytes);
    /* One heap is asked for all. Else half of a pool is surely free in a new one, wherever it has
     * to begin. */
    settings.greatest = settings.is_one_heap ? SIZE_MAX : settings.pool / 2;
    reserved.base = memory + (-(uintptr_t)memory & (LARGE_PAGE - 1));
    reserved.stretches = (unsigned)(bytes >> reserved.shift);
    pages_from = reserved.stretches;
    return true;
}

/* Memory for a heap. Few large pages are found sooner than many small ones. A system without them
 * gives small ones. */
static void *memory_for(unsigned number, size_t bytes)
{
    void *memory = mmap(start_of(number), bytes, PROT_READ | PROT_WRITE,
                        MAP_PRIVATE | MAP_ANONYMOUS | MAP_NORESERVE | MAP_FIXED, -1, 0);
    if (memory == MAP_FAILED) {
        return NULL;
    }
    (void)madvise(memory, bytes, MADV_HUGEPAGE);
    return memory;
}

/* The addresses stay reserved, without memory. */
static void leave(unsigned number, size_t bytes)
{
    (void)mmap(start_of(number), bytes, PROT_NONE, MAP_PRIVATE | MAP_ANONYMOUS | MAP_FIXED, -1, 0);
}

static void use(unsigned number, enum use what)
{
    __atomic_store_n(&heaps[number].use, what, __ATOMIC_RELEASE);
    if (what == PAGES) {
        pages_from = number < pages_from ? number : pages_from;
    } else if ((what == GENERAL || what == PART) && number >= heaps_used) {
        __atomic_store_n(&heaps_used, number + 1, __ATOMIC_RELEASE);
    }
}

static void count_refusal(enum tlsf_refusal what, const void *ptr, size_t bytes, void *heap)
{
    (void)ptr;
    (void)bytes;
    ((struct heap *)heap)->refusals++;
    ((struct heap *)heap)->refused = what;
}

static bool make_part(struct range *range, unsigned at, unsigned number)
{
    tlsf_part told = {range->largest, blocks_of_part(range, number)};
    size_t bytes = tlsf_parts_bytes(&told, 1);
    void *memory = memory_for(at, bytes);
    tlsf_parts *part = memory == NULL ? NULL : tlsf_parts_create(memory, bytes, &told, 1);
    if (part == NULL) {
        return false;
    }
    tlsf_parts_set_refusal_hook(part, count_refusal, &heaps[at]);
    heaps[at].part = part;
    heaps[at].range = range;
    heaps[at].refused_from = SIZE_MAX;
    use(at, PART);
    return true;
}

/* The parts lie in the first stretches. */
static bool make_parts(void)
{
    unsigned at = 0;
    for (uint32_t k = 0; k < settings.count; k++) {
        settings.ranges[k].first = at;
        for (unsigned number = 0; number < settings.ranges[k].parts; number++) {
            if (!make_part(&settings.ranges[k], at++, number)) {
                return false;
            }
        }
    }
    return true;
}

bool reserve_heaps(void) { return reserve(choose_length()) && make_parts(); }

/* The first of `count` vacant stretches in a row, or STRETCHES_MOST: the lowest, or for pages the
 * highest. */
static unsigned vacant(unsigned count, bool is_high)
{
    unsigned row = 0;
    for (unsigned k = 0; k < reserved.stretches; k++) {
        unsigned number = is_high ? reserved.stretches - 1 - k : k;
        row = heaps[number].use == VACANT ? row + 1 : 0;
        if (row == count) {
            return is_high ? number : number + 1 - count;
        }
    }
    return STRETCHES_MOST;
}

unsigned make_general(void)
{
    unsigned number = settings.is_one_heap && general_heaps > 0 ? STRETCHES_MOST : vacant(1, false);
    size_t bytes = bytes_of_general();
    void *memory = number == STRETCHES_MOST ? NULL : memory_for(number, bytes);
    tlsf_t made = memory == NULL ? NULL : tlsf_create_records(memory, bytes, settings.records);
    if (made == NULL) {
        return STRETCHES_MOST;
    }
    struct heap *heap = &heaps[number];
    tlsf_set_refusal_hook(made, count_refusal, heap);
    struct seat *seat = lock_it(&heap->lock);
    heap->general = made;
    heap->live = 0;
    heap->was_full = false;
    heap->refused_from = SIZE_MAX;
    use(number, GENERAL);
    unlock_it(&heap->lock, seat);
    general_heaps++;
    most_general_heaps = general_heaps > most_general_heaps ? general_heaps : most_general_heaps;
    return number;
}

void give_back_if_empty(struct heap *heap)
{
    struct seat *of_layout = lock_it(&layout);
    struct seat *seat = lock_it(&heap->lock);
    if (heap->use == GENERAL && heap->live == 0 && general_heaps > 1) {
        tlsf_figures told = {0};
        was_broken = was_broken || (settings.reports && tlsf_check(heap->general) != 0);
        (void)tlsf_stats(heap->general, &told);
        heap->most_before =
            told.most_bytes_live > heap->most_before ? told.most_bytes_live : heap->most_before;
        use((unsigned)(heap - heaps), VACANT);
        leave((unsigned)(heap - heaps), bytes_of_general());
        general_heaps--;
    }
    unlock_it(&heap->lock, seat);
    unlock_it(&layout, of_layout);
}

/* Whole pages, and 0 for more than there are. */
static size_t whole_pages(size_t bytes, size_t more)
{
    bool fits = bytes < ADDRESSES && more < ADDRESSES;
    return fits ? (bytes + more + PAGE - 1) / PAGE * PAGE : 0;
}

/* So many bytes more are in blocks of pages, or fewer. */
static void count_pages(size_t more)
{
    size_t now = __atomic_add_fetch(&bytes_of_pages, more, __ATOMIC_RELAXED);
    most_bytes_of_pages = now > most_bytes_of_pages ? now : most_bytes_of_pages;
}

/* Marks the stretches as used by one block, whose pages can be read and written. */
static void *begin_pages(unsigned first, unsigned count, size_t align, size_t bytes)
{
    struct heap *heap = &heaps[first];
    uintptr_t start = (uintptr_t)start_of(first);
    if (mprotect((void *)start, bytes, PROT_READ | PROT_WRITE) != 0) {
        return NULL;
    }
    struct seat *seat = lock_it(&heap->lock);
    heap->pages = (void *)((start + align - 1) / align * align);
    heap->bytes = bytes;
    heap->stretches = count;
    for (unsigned k = count; k > 0; k--) {
        use(first + k - 1, k == 1 ? PAGES : BEHIND);
    }
    unlock_it(&heap->lock, seat);
    blocks_of_pages++;
    count_pages(bytes);
    return heap->pages;
}

void *take_pages(size_t align, size_t bytes)
{
    size_t whole = whole_pages(bytes, align > LARGE_PAGE ? align : 0);
    size_t count = (whole + length_of_stretch() - 1) >> reserved.shift;
    if (whole == 0 || count > reserved.stretches) {
        return NULL;
    }
    struct seat *of_layout = lock_it(&layout);
    unsigned first = vacant((unsigned)count, true);
    void *given =
        first == STRETCHES_MOST ? NULL : begin_pages(first, (unsigned)count, align, whole);
    unlock_it(&layout, of_layout);
    return given;
}

size_t room_of_pages(const struct heap *heap, const void *address)
{
    const unsigned char *start = start_of((unsigned)(heap - heaps));
    return heap->pages == address ? heap->bytes - (size_t)((const unsigned char *)address - start)
                                  : 0;
}

bool resize_pages(struct heap *heap, size_t bytes)
{
    unsigned char *start = start_of((unsigned)(heap - heaps));
    size_t whole = whole_pages(bytes, (size_t)((unsigned char *)heap->pages - start));
    bool fits = whole != 0 && whole <= heap->stretches * length_of_stretch()
                && (whole <= heap->bytes || mprotect(start, whole, PROT_READ | PROT_WRITE) == 0);
    if (fits && whole < heap->bytes) {
        (void)mmap(start + whole, heap->bytes - whole, PROT_NONE,
                   MAP_PRIVATE | MAP_ANONYMOUS | MAP_FIXED, -1, 0);
    }
    if (fits) {
        count_pages(whole - heap->bytes);
        heap->bytes = whole;
    }
    return fits;
}

bool free_pages(struct heap *heap, const void *address)
{
    unsigned first = (unsigned)(heap - heaps);
    struct seat *of_layout = lock_it(&layout);
    struct seat *seat = lock_it(&heap->lock);
    bool has = heap->use == PAGES && heap->pages == address;
    if (has) {
        for (unsigned k = 0; k < heap->stretches; k++) {
            use(first + k, VACANT);
        }
        leave(first, heap->bytes);
        count_pages(-heap->bytes);
        blocks_of_pages--;
        heap->pages = NULL;
    }
    unlock_it(&heap->lock, seat);
    unlock_it(&layout, of_layout);
    return has;
}
