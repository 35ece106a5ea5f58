/* tlsf_front.h: how tlsf.c brings a pointer back to its block. It is what tlsf.c, tlsf_check.c and
 * tlsf_image.c share, and is for no program. Not proved.
 *
 * A block begins eight bytes in front of its pointer. These bytes, its front, keep a word that the
 * proved calls give: the block's slot and size, scrambled with the pointer. So a byte that is
 * changed there shows, and a copy elsewhere.
 */
#ifndef TLSF_FRONT_H
#define TLSF_FRONT_H

#include "tlsf.h"
#include "tlsf_heap.h"

/* A build for several threads defines both macros, for all three files. Each call has the lock of
 * its heap to its end. The macros get the call's first argument: a heap, a null pointer, or what
 * the program takes for a heap. */
#ifdef TLSF_LOCK
static void unlock(const tlsf_t *tlsf) { TLSF_UNLOCK(*tlsf); }
#define LOCKED(tlsf) \
    TLSF_LOCK(tlsf); \
    __attribute__((cleanup(unlock))) const tlsf_t locked = (tlsf)
/* What the files share has another name, so that they don't link with one that has no lock. */
#define mark_of tlsf_mark_with_lock
#define lost_fronts tlsf_lost_fronts_with_lock
#else
#define LOCKED(tlsf) (void)(tlsf)
#define mark_of tlsf_mark
#define lost_fronts tlsf_lost_fronts
#endif

/* A call on a heap: with its lock, and its control part, or a null pointer where there is none. */
#define ON_HEAP(tlsf) \
    LOCKED(tlsf); \
    struct control *control = control_of(tlsf)

/* A function that few calls come to: the others don't save registers for it. */
#define RARE __attribute__((noinline))

#define UNIT TLSF_HEAP_UNIT
#define POOLS TLSF_HEAP_POOLS
#define FRONT 8u

/* What a heap and a pool begin at a multiple of, and how far behind the memory handed in that may
 * be. As for Conte's library such memory begins at a multiple of a pointer's size. */
#define HANDED_IN 8u
#define MOST_SKIPPED (HANDED_IN - sizeof(void *))

/* What the control part begins with, less its own address: so a copy is no heap. */
#define MAGIC 0x544c5346u

/* A pool: its first address, how far behind it another may be, the first place, and which of the
 * heap's it is. One that isn't there has no reach. */
struct pool {
    uint64_t first;
    uint64_t reach;
    uint32_t place;
    uint32_t number;
    struct control *control TLSF_HEAP_POINTER;
};

/* What is live: the bytes of the blocks behind their fronts, the most that there were, how many
 * blocks there are, and the most once more: 32 bits tell it. */
struct live {
    uint64_t bytes;
    uint64_t most_bytes;
    uint32_t blocks;
    uint32_t most_again;
};

/* What is free: the bytes of the free blocks, with their fronts; for how many bytes
 * tlsf_placed_malloc surely finds a block; and how many no free block exceeds behind its front. The
 * last two are of one class, and 0 where no block is free. */
struct free_figures {
    uint64_t bytes;
    uint64_t largest_request;
    uint64_t largest_free;
};

/* A heap whose pools have addresses. It begins with a word that no call changes, a new heap, and
 * zeros. Then pools come and go, and blocks are asked for and freed, by the calls below alone: what
 * is proved of them rests on that. */
struct placed {
    uint64_t owner;
    tlsf_heap heap;
    struct pool pools[POOLS];
    struct live live;
};

/* A block of a pool: its address, the bytes behind its front, and whether it is live. */
struct row {
    uint64_t address;
    uint32_t bytes;
    bool used;
};

/* A block that a call gives: its address, and the word of its front. Where the call is refused the
 * address is 0, and the word is the status. */
struct placed_block {
    uint64_t address;
    uint64_t word;
};

/* Where the table of a heap lies, and its first pool, with the bytes that are left for it. */
struct places {
    uint64_t table;
    uint64_t pool;
    uint64_t bytes;
};

/* The proved calls. Addresses and words are numbers here. The word of a block is what stands in the
 * eight bytes in front of its address.
 *
 * tlsf_placed_malloc answers a live block, whose address is a multiple of 16. tlsf_placed_memalign
 * does the same, and the address is a multiple of `align`. tlsf_placed_free answers 0 exactly where
 * the block at the address is live and has this word, and TLSF_BAD_POINTER else.
 * tlsf_placed_block_size answers the bytes behind the front of that block, and 0 where there is
 * none. tlsf_placed_realloc gives it room for `bytes` bytes, and answers its address then, with the
 * word in *word. It copies no byte: *copied is how many the program copies there. Where it is
 * refused it answers 0, and *word is the status. As C's realloc it gives a new block at the address
 * 0, where *word is no input, and frees the block that is to have no bytes: it answers 0, and *word
 * is the status. tlsf_placed_has answers whether the address lies in a pool with the eight bytes in
 * front of it. tlsf_placed_told_size answers the bytes behind the front that a word tells, and 0
 * where it is no word for this address. tlsf_placed_add_pool adds a pool of all whole units in
 * `bytes` bytes of memory, and gives *entry the number of its entry. The pool's places and
 * addresses are equal modulo `align`. It refuses a pool that overlaps another, or for which no
 * places are left.
 *
 * tlsf_placed_walk puts the rows of an entry's pool from the address *from on, as many as have
 * room, and answers how many. *from gets where the next piece begins. tlsf_placed_check answers
 * whether the table is whole, and so many blocks are live, with so many bytes behind their fronts.
 * tlsf_placed_has_pool answers whether a pool of the heap has this place and so many bytes.
 * tlsf_placed_free_figures puts what is free into *figures, by at most 2 touches.
 * tlsf_placed_places tells where table and first pool lie in memory with a control part of `part`
 * bytes, and answers whether there is room, and tlsf_placed_is_apart whether memory is none of such
 * a heap's. No address is above `last`. tlsf_placed_sure_bytes answers the bytes of memory in which
 * a heap with such a control part refuses no program that keeps to these numbers, and 0 where there
 * are none. tlsf_placed_lost_front answers whether a word in front of an address is neither a
 * block's, nor of a freed one, nor zeros.
 *
 * tlsf_placed_adopt is for a loaded heap whose entries may be anything. It answers whether they are
 * those of its pools, and then the figures of live blocks are set: from then on it is a heap as
 * above. Before, tlsf_placed_move gives an entry's pool memory, and answers whether it has room.
 * tlsf_placed_moved_front is told a row of a pool that began at the address `from`, and begins at
 * `to`. *word is what stood in front of the row's address, and gets what stands there now. The call
 * answers whether that is the word of a live block with the row's bytes. */
struct placed_block tlsf_placed_malloc(struct placed *heap, uint64_t bytes);
struct placed_block tlsf_placed_memalign(struct placed *heap, uint64_t align, uint64_t bytes);
enum tlsf_status tlsf_placed_free(struct placed *heap, uint64_t address, uint64_t word);
uint64_t tlsf_placed_block_size(struct placed *heap, uint64_t address, uint64_t word);
uint64_t tlsf_placed_realloc(struct placed *heap, uint64_t address, uint64_t bytes, uint64_t *word,
                             uint64_t *copied);
bool tlsf_placed_has(const struct placed *heap, uint64_t address);
uint64_t tlsf_placed_told_size(uint64_t address, uint64_t word);
enum tlsf_status tlsf_placed_add_pool(struct placed *heap, uint64_t memory, uint64_t bytes,
                                      uint64_t align, uint32_t *entry);
enum tlsf_status tlsf_placed_remove_pool(struct placed *heap, uint32_t entry);
uint64_t tlsf_placed_walk(const struct placed *heap, uint32_t entry, uint64_t *from,
                          struct row *rows, size_t room);
bool tlsf_placed_check(const struct placed *heap, uint64_t blocks, uint64_t bytes);
bool tlsf_placed_has_pool(const struct placed *heap, uint32_t place, uint64_t bytes);
void tlsf_placed_free_figures(const struct placed *heap, struct free_figures *figures);
bool tlsf_placed_places(uint64_t memory, uint64_t bytes, uint32_t part, uint32_t records,
                        uint64_t last, struct places *places);
bool tlsf_placed_is_apart(uint64_t own, uint32_t part, uint32_t records, uint64_t memory,
                          uint64_t bytes, uint64_t last);
uint64_t tlsf_placed_sure_bytes(uint32_t part, uint32_t blocks, uint64_t bytes, uint64_t largest);
bool tlsf_placed_lost_front(uint64_t address, uint64_t word);
bool tlsf_placed_adopt(struct placed *heap);
bool tlsf_placed_move(struct placed *heap, uint32_t entry, uint64_t memory, uint64_t bytes,
                      uint64_t last);
bool tlsf_placed_moved_front(const struct placed *heap, const struct row *row, uint64_t from,
                             uint64_t to, uint64_t *word);

/* What stands at the start of the memory handed in, in front of the table. It begins with its
 * owner: MAGIC and its own address. */
struct control {
    struct placed at;
    size_t refusals[TLSF_REFUSALS];
    tlsf_refusal_hook hook;
    void *user;
    size_t records;
    uint64_t mark; /* a sum over all in front of it but at.live */
};

typedef char control_is_told[sizeof(struct control) == TLSF_CONTROL_BYTES ? 1 : -1];

/* Eight bytes are copied by __builtin_memcpy: a load and a store, also where -ffreestanding takes
 * the compiler's own memcpy away. */

/* A heap, where the program has one there; else null. */
static inline struct control *control_of(void *tlsf)
{
    uint64_t owner = 0;
    if (tlsf != NULL) {
        (void)__builtin_memcpy(&owner, tlsf, sizeof owner);
    }
    return owner == (uintptr_t)tlsf + MAGIC ? (struct control *)tlsf : NULL;
}

/* The word of a live block is written in front of its pointer, and a freed block's pointer itself:
 * it tells no size. */
static inline void write_front(uintptr_t address, uint64_t word)
{
    (void)__builtin_memcpy((unsigned char *)address - FRONT, &word, FRONT);
}

static inline uint64_t front_of(const void *ptr)
{
    uint64_t word = 0;
    (void)__builtin_memcpy(&word, (const unsigned char *)ptr - FRONT, FRONT);
    return word;
}

static inline bool is_in_first(const struct control *control, const void *ptr)
{
    return (uintptr_t)ptr - control->at.pools[0].first < control->at.pools[0].reach;
}

/* Whether a pointer lies in a pool of the heap: then the word in front of it. Whether that is the
 * word of a live block is the proved calls' to say. */
static inline bool read_front(const struct control *control, const void *ptr, uint64_t *word)
{
    bool has = is_in_first(control, ptr) || tlsf_placed_has(&control->at, (uintptr_t)ptr);
    *word = has ? front_of(ptr) : 0u;
    return has;
}

/* How many bytes of memory handed in are skipped. Fewer bytes than these, less these, are more than
 * there are addresses, and so are refused. */
static inline size_t skipped(const void *mem) { return -(uintptr_t)mem & MOST_SKIPPED; }

/* Whether these bytes are none of the heap's own. */
static inline bool is_apart(const struct control *control, uint64_t address, uint64_t bytes)
{
    return tlsf_placed_is_apart((uintptr_t)control, sizeof *control, (uint32_t)control->records,
                                address, bytes, UINTPTR_MAX);
}

/* The mark that a whole control part has: a sum of the number of records, and of the words in front
 * of it, but for the live figures. */
uint64_t mark_of(const struct control *control);

/* How many live blocks of an entry's pool have a front that isn't what it was where the pool began
 * at an address. The others get the word of where it begins now, if that is asked for. *out, where
 * it isn't null, gets the first that has not. */
int lost_fronts(struct control *control, uint32_t entry, uint64_t began, bool moves,
                tlsf_fault *out);

#endif
