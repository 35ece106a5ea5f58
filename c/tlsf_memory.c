/* tlsf_memory.c: the memory of a heap's table, from malloc or from the program. Not proved.
 *
 * The proved library asks for memory by rattle_alloc, and gives it back by rattle_dealloc. While
 * tlsf_heap_create_in or tlsf_heap_load_in is under way in this thread, rattle_alloc takes from the
 * memory handed in; else from malloc. Sixteen bytes in front of each piece keep what free is to
 * get: a null pointer where malloc didn't give it.
 *
 * For programs without a C library: with TLSF_HEAP_NO_MALLOC defined nothing comes from malloc;
 * with TLSF_HEAP_NO_THREADS a plain variable holds what is handed in.
 */
#include "tlsf_heap.h"

#ifdef TLSF_HEAP_NO_MALLOC
#define malloc(bytes) NULL
#define free(memory) (void)(memory)
#else
#include <stdlib.h>
#endif

#ifdef TLSF_HEAP_NO_THREADS
#define OF_THREAD
#else
#define OF_THREAD __thread
#endif

#define UNIT TLSF_HEAP_UNIT

/* Whether a call over memory handed in is under way, and what is left of that memory. */
static OF_THREAD struct handed {
    bool is;
    unsigned char *at;
    size_t left;
} handed;

struct rattle_tried rattle_alloc(size_t bytes, size_t align)
{
    static unsigned char nothing;
    size_t whole = UNIT + (bytes + UNIT - 1u) / UNIT * UNIT;
    bool fits = align <= 2u * sizeof(void *) && whole >= bytes;
    void *at = !fits ? NULL : !handed.is ? malloc(whole) : whole <= handed.left ? handed.at : NULL;
    if (at == NULL) {
        return (struct rattle_tried){false, &nothing};
    }
    if (handed.is) {
        handed.at += whole;
        handed.left -= whole;
    }
    *(void **)at = handed.is ? NULL : at;
    return (struct rattle_tried){true, (unsigned char *)at + UNIT};
}

void rattle_dealloc(unsigned char *p) { free(*(void **)(void *)(p - UNIT)); }

/* Begins a call over this memory. None of it is taken where it begins at no multiple of 16. */
static void hand_in(void *memory, size_t bytes)
{
    bool good = memory != NULL && (uintptr_t)memory % UNIT == 0u;
    handed = (struct handed){true, (unsigned char *)memory, good ? bytes : 0u};
}

/* Ends it. Where memory was refused, what was handed in was too little. */
static enum tlsf_status hand_back(enum tlsf_status status)
{
    handed.is = false;
    return status == TLSF_OUT_OF_MEMORY ? TLSF_BAD_MEMORY : status;
}

enum tlsf_status tlsf_heap_create_in(void *memory, size_t bytes, uint32_t records, tlsf_heap *out)
{
    hand_in(memory, bytes);
    return hand_back(tlsf_heap_create(records, out));
}

enum tlsf_status tlsf_heap_load_in(void *memory, size_t bytes, const unsigned char *image,
                                   size_t length, tlsf_heap *out)
{
    hand_in(memory, bytes);
    return hand_back(tlsf_heap_load(image, length, out));
}
