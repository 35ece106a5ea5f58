/* libc_malloc.c: the malloc of newlib or of picolibc over tlsf.h, for a board. Not proved.
 *
 * It is compiled by the C library's own headers, and linked in front of libtlsf.a. So printf and
 * C++'s new take the heap, too. For newlib it has _malloc_r and the calls like it, which newlib's
 * malloc calls. For picolibc it has malloc and the others themselves. In both it has aligned_alloc.
 * The build tells the heap's memory in one of two ways:
 *
 * - TLSF_LIBC_BYTES: the bytes of an array.
 * - TLSF_LIBC_BEGIN, TLSF_LIBC_END: symbols of the linker. For picolibc they are __heap_start and
 *   __heap_end by default.
 *
 * Several threads, or a handler of an interrupt, want a lock. Newlib's __malloc_lock and
 * __malloc_unlock stand around each call here, so the program, or its kernel's port, has these two.
 * For picolibc tlsf.h's files are built with TLSF_LOCK and TLSF_UNLOCK (docs/C.md, "Threads"). A
 * request for 0 bytes gets a block. One that is refused answers a null pointer, with ENOMEM in
 * errno, or EINVAL where the alignment is no power of two.
 */
#include <errno.h>
#include <malloc.h>
#include <stdint.h>
#include <stdlib.h>
#include <string.h>

#include "tlsf.h"

#ifdef TLSF_LIBC_BYTES
static unsigned char memory[TLSF_LIBC_BYTES] __attribute__((aligned(16)));
#define BEGIN ((uintptr_t)memory)
#define END (BEGIN + sizeof memory)
#else
#if defined(__PICOLIBC__) && !defined(TLSF_LIBC_BEGIN)
#define TLSF_LIBC_BEGIN __heap_start
#define TLSF_LIBC_END __heap_end
#endif
#if !defined(TLSF_LIBC_BEGIN) || !defined(TLSF_LIBC_END)
#error "TLSF_LIBC_BYTES tells the heap's bytes, or TLSF_LIBC_BEGIN and TLSF_LIBC_END where it lies"
#endif
extern unsigned char TLSF_LIBC_BEGIN[], TLSF_LIBC_END[];
#define BEGIN ((uintptr_t)TLSF_LIBC_BEGIN)
#define END ((uintptr_t)TLSF_LIBC_END)
#endif

/* What newlib's calls are told is where errno is; picolibc's are told nothing. */
struct _reent;
#ifdef __PICOLIBC__
#define CALL(name, ...) name(__VA_ARGS__)
#define REENT NULL
#define ERRNO(reent) errno
#define LOCK(reent) (void)(reent)
#define UNLOCK(reent) (void)(reent)
#else
#include <reent.h>
#define CALL(name, ...) _##name##_r(struct _reent *reent, __VA_ARGS__)
#define REENT reent
#define ERRNO(reent) __errno_r(reent)
#define LOCK(reent) __malloc_lock(reent)
#define UNLOCK(reent) __malloc_unlock(reent)
void __malloc_lock(struct _reent *reent);
void __malloc_unlock(struct _reent *reent);
#endif

/* Blocks begin at a multiple of it. */
enum { UNIT = 16 };

/* The heap, which the first call makes. A null pointer where its memory is too small for one. A
 * program that asks tlsf.h for figures, or for a check, declares this function. */
tlsf_t tlsf_libc_heap(void);
tlsf_t tlsf_libc_heap(void)
{
    static tlsf_t heap;
    if (heap == NULL) {
        heap = tlsf_create_with_pool((void *)BEGIN, END - BEGIN);
    }
    return heap;
}

#ifdef __PICOLIBC__
/* Making the heap takes no lock, so it is there before threads begin. */
__attribute__((constructor)) static void make(void) { (void)tlsf_libc_heap(); }
#endif

/* Without an address: a new block, of one byte at least. With one: room for the bytes in its block,
 * which is given back for no bytes. */
static void *serve(struct _reent *reent, void *address, size_t align, size_t bytes)
{
    size_t wanted = address == NULL && bytes == 0 ? 1 : bytes;
    LOCK(reent);
    tlsf_t heap = tlsf_libc_heap();
    void *given =
        address == NULL ? tlsf_memalign(heap, align, wanted) : tlsf_realloc(heap, address, wanted);
    UNLOCK(reent);
    if (given == NULL && wanted != 0) {
        ERRNO(reent) = align == 0 || (align & (align - 1)) != 0 ? EINVAL : ENOMEM;
    }
    return given;
}

void *CALL(malloc, size_t bytes) { return serve(REENT, NULL, UNIT, bytes); }
void *CALL(memalign, size_t align, size_t bytes) { return serve(REENT, NULL, align, bytes); }
void *CALL(realloc, void *address, size_t bytes) { return serve(REENT, address, UNIT, bytes); }

void CALL(free, void *address)
{
    if (address != NULL) {
        (void)serve(REENT, address, UNIT, 0);
    }
}

/* A product above SIZE_MAX is SIZE_MAX, which is refused. */
void *CALL(calloc, size_t count, size_t bytes)
{
    size_t all = bytes != 0 && count > SIZE_MAX / bytes ? SIZE_MAX : count * bytes;
    void *address = serve(REENT, NULL, UNIT, all);
    return address == NULL ? NULL : memset(address, 0, all);
}

size_t CALL(malloc_usable_size, void *address)
{
    (void)REENT;
    return tlsf_block_size(address);
}

/* Newlib's own asks for a posix_memalign, which some versions lack. */
void *aligned_alloc(size_t align, size_t bytes) { return memalign(align, bytes); }
