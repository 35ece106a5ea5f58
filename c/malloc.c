/* malloc.c: a malloc over the calls of tlsf.c. Preloaded, as libtlsf_malloc.so, it stands in for
 * that of the C library: LD_PRELOAD=.../libtlsf_malloc.so program. Not proved; the heaps are.
 *
 * It has as many heaps as the program needs, each with a pool of 536,870,912 bytes and 65,535
 * records, by malloc/heaps.c. A request above half of a pool gets pages of the system. A thread
 * asks the heap that served it last. Where that refuses, the others are asked, but for those that
 * refused so many bytes since a block was given back. Then there is one heap more.
 *
 * Where the environment has TLSF_POOL or TLSF_RECORDS there is one heap: TLSF_POOL is the bytes of
 * its pool, at most 1,073,741,808, and TLSF_RECORDS its records, from 1 to 65,535. With TLSF_PARTS
 * it serves from parts of tlsf_parts.h first: TLSF_PARTS=64:2130,2048:41 is 2,130 blocks of at most
 * 64 bytes, and 41 of at most 2,048. What its part has no block for, the heaps serve: it is
 * spilled. With TLSF_REPORT=1 each process writes a line on standard error at its end, behind one
 * for each part; and at once one of the first request that is refused.
 *
 * A call is one of a proved heap, under that heap's lock. Locks are held over a fork. The proof is
 * about a heap that one thread calls; here each thread calls it, under the lock. A call that no
 * heap serves gives a null pointer, and ENOMEM. A lock leans to the thread that has it most
 * (malloc/lock.h): for that thread it is a store, and no atomic operation. Freed blocks that a
 * thread keeps in front of its heap, as glibc's do, would save more. There are none: a call they
 * serve is none of a proved heap.
 */
#include "malloc/blocks.h"
#include "malloc/report.h"

#include <errno.h>
#include <fcntl.h>
#include <string.h>
#include <unistd.h>

#define EXPORT __attribute__((visibility("default")))

static pthread_once_t once = PTHREAD_ONCE_INIT;
static bool is_made;
static int report_to = -1;
/* Requests and pointers. */
static size_t refused;

static void make(void)
{
    const char *asked = getenv("TLSF_REPORT");
    bool reports = asked != NULL && strcmp(asked, "1") == 0;
    read_settings();
    count_processors();
    begin_locks();
    if (!reserve_heaps() || (settings.count == 0 && make_general() == STRETCHES_MOST)) {
        say(STDERR_FILENO, "there is no memory for the pool and the table: each call is refused\n");
        return;
    }
    /* A program may close its own before it ends. */
    report_to = reports ? fcntl(STDERR_FILENO, F_DUPFD_CLOEXEC, 100) : -1;
    if (reports && report_to < 0) {
        say(STDERR_FILENO, "no report at the end: no descriptor from 100 on\n");
    }
    settings.reports = report_to >= 0;
    pthread_atfork(lock_all, unlock_all, unlock_all);
    __atomic_store_n(&is_made, true, __ATOMIC_RELEASE);
}

__attribute__((noinline)) static void begin_once(void)
{
    int before = errno;
    pthread_once(&once, make);
    errno = before;
}

/* The first call of all makes the heap. */
static inline void begin(void)
{
    if (__builtin_expect(!__atomic_load_n(&is_made, __ATOMIC_ACQUIRE), false)) {
        begin_once();
    }
}

/* The first request that is refused is told where a report is asked for: the program may end by
 * it. */
static void tell_refusal(size_t bytes)
{
    static bool told;
    if (report_to >= 0 && !__atomic_exchange_n(&told, true, __ATOMIC_RELAXED)) {
        say(report_to, "a request of %zu bytes is the first that is refused\n", bytes);
    }
}

static void count_refused(void) { (void)__atomic_add_fetch(&refused, 1, __ATOMIC_RELAXED); }

__attribute__((noinline)) static void *refuse(size_t bytes)
{
    count_refused();
    tell_refusal(bytes);
    errno = ENOMEM;
    return NULL;
}

/* A block has one byte at least. */
static inline void *serve(size_t bytes)
{
    size_t wanted = bytes + (bytes == 0);
    begin();
    void *given = allocate(wanted);
    return given != NULL ? given : refuse(wanted);
}

static void *serve_at(size_t align, size_t bytes)
{
    size_t wanted = bytes + (bytes == 0);
    begin();
    void *given = allocate_at(align, wanted);
    return given != NULL ? given : refuse(wanted);
}

EXPORT void *malloc(size_t bytes) { return serve(bytes); }
EXPORT void *valloc(size_t bytes) { return serve_at(PAGE, bytes); }

EXPORT void free(void *address)
{
    begin();
    if (address != NULL && !release(address)) {
        count_refused();
    }
}

/* No bytes give the block back. */
static void *serve_again(void *address, size_t bytes)
{
    if (address == NULL) {
        return serve(bytes);
    }
    if (bytes == 0) {
        free(address);
        return NULL;
    }
    begin();
    void *given = resize(address, bytes);
    return given != NULL ? given : refuse(bytes);
}

EXPORT void *realloc(void *address, size_t bytes) { return serve_again(address, bytes); }

/* A product above SIZE_MAX is SIZE_MAX, which is refused. */
static size_t product(size_t count, size_t size)
{
    return size != 0 && count > SIZE_MAX / size ? SIZE_MAX : count * size;
}

EXPORT void *calloc(size_t count, size_t size)
{
    void *address = serve(product(count, size));
    return address == NULL ? NULL : memset(address, 0, count * size);
}

EXPORT void *reallocarray(void *address, size_t count, size_t size)
{
    return serve_again(address, product(count, size));
}

EXPORT void *pvalloc(size_t bytes)
{
    return serve_at(PAGE, product(bytes / PAGE + (bytes % PAGE != 0), PAGE));
}

EXPORT void *memalign(size_t align, size_t bytes)
{
    bool good = align != 0 && (align & (align - 1)) == 0;
    errno = good ? errno : EINVAL;
    return good ? serve_at(align, bytes) : NULL;
}

EXPORT void *aligned_alloc(size_t align, size_t bytes) { return memalign(align, bytes); }

EXPORT int posix_memalign(void **out, size_t align, size_t bytes)
{
    int before = errno;
    void *address = memalign(align % sizeof address == 0 ? align : 0, bytes);
    int why = address == NULL ? errno : 0;
    errno = before;
    if (address != NULL) {
        *out = address;
    }
    return why;
}

EXPORT size_t malloc_usable_size(void *address)
{
    begin();
    return room_of(address);
}

/* At the end of the program. */
__attribute__((destructor)) static void end(void)
{
    if (report_to >= 0) {
        report(report_to, refused);
    }
}
