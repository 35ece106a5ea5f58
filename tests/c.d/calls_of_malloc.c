/* Each call of malloc's family, for a program on libtlsf_malloc.so: what it answers, errno,
 * threads, and forks while threads ask. With the word `refused` pointers that are no live block's
 * are freed, which the C library's own malloc wouldn't bear. With `served` it writes how many times
 * one byte is served, with `usable` how many bytes four blocks have. With `refused_twice` two
 * requests are refused. With `hold` it ends with blocks held; with `spoil_front` or `spoil_table`
 * with bytes changed that aren't its own. With `locks` it asks while another thread has the lock.
 * With `many` it holds 2^24 blocks, with `again` many twice, with `large` blocks above a pool. With
 * `apart` threads have heaps of their own. With `handed` threads free, resize and ask about each
 * other's blocks, now and then. With `alone` there are no threads and no forks. */
#define _GNU_SOURCE
#include <errno.h>
#include <malloc.h>
#include <pthread.h>
#include <stdint.h>
#include <stdlib.h>
#include <string.h>
#include <sys/wait.h>
#include <unistd.h>

#include "cases.h"

enum { THREADS = 4, FORKS = 100, STEPS = 2000, HELD = 64 };

static bool holds(const unsigned char *bytes, size_t count, unsigned char value)
{
    for (size_t k = 0; k < count; k++) {
        if (bytes[k] != value) {
            return false;
        }
    }
    return true;
}

static bool is_at(const void *address, size_t align)
{
    return address != NULL && (uintptr_t)address % align == 0;
}

/* More than any block has; the compiler isn't to know. */
/* After so many seconds a program is ended that waits for ever. QEMU is slow where threads
 * contend. */
#ifdef __aarch64__
enum { SECONDS = 480 };
#else
enum { SECONDS = 60 };
#endif
static volatile size_t huge = (size_t)1 << 40, half = (size_t)1 << 63, zero = 0;

static void plain(void)
{
    unsigned char *none = malloc(zero), *other = malloc(zero);
    expect(none != NULL && other != NULL && none != other,
           "malloc of no bytes: an address of its own");
    free(none);
    free(other);
    free(NULL);
    bool aligned = true;
    for (size_t bytes = 1; bytes < 100; bytes++) {
        unsigned char *block = malloc(bytes);
        aligned = aligned && is_at(block, 16) && malloc_usable_size(block) >= bytes;
        memset(block, 1, bytes);
        free(block);
    }
    expect(aligned && malloc_usable_size(NULL) == 0, "malloc: a multiple of 16, with room");
    errno = 0;
    expect(malloc(huge) == NULL && errno == ENOMEM, "malloc of too much: ENOMEM");
    unsigned char *dirty = malloc(3000);
    memset(dirty, 0xff, 3000);
    free(dirty);
    unsigned char *zeros = calloc(30, 100);
    expect(zeros != NULL && holds(zeros, 3000, 0), "calloc: zeros, where bytes were");
    free(zeros);
    errno = 0;
    expect(calloc(half, 4) == NULL && errno == ENOMEM,
           "calloc of a product that is too much: ENOMEM");
    errno = 0;
    expect(calloc(huge, 1) == NULL && errno == ENOMEM, "calloc of too much: ENOMEM");
    bool overflows = true;
    for (size_t more = 1; more <= 100; more++) {
        errno = 0;
        overflows = overflows && calloc(half + more, 2) == NULL && errno == ENOMEM;
        errno = 0;
        overflows = overflows && calloc(2, half + more) == NULL && errno == ENOMEM;
    }
    expect(overflows, "calloc of a product that is 2 to 200 modulo 2^64: ENOMEM");
}

/* What is served leaves errno as it was. */
static void served_errno(void)
{
    void *given[8], *out = NULL;
    errno = EDOM;
    given[0] = malloc(100);
    given[1] = calloc(10, 10);
    given[2] = realloc(malloc(10), 5000);
    given[3] = memalign(64, 100);
    given[4] = valloc(100);
    given[5] = pvalloc(100);
    given[6] = calloc(zero, 10);
    given[7] = calloc(10, zero);
    bool all = posix_memalign(&out, 64, 100) == 0 && malloc_usable_size(out) >= 100;
    for (int k = 0; k < 8; k++) {
        all = all && given[k] != NULL;
        free(given[k]);
    }
    free(out);
    expect(all && errno == EDOM, "what is served leaves errno");
}

/* Blocks at a page, held beside small ones: none is there by luck. */
static void pages(void)
{
    void *held[3 * HELD];
    bool each = true;
    for (unsigned k = 0; k < HELD; k++) {
        held[3 * k] = malloc(16 * (k % 50) + 1);
        held[3 * k + 1] = valloc(100 + k);
        held[3 * k + 2] = pvalloc(100 + k);
        each = each && is_at(held[3 * k + 1], 4096) && is_at(held[3 * k + 2], 4096);
    }
    for (unsigned k = 0; k < 3 * HELD; k++) {
        free(held[k]);
    }
    expect(each, "128 blocks by valloc and pvalloc at multiples of 4,096");
}

/* All of the room that malloc_usable_size tells is the block's own. */
static void rooms(void)
{
    unsigned char *blocks[HELD];
    bool own = true;
    for (unsigned k = 0; k < HELD; k++) {
        blocks[k] = k % 4 == 3 ? memalign(64, k) : malloc(3 * k);
        memset(blocks[k], (int)k, malloc_usable_size(blocks[k]));
    }
    for (unsigned k = 0; k < HELD; k++) {
        own = own && holds(blocks[k], malloc_usable_size(blocks[k]), (unsigned char)k);
    }
    for (unsigned k = 0; k < HELD; k++) {
        free(blocks[k]);
    }
    expect(own, "malloc_usable_size: bytes of the block's own");
}

static void moves(void)
{
    unsigned char *block = realloc(NULL, 10);
    size_t room = malloc_usable_size(block);
    expect(room >= 10, "realloc of a null pointer: a malloc");
    memset(block, 7, room);
    unsigned char *behind = malloc(1);
    unsigned char *volatile more = realloc(block, 5000);
    expect(more != NULL && more != block && holds(more, room, 7),
           "realloc that moves: all bytes that there was room for");
    errno = 0;
    expect(realloc(more, huge) == NULL && errno == ENOMEM && holds(more, room, 7),
           "realloc of too much: ENOMEM, and the block stays");
    errno = 0;
    expect(reallocarray(more, half, 4) == NULL && errno == ENOMEM && holds(more, room, 7),
           "reallocarray of a product that is too much: ENOMEM, and the block stays");
    unsigned char *array = reallocarray(more, 100, 100);
    expect(array != NULL && malloc_usable_size(array) >= 10000 && holds(array, room, 7),
           "reallocarray");
    unsigned char *less = realloc(array, 5);
    expect(less != NULL && holds(less, 5, 7), "realloc to fewer bytes");
    expect(realloc(less, zero) == NULL, "realloc to no bytes: a free");
    free(behind);
    unsigned char *at = memalign(4096, 100);
    memset(at, 9, 100);
    unsigned char *grown = realloc(at, 100000);
    expect(grown != NULL && holds(grown, 100, 9), "realloc of an aligned block: its bytes");
    free(grown);
}

static void aligned(void)
{
    bool memaligns = true, posix = true, allocs = true;
    for (size_t align = 1; align <= (size_t)1 << 24; align *= 2) {
        unsigned char *one = memalign(align, 100), *other = aligned_alloc(align, 2 * align);
        void *third = NULL;
        memaligns = memaligns && is_at(one, align) && is_at(one, 16);
        allocs = allocs && is_at(other, align);
        if (align >= sizeof(void *)) {
            posix = posix && posix_memalign(&third, align, 50) == 0 && is_at(third, align);
            memset(third, 3, 50);
        }
        memset(one, 1, 100);
        memset(other, 2, 2 * align);
        memaligns = memaligns && holds(one, 100, 1) && malloc_usable_size(one) >= 100;
        free(one);
        free(other);
        free(third);
    }
    void *odd = aligned_alloc(64, 100), *one = pvalloc(1), *whole = pvalloc(4096);
    expect(is_at(odd, 64) && malloc_usable_size(odd) >= 100,
           "aligned_alloc of bytes that are no multiple of the alignment");
    expect(is_at(one, 4096) && malloc_usable_size(one) >= 4096 && malloc_usable_size(one) < 8192
               && is_at(whole, 4096) && malloc_usable_size(whole) >= 4096
               && malloc_usable_size(whole) < 8192,
           "pvalloc of 1 and of 4,096: one page");
    free(odd);
    free(one);
    free(whole);
    expect(memaligns, "memalign at each power of two up to 2^24");
    expect(allocs, "aligned_alloc at each power of two up to 2^24");
    expect(posix, "posix_memalign at each power of two up to 2^24");
    void *out = &out;
    expect(posix_memalign(&out, 24, 10) == EINVAL && posix_memalign(&out, 4, 10) == EINVAL
               && posix_memalign(&out, zero, 10) == EINVAL,
           "posix_memalign at no power of two, or a small one: EINVAL");
    expect(posix_memalign(&out, 64, huge) == ENOMEM && out == &out,
           "posix_memalign of too much: ENOMEM, and out stays");
    errno = 0;
    expect(memalign(64, huge) == NULL && errno == ENOMEM, "memalign of too much: ENOMEM");
    errno = 0;
    expect(valloc(huge) == NULL && errno == ENOMEM, "valloc of too much: ENOMEM");
    errno = 0;
    expect(pvalloc(huge) == NULL && errno == ENOMEM, "pvalloc of too much: ENOMEM");
    void *page = valloc(10), *pages = pvalloc(10);
    expect(is_at(page, 4096) && is_at(pages, 4096) && malloc_usable_size(pages) >= 4096,
           "valloc and pvalloc");
    free(page);
    free(pages);
    page = valloc(5000);
    pages = pvalloc(4097);
    expect(is_at(page, 4096) && malloc_usable_size(page) >= 5000, "valloc of 5,000: all its bytes");
    expect(is_at(pages, 4096) && malloc_usable_size(pages) >= 8192, "pvalloc of 4,097: two pages");
    memset(page, 1, 5000);
    memset(pages, 2, 8192);
    expect(holds(page, 5000, 1) && holds(pages, 8192, 2), "their bytes are their own");
    free(page);
    free(pages);
}

/* ---- threads, and forks ---- */

static volatile bool stop;

/* Holds blocks full of a byte of its own. Null where one was another's. */
static void *ask(void *name)
{
    unsigned char *held[HELD] = {0}, byte = (unsigned char)(uintptr_t)name;
    size_t sizes[HELD] = {0};
    unsigned state = byte;
    bool good = true;
    for (unsigned step = 0; step < STEPS || (!stop && byte != 0); step++) {
        state = state * 1664525u + 1013904223u;
        unsigned k = (state >> 8) % HELD;
        good = good && holds(held[k], sizes[k], byte);
        sizes[k] = (state >> 16) % 500;
        unsigned char *block = state % 3 ? realloc(held[k], sizes[k] + 1) : malloc(sizes[k] + 1);
        if (state % 3 == 0) {
            free(held[k]);
        }
        held[k] = block;
        good = good && block != NULL;
        memset(block, byte, sizes[k]);
    }
    for (unsigned k = 0; k < HELD; k++) {
        free(held[k]);
    }
    return good ? name : NULL;
}

/* Handlers of a program that ask for memory themselves, registered before the first malloc. */
static void *of_handlers;

static void handler(void)
{
    free(of_handlers);
    of_handlers = malloc(100);
}

/* A thread that asks for a block's size while another forks, and so has the lock. */
static void *volatile sized;
static volatile bool is_forking, is_answered, is_early;

static void *ask_for_size(void *block)
{
    while (!is_forking) {
        usleep(1000);
    }
    size_t room = malloc_usable_size(block);
    is_answered = true;
    return room >= 100 ? block : NULL;
}

/* Before a fork: what runs here has the lock of the malloc, which was registered later. */
static void prepare(void)
{
    handler();
    if (sized != NULL) {
        is_forking = true;
        usleep(300000);
        is_early = is_answered;
    }
}

__attribute__((constructor)) static void with_handlers(void)
{
    pthread_atfork(prepare, handler, handler);
}

static void locks(void)
{
    void *block = malloc(100), *answer = NULL;
    pthread_t thread;
    int status = 1;
    pthread_create(&thread, NULL, ask_for_size, block);
    sized = block;
    pid_t child = fork();
    if (child == 0) {
        _exit(0);
    }
    sized = NULL;
    pthread_join(thread, &answer);
    expect(child > 0 && waitpid(child, &status, 0) == child && status == 0 && answer == block,
           "malloc_usable_size in a thread while another forks");
    expect(!is_early, "it waits at the lock");
    free(block);
}

/* A child of this process forks, and so does its child: each of the three is served. */
static bool forks_again(int generations)
{
    int status = 1;
    char *text = malloc(1000);
    strcpy(text, "a child's");
    text = realloc(text, 100000);
    bool right = strcmp(text, "a child's") == 0;
    free(text);
    if (generations == 0) {
        return right;
    }
    pid_t child = fork();
    if (child == 0) {
        alarm(SECONDS / 3);
        _exit(forks_again(generations - 1) ? 0 : 1);
    }
    return right && child > 0 && waitpid(child, &status, 0) == child && status == 0;
}

static void forks(void)
{
    pthread_t threads[THREADS];
    bool good = true, served = true;
    for (uintptr_t k = 0; k < THREADS; k++) {
        pthread_create(&threads[k], NULL, ask, (void *)(k + 1));
    }
    for (unsigned k = 0; k < FORKS; k++) {
        int status = 1;
        pid_t child = fork();
        if (child == 0) {
            alarm(SECONDS / 3);
            _exit(forks_again(k % 10 == 0 ? 2 : 0) ? 0 : 1);
        }
        good = good && child > 0 && waitpid(child, &status, 0) == child && status == 0;
    }
    stop = true;
    for (unsigned k = 0; k < THREADS; k++) {
        void *answer = NULL;
        pthread_join(threads[k], &answer);
        served = served && answer != NULL;
    }
    expect(good,
           "a hundred children of a process whose threads ask are served, and children of theirs");
    expect(served, "each thread's bytes stay its own");
}

/* What is no live block's is refused, and changes nothing. */
static void refused(void)
{
    unsigned char outside[64] = {0};
    unsigned char *one = malloc(100), *other = malloc(100), *volatile stale = malloc(100);
    memset(one, 1, 100);
    memset(other, 2, 100);
    free(stale);
    free(stale);
    unsigned char *volatile inside = one + 16;
    unsigned char *volatile odd = one + 1;
    unsigned char *volatile foreign = outside + 32;
    free(inside);
    free(odd);
    free(foreign);
    for (int far = 0; far < 2; far++) {
        void *volatile unmapped = (void *)(far ? UINTPTR_MAX - 15 : 16);
        free(unmapped);
    }
    void *volatile nowhere = (void *)16;
    bool none = malloc_usable_size(nowhere) == 0 && malloc_usable_size(inside) == 0
                && malloc_usable_size(stale) == 0;
    expect(
        none,
        "malloc_usable_size of what is no live block's: 0, and nothing is read where no memory is");
    expect(realloc(foreign, 10) == NULL && malloc_usable_size(foreign) == 0,
           "realloc of another's address: a null pointer");
    unsigned char *third = malloc(100);
    expect(third != one && third != other && holds(one, 100, 1) && holds(other, 100, 2),
           "a second free, and one of an address that was never given, change nothing");
    free(one);
    free(other);
    free(third);
}

/* Two blocks are left, of 72 and 8 bytes. The most were two of 104 and 56. */
static void hold(void)
{
    void *volatile one = malloc(100), *volatile other = malloc(50), *volatile third;
    free(one);
    other = realloc(other, 70);
    third = memalign(64, 5);
    (void)third;
}

/* Ends with a byte spoiled in front of a block, or with bytes of the table. That stands behind the
 * control part, which begins with its own address and 0x544c5346. The pages are one mapping. */
static void spoil(bool table)
{
    unsigned char *volatile block = malloc(100);
    uintptr_t *at = (uintptr_t *)((uintptr_t)block / 4096 * 4096);
    while (table && *at != (uintptr_t)at + 0x544c5346) {
        at -= 4096 / sizeof *at;
    }
    if (table) {
        memset((unsigned char *)at + 512, 0xff, 256);
    } else {
        block[-1] ^= 1;
    }
}

/* A block of each of four threads, while all of them run. */
static pthread_barrier_t all_asked;

static void *ask_once(void *none)
{
    (void)none;
    void *block = malloc(100);
    pthread_barrier_wait(&all_asked);
    return block;
}

/* Each block is in a pool of its own, of 2^29 bytes: so no thread waits for another. */
static void apart(void)
{
    pthread_t threads[THREADS];
    void *blocks[THREADS];
    bool is_apart = true;
    pthread_barrier_init(&all_asked, NULL, THREADS);
    for (unsigned k = 0; k < THREADS; k++) {
        pthread_create(&threads[k], NULL, ask_once, NULL);
    }
    for (unsigned k = 0; k < THREADS; k++) {
        pthread_join(threads[k], &blocks[k]);
        for (unsigned other = 0; other < k; other++) {
            uintptr_t one = (uintptr_t)blocks[k], two = (uintptr_t)blocks[other];
            is_apart = is_apart && (one > two ? one - two : two - one) >= (uintptr_t)1 << 29;
        }
    }
    expect(is_apart, "four threads have heaps of their own");
    bool good = true;
    for (unsigned k = 0; k < THREADS; k++) {
        good = good && malloc_usable_size(blocks[k]) >= 100;
        blocks[k] = realloc(blocks[k], 5000);
        good = good && malloc_usable_size(blocks[k]) >= 5000;
        free(blocks[k]);
        good = good && malloc_usable_size(blocks[k]) == 0;
    }
    expect(good, "another thread resizes their blocks, and gives them back");
}

/* Blocks that a thread hands to whoever comes. Between two of them each works in its own heap, so
 * often that the heap's lock leans to it, and the next hand takes that away. */
enum { HANDED = 8, HANDS = 10000, BETWEEN_HANDS = 150 };
static unsigned char *handed_over[HANDED];

static unsigned char *filled(unsigned char *block, size_t bytes)
{
    return block == NULL ? NULL : memset(block, (int)(bytes & 0xff), bytes);
}

/* Puts a block where another's was, and looks at that. Of each three one is resized. */
static bool hand_over(unsigned turn)
{
    size_t bytes = 16 + turn % 200, had = 0;
    unsigned char *block = filled(malloc(bytes + 1), bytes);
    unsigned char *other =
        __atomic_exchange_n(&handed_over[turn % HANDED], block, __ATOMIC_ACQ_REL);
    if (other == NULL) {
        return block != NULL;
    }
    had = *other;
    bool good =
        block != NULL && malloc_usable_size(other) > had && holds(other, had, (unsigned char)had);
    if (turn % 3 == 0) {
        other = realloc(other, 3 * had);
        good = good && other != NULL && holds(other, had, (unsigned char)had);
    }
    free(other);
    return good;
}

static void *hand(void *name)
{
    unsigned char *held[HELD] = {0};
    unsigned state = (unsigned)(uintptr_t)name;
    bool good = true;
    for (unsigned turn = 0; turn < HANDS; turn++) {
        for (unsigned step = 0; step < BETWEEN_HANDS; step++) {
            state = state * 1664525u + 1013904223u;
            unsigned k = (state >> 8) % HELD;
            good = good && (held[k] == NULL || holds(held[k], *held[k], *held[k]));
            free(held[k]);
            held[k] = filled(malloc(200), 1 + (state >> 16) % 100);
        }
        good = hand_over(turn + state % 7) && good;
    }
    for (unsigned k = 0; k < HELD; k++) {
        free(held[k]);
    }
    return good ? name : NULL;
}

static void handed(void)
{
    pthread_t threads[THREADS];
    bool good = true;
    for (uintptr_t k = 0; k < THREADS; k++) {
        pthread_create(&threads[k], NULL, hand, (void *)(k + 1));
    }
    for (unsigned k = 0; k < THREADS; k++) {
        void *answer = NULL;
        pthread_join(threads[k], &answer);
        good = good && answer != NULL;
    }
    for (unsigned k = 0; k < HANDED; k++) {
        free(handed_over[k]);
    }
    expect(good,
           "threads free, resize and ask about each other's blocks, and each keeps its bytes");
}

static unsigned served(size_t bytes)
{
    unsigned times = 0;
    for (void *volatile block = malloc(bytes); block != NULL; block = malloc(bytes)) {
        times++;
    }
    return times;
}

/* The bytes of three blocks, and of one that begins behind the start of its part's block. */
static void usable(void)
{
    void *plain = malloc(1), *more = malloc(65), *most = malloc(1000),
         *aligned = memalign(512, 100);
    size_t step = (512 - (uintptr_t)aligned % 512) % 512;
    printf("%zu %zu %zu %zu\n", malloc_usable_size(plain), malloc_usable_size(more),
           malloc_usable_size(most), step);
    printf("%d\n", malloc_usable_size(aligned) >= 100
                       && malloc_usable_size(aligned) <= malloc_usable_size(most));
}

/* Blocks that each keep their number, in a list that doesn't come from the malloc. */
enum { MANY = 1 << 24, FEWER = 1 << 20 };
static unsigned *list[MANY];

static bool asks_for(unsigned count, unsigned step)
{
    bool good = true;
    for (unsigned k = 0; good && k < count; k += step) {
        list[k] = malloc(sizeof k + k % 9);
        good = is_at(list[k], 16);
        if (good) {
            *list[k] = k;
        }
    }
    return good;
}

static bool frees(unsigned count, unsigned step)
{
    bool good = true;
    for (unsigned k = 0; k < count; k += step) {
        good = good && *list[k] == k && malloc_usable_size(list[k]) >= sizeof k;
        free(list[k]);
        list[k] = NULL;
    }
    return good;
}

static void many(void)
{
    expect(asks_for(MANY, 1), "2^24 blocks are served");
    expect(frees(MANY, 1), "each has its own bytes");
}

/* The pages that the process has in memory. */
static long resident(void)
{
    long all = 0, in_memory = 0;
    FILE *told = fopen("/proc/self/statm", "r");
    bool good = told != NULL && fscanf(told, "%ld %ld", &all, &in_memory) == 2;
    if (told != NULL) {
        fclose(told);
    }
    return good ? in_memory : 0;
}

/* What other heaps are left with serves again. Empty heaps give their memory back. */
static void again(void)
{
    long before = resident();
    bool good = asks_for(FEWER, 1);
    long held = resident();
    for (unsigned turn = 0; good && turn < 3; turn++) {
        good = frees(FEWER, 3) && asks_for(FEWER, 3);
    }
    long later = resident();
    expect(good && later - held < (held - before) / 4,
           "a third of 2^20 blocks is freed and asked for three times, in the same memory");
    unsigned *moved = realloc(list[5], 3000);
    expect(moved != NULL && *moved == 5, "a block of a full heap moves to another");
    list[5] = moved;
    void *volatile stale = list[6];
    free(list[6]);
    free(stale);
    list[6] = malloc(4);
    *list[6] = 6;
    expect(frees(FEWER, 1), "each has its own bytes");
    void *volatile gone = moved;
    free(gone);
    expect(malloc_usable_size(gone) == 0, "a pointer into a heap that is gone is refused");
    expect(resident() - before < (held - before) / 4, "empty heaps give their memory back");
}

/* Blocks of 600,000,000 bytes and more. */
static void large(void)
{
    enum { BYTES = 600000000, FAR = 2000000000 };
    unsigned char *one = calloc(1, BYTES), *other = memalign(1 << 24, BYTES), *small = malloc(5);
    expect(is_at(one, 16) && is_at(other, 1 << 24) && holds(one, 1000, 0)
               && malloc_usable_size(one) >= BYTES,
           "blocks of 600,000,000 bytes are served");
    memset(one, 1, 1000);
    one[BYTES - 1] = 2;
    other[BYTES - 1] = 3;
    unsigned char *more = realloc(one, FAR);
    more[FAR - 1] = 4;
    expect(holds(more, 1000, 1) && more[BYTES - 1] == 2 && other[BYTES - 1] == 3,
           "one grows to 2,000,000,000, with its bytes");
    unsigned char *volatile inside = more + 4096;
    free(inside);
    unsigned char *less = realloc(more, 700000000);
    unsigned char *least = realloc(less, 100);
    expect(holds(least, 100, 1) && malloc_usable_size(inside) == 0,
           "it shrinks again, and a pointer into it is refused");
    free(other);
    void *volatile stale = other;
    free(stale);
    bool again = malloc_usable_size(stale) == 0;
    for (int turn = 0; again && turn < 3000; turn++) {
        void *volatile next = malloc(BYTES);
        again = next != NULL;
        free(next);
    }
    expect(again, "what is freed is refused, and its addresses serve again, 3,000 times");
    free(least);
    free(small);
}

int main(int count, char **words)
{
    alarm(SECONDS);
    if (count > 1
        && (strcmp(words[1], "many") == 0 || strcmp(words[1], "again") == 0
            || strcmp(words[1], "large") == 0)) {
        *words[1] == 'm' ? many() : *words[1] == 'a' ? again() : large();
        return cases_end();
    }
    if (count > 1 && strcmp(words[1], "hold") == 0) {
        hold();
        return 0;
    }
    if (count > 1 && strcmp(words[1], "served") == 0) {
        printf("%u\n", served(1));
        return 0;
    }
    if (count > 1 && strcmp(words[1], "refused_twice") == 0) {
        void *volatile again = NULL;
        served(100);
        again = malloc(200);
        return again != NULL;
    }
    if (count > 1 && strcmp(words[1], "usable") == 0) {
        usable();
        return 0;
    }
    if (count > 1 && strncmp(words[1], "spoil", 5) == 0) {
        spoil(strcmp(words[1], "spoil_table") == 0);
        return 0;
    }
    if (count > 1 && strcmp(words[1], "refused") == 0) {
        refused();
        return cases_end();
    }
    if (count > 1 && strcmp(words[1], "handed") == 0) {
        handed();
        return cases_end();
    }
    if (count > 1 && strcmp(words[1], "apart") == 0) {
        apart();
        return cases_end();
    }
    if (count > 1 && strcmp(words[1], "locks") == 0) {
        locks();
        return cases_end();
    }
    plain();
    served_errno();
    pages();
    rooms();
    moves();
    aligned();
    if (count == 1) {
        forks();
    }
    return cases_end();
}
