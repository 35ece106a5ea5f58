/* ring.c: the log as a ring in memory, for a program that is followed for days (ring.h).
 *
 * Where the ring is full the process waits. Meanwhile handlers of signals don't run: one would find
 * its thread in the tracer, and might never come back. Other signals end the process as ever. Where
 * the follower is gone the process goes on without being traced.
 *
 * Behind a filter of system calls none is made: then the process waits in a loop, and the follower
 * looks by itself.
 */
#define _GNU_SOURCE
#include "ring.h"
#include "trace.h"

#include <errno.h>
#include <fcntl.h>
#include <linux/futex.h>
#include <pthread.h>
#include <signal.h>
#include <stdio.h>
#include <string.h>
#include <sys/mman.h>
#include <sys/resource.h>
#include <sys/syscall.h>
#include <time.h>
#include <unistd.h>

/* How long is waited before the follower is looked for, in nanoseconds; and after which part of the
 * ring it is woken. */
enum { LOOK_EACH = 200000000, WAKE_EACH = 8 };

/* The session stays mapped in a child of a fork. The ring doesn't: it is the parent's. */
static struct session *session;
static struct ring *ring;
static char *lines;
/* The bytes of the ring, and those written; how far the follower had read when that was looked at;
 * and where it is woken next. */
static size_t bytes, written, read_then, wake_at;

bool ring_is_on(void) { return ring != NULL; }

static void wake(uint32_t *word)
{
    int code = errno;
    __atomic_add_fetch(word, 1, __ATOMIC_RELEASE);
    syscall(SYS_futex, word, FUTEX_WAKE, 1, NULL, NULL, 0);
    errno = code;
}

/* Whether the follower is gone, which the kernel writes into the session. */
static bool is_alone(void)
{
    return (__atomic_load_n(&session->owner, __ATOMIC_ACQUIRE) & OWNER_DIED) != 0;
}

static bool is_given_up(void)
{
    return __atomic_load_n(&ring->is_dropped, __ATOMIC_ACQUIRE) != 0 || is_alone();
}

/* ---- where it is full */

/* The signals that have a handler. */
static void handled_signals(sigset_t *handled)
{
    sigemptyset(handled);
    for (int number = 1; number < NSIG; number++) {
        struct sigaction action;
        if (sigaction(number, NULL, &action) == 0 && action.sa_handler != SIG_DFL
            && action.sa_handler != SIG_IGN) {
            sigaddset(handled, number);
        }
    }
}

static bool has_room(size_t length)
{
    read_then = __atomic_load_n(&ring->read, __ATOMIC_SEQ_CST);
    return written + length - read_then <= bytes;
}

/* Waits until there is room, or the follower reads no more. */
static void sleep_for(size_t length)
{
    struct timespec most = {0, LOOK_EACH};
    while (!is_given_up()) {
        uint32_t seen = __atomic_load_n(&ring->room, __ATOMIC_ACQUIRE);
        __atomic_store_n(&ring->process_waits, 1, __ATOMIC_SEQ_CST);
        if (has_room(length)) {
            break;
        }
        wake(&ring->news);
        syscall(SYS_futex, &ring->room, FUTEX_WAIT, seen, &most, NULL, 0);
    }
    __atomic_store_n(&ring->process_waits, 0, __ATOMIC_RELAXED);
}

static bool wait_for_room(size_t length, bool may_call)
{
    int code = errno;
    sigset_t handled, before;
    while (!may_call && !has_room(length) && !is_given_up()) {
    }
    if (may_call) {
        handled_signals(&handled);
        pthread_sigmask(SIG_BLOCK, &handled, &before);
        sleep_for(length);
        pthread_sigmask(SIG_SETMASK, &before, NULL);
    }
    errno = code;
    return has_room(length) && !is_given_up();
}

bool ring_write(const char *text, size_t length, bool may_call)
{
    if (written + length - read_then > bytes && !wait_for_room(length, may_call)) {
        return false;
    }
    memcpy(lines + (written & (bytes - 1)), text, length);
    written += length;
    __atomic_store_n(&ring->written, written, __ATOMIC_RELEASE);
    if (written < wake_at) {
        return true;
    }
    wake_at = written + bytes / WAKE_EACH;
    if (may_call && __atomic_load_n(&ring->follower_waits, __ATOMIC_RELAXED) != 0) {
        wake(&ring->news);
    }
    return !is_given_up();
}

/* ---- begin and end */

static int open_file(const char *name, int flags)
{
    return (int)syscall(SYS_openat, AT_FDCWD, name, flags | O_CLOEXEC, 0600);
}

/* Maps a page of a file of the folder, or returns null. */
static void *map_file(const char *folder, int length, const char *name, int flags)
{
    char path[PATH_MOST];
    void *page = MAP_FAILED;
    int file = snprintf(path, sizeof path, "%.*s/%s", length, folder, name) < PATH_MOST
                   ? open_file(path, flags)
                   : -1;
    if (file >= 0) {
        page = mmap(NULL, PAGE, PROT_READ | PROT_WRITE, MAP_SHARED, file, 0);
        syscall(SYS_close, file);
    }
    return page == MAP_FAILED ? NULL : page;
}

bool ring_session(const char *name, bool is_late)
{
    const char *base = strrchr(name, '/');
    int length = base == NULL ? 0 : (int)(base - name);
    if (is_late && session != NULL) {
        munmap(session, PAGE);
        session = NULL;
    }
    if (session == NULL && (session = map_file(name, length, "session", O_RDWR)) != NULL
        && !is_late) {
        char here[32];
        snprintf(here, sizeof here, "%u.here",
                 __atomic_fetch_add(&session->programs, 1, __ATOMIC_RELAXED));
        map_file(name, length, here, O_RDWR | O_CREAT | O_EXCL);
    }
    return session != NULL && !is_alone();
}

unsigned ring_number(void) { return __atomic_fetch_add(&session->rings, 1, __ATOMIC_RELAXED); }

/* Memory is promised for the whole file, where the process may make one as long. */
static bool promise(int file, size_t length)
{
    struct rlimit limit;
    bool may = getrlimit(RLIMIT_FSIZE, &limit) == 0
               && (limit.rlim_cur == RLIM_INFINITY || limit.rlim_cur >= length);
    return may && syscall(SYS_fallocate, file, 0, 0L, (long)length) == 0;
}

/* Maps the head, and the lines twice. */
static bool map(int file)
{
    int access = PROT_READ | PROT_WRITE;
    char *memory = mmap(NULL, PAGE + 2 * bytes, access, MAP_SHARED, file, 0);
    if (memory == MAP_FAILED) {
        return false;
    }
    if (mmap(memory + PAGE + bytes, bytes, access, MAP_SHARED | MAP_FIXED, file, (off_t)PAGE)
            == MAP_FAILED
        || madvise(memory, PAGE + 2 * bytes, MADV_DONTFORK) != 0) {
        munmap(memory, PAGE + 2 * bytes);
        return false;
    }
    ring = (struct ring *)(void *)memory;
    lines = memory + PAGE;
    return true;
}

/* The file isn't opened again: so its follower is told by the kernel once it is mapped no more,
 * whatever ended the process. */
bool ring_begin(const char *path, uint64_t begun)
{
    char fresh[PATH_MOST + 8];
    snprintf(fresh, sizeof fresh, "%s.new", path);
    bytes = session->ring_bytes;
    written = read_then = 0;
    wake_at = bytes / WAKE_EACH;
    int file = open_file(fresh, O_RDWR | O_CREAT | O_EXCL);
    bool is_made = file >= 0 && promise(file, PAGE + bytes) && map(file);
    if (is_made) {
        ring->bytes = bytes;
        ring->begun = begun;
        is_made = syscall(SYS_renameat2, AT_FDCWD, fresh, AT_FDCWD, path, 0) == 0;
    }
    if (file >= 0) {
        syscall(SYS_close, file);
    }
    if (!is_made) {
        int code = file < 0 ? errno : ENOSPC;
        ring_cut();
        syscall(SYS_unlinkat, AT_FDCWD, fresh, 0);
        __atomic_add_fetch(&session->untraced, 1, __ATOMIC_RELAXED);
        errno = code;
    }
    return is_made;
}

bool ring_end(bool is_ended, bool may_call)
{
    __atomic_store_n(&ring->is_ended, is_ended, __ATOMIC_RELEASE);
    if (may_call) {
        wake(&ring->news);
    }
    return !is_given_up();
}

void ring_leave(void)
{
    if (ring != NULL) {
        munmap(ring, PAGE + 2 * bytes);
        ring = NULL;
    }
}

void ring_cut(void)
{
    if (ring != NULL) {
        __atomic_store_n(&ring->is_cut, 1, __ATOMIC_RELEASE);
        ring_leave();
    }
}

void ring_forget(void) { ring = NULL; }

void ring_detach(void)
{
    if (ring != NULL) {
        int kind = MAP_PRIVATE | MAP_ANONYMOUS | MAP_FIXED | MAP_NORESERVE;
        if (mmap(ring, PAGE + 2 * bytes, PROT_READ | PROT_WRITE, kind, -1, 0) != MAP_FAILED) {
            ring->is_dropped = 1;
        }
    }
}
