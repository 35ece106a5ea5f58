/* log.c: the log of a process.
 *
 * Its file is mapped, shared, so that each line is the kernel's once it is written: whatever ends
 * the process, no line is lost. Behind the last line the file has zeros, which log_end cuts off, or
 * bin/trace where the process was killed. No descriptor stays open, since programs close those that
 * they don't know.
 *
 * A gigabyte is mapped at once, of a file that has holes. So the log goes on where the process may
 * no longer open it: behind chroot, setuid or a filter of its system calls, or with no descriptor
 * left. Room on the disk is promised a piece at a time; where the file can't be opened each page is
 * tried before it is written to. Where the log can't go on its last line says that it is cut.
 *
 * A program that is followed has a ring in memory in place of a file (ring.c).
 *
 * System calls are made by syscall(): the C library's open and write are cancellation points, and
 * may be those of another preloaded library.
 */
#define _GNU_SOURCE
#include "trace.h"

#include <errno.h>
#include <fcntl.h>
#include <linux/magic.h>
#include <pthread.h>
#include <signal.h>
#include <stdio.h>
#include <stdlib.h>
#include <string.h>
#include <sys/mman.h>
#include <sys/prctl.h>
#include <sys/resource.h>
#include <sys/stat.h>
#include <sys/syscall.h>
#include <sys/vfs.h>
#include <time.h>
#include <unistd.h>

#ifndef EXFAT_SUPER_MAGIC
#define EXFAT_SUPER_MAGIC 0x2011BAB0
#endif

/* A piece is as much as the disk promises at once. What is mapped ahead is a multiple of it. */
enum { PIECE = 1 << 20, AHEAD = 1 << 30, NAMES_MOST = 1000, TELL_EACH = 100 };

static const char end_line[] = "= End\n", cut_line[] = "@ cut ! (nil) 0\n";
enum { END_BYTES = sizeof end_line - 1, CUT_BYTES = sizeof cut_line - 1 };

static pthread_mutex_t lock = PTHREAD_MUTEX_INITIALIZER;

/* The names of the file and of the index, and what tells the file from others. Written: the bytes
 * of whole lines. What is mapped begins with a byte of the file, and is null where the file was cut
 * to its length. There is room up to another byte. */
static char path[PATH_MOST], index_path[PATH_MOST];
static struct stat made;
static pid_t process;
static char *mapped;
static size_t mapped_from, mapped_bytes;
static size_t written, room_to;
/* Whether the end is written; whether no more than a piece is mapped; and from which byte on the
 * file is opened again for room, where that failed. */
static bool is_ended, is_small;
static size_t try_from;
/* The process that may open no file any more, and the filter of system calls that it had at
 * first. */
static pid_t sealed;
static long first_filter;
/* When the log began, and when its age was told last, in milliseconds. */
static uint64_t begun, last_told;
/* Whether the log was detached: what is written is lost. */
static bool is_detached;

/* 1 where this process has a log. It stands in a page that a child of a fork gets as zeros, so
 * that a child knows itself. */
static volatile int nothing;
static volatile int *alive = &nothing;

void log_lock(void) { pthread_mutex_lock(&lock); }
void log_unlock(void) { pthread_mutex_unlock(&lock); }
bool log_is_on(void) { return *alive != 0; }
pid_t log_process(void) { return process; }
const char *log_path(void) { return path; }

/* ---- the file */

static int open_file(const char *name, int flags)
{
    return (int)syscall(SYS_openat, AT_FDCWD, name, flags | O_CLOEXEC, 0666);
}

static void close_file(int file) { syscall(SYS_close, file); }

bool log_is_sealed(void) { return sealed != 0 && sealed == getpid(); }

bool log_may_open(void)
{
    return !log_is_sealed()
           && syscall(SYS_prctl, PR_GET_SECCOMP, 0ul, 0ul, 0ul, 0ul) == first_filter;
}

/* Opens the log again, or fails: its name may be that of another file by now, as behind chroot. */
static int open_again(int flags)
{
    struct stat now;
    int file = log_may_open() ? open_file(path, flags) : -1;
    if (file >= 0
        && (fstat(file, &now) != 0 || now.st_dev != made.st_dev || now.st_ino != made.st_ino)) {
        close_file(file);
        file = -1;
    }
    return file;
}

/* Cuts the file to a length. Returns whether it could. */
static bool cut_file(size_t length)
{
    int file = open_again(O_WRONLY);
    bool is_cut = file >= 0 && ftruncate(file, (off_t)length) == 0;
    if (file >= 0) {
        close_file(file);
    }
    return is_cut;
}

static void unmap(void)
{
    if (mapped != NULL) {
        munmap(mapped, mapped_bytes);
        mapped = NULL;
    }
}

/* The log can't go on: it stays as far as it is, with a last line that says so. This process has no
 * other. */
static void fail(const char *why)
{
    say(path, why);
    *alive = 0;
    ring_cut();
    if (mapped != NULL && written + CUT_BYTES <= room_to) {
        memcpy(mapped + (written - mapped_from), cut_line, CUT_BYTES);
        written += CUT_BYTES;
    }
    if (mapped != NULL) {
        unmap();
        cut_file(written);
    }
}

/* ---- room */

/* How many bytes from here on can be mapped and the file be longer, as the limits of the process
 * have it: less than a piece where it can't go on. On a file system without holes, and where memory
 * is limited or locked, it is a piece. */
static size_t bytes_ahead(int file, size_t from)
{
    struct rlimit limit;
    struct statfs system;
    size_t bytes = AHEAD;
    if (getrlimit(RLIMIT_AS, &limit) != 0 || limit.rlim_cur != RLIM_INFINITY
        || fstatfs(file, &system) != 0 || system.f_type == MSDOS_SUPER_MAGIC
        || system.f_type == EXFAT_SUPER_MAGIC || is_small) {
        bytes = PIECE;
    }
    if (getrlimit(RLIMIT_FSIZE, &limit) == 0 && limit.rlim_cur != RLIM_INFINITY) {
        size_t most = limit.rlim_cur / PAGE * PAGE;
        bytes = most <= from ? 0 : most - from < bytes ? most - from : bytes;
    }
    return bytes;
}

/* Makes the file longer. The signal of a file that may not be as long isn't for the program. */
static bool lengthen(int file, size_t length)
{
    sigset_t limit, before;
    sigemptyset(&limit);
    sigaddset(&limit, SIGXFSZ);
    pthread_sigmask(SIG_BLOCK, &limit, &before);
    bool made = ftruncate(file, (off_t)length) == 0;
    if (!made) {
        struct timespec none = {0, 0};
        syscall(SYS_rt_sigtimedwait, &limit, NULL, &none, 8);
    }
    pthread_sigmask(SIG_SETMASK, &before, NULL);
    return made;
}

/* The disk promises room for the next piece, or what of it is mapped. */
static bool promise(int file)
{
    size_t left = mapped_from + mapped_bytes - room_to, bytes = left < PIECE ? left : PIECE;
    bool is_promised = syscall(SYS_fallocate, file, 0, (long)room_to, (long)bytes) == 0;
    room_to += is_promised ? bytes : 0;
    return is_promised;
}

/* The same by the file's name. Where that fails it is tried again a piece later. */
static bool promise_again(void)
{
    if (room_to < try_from) {
        return false;
    }
    int file = open_again(O_RDWR);
    bool is_promised = file >= 0 && promise(file);
    if (file >= 0) {
        close_file(file);
    }
    try_from = is_promised ? 0 : room_to + PIECE;
    return is_promised;
}

/* Tries the next page: the kernel writes into it what signals are blocked, and says where it can't.
 * To write there oneself would end the process. */
static bool try_page(void)
{
    char *page = mapped + (room_to - mapped_from);
    if (syscall(SYS_rt_sigprocmask, SIG_BLOCK, NULL, page, 8ul) != 0) {
        return false;
    }
    memset(page, 0, 8);
    room_to += PAGE;
    return true;
}

/* Maps what lies ahead, from the page of the last byte written on: at most so many bytes. */
static bool map_ahead(int file, size_t most)
{
    size_t from = written / PAGE * PAGE;
    size_t bytes = bytes_ahead(file, from);
    bytes = bytes > most ? most : bytes;
    if (bytes <= written - from + LINES_MOST + CUT_BYTES || !lengthen(file, from + bytes)) {
        return false;
    }
    void *memory = mmap(NULL, bytes, PROT_READ | PROT_WRITE, MAP_SHARED, file, (off_t)from);
    if (memory == MAP_FAILED) {
        return false;
    }
    /* Else the kernel reads ahead, in holes. */
    madvise(memory, bytes, MADV_RANDOM);
    unmap();
    mapped = memory;
    mapped_from = from;
    mapped_bytes = bytes;
    room_to = room_to > from ? room_to : from;
    try_from = 0;
    return promise(file) || try_page();
}

/* Maps the file on, or for the first time: as far as the process has room for it. */
static bool map_on(void)
{
    if (is_detached) {
        return false;
    }
    int file = open_again(O_RDWR);
    if (file < 0) {
        fail("can't be opened again, so the log is cut");
        return false;
    }
    bool is_mapped = map_ahead(file, AHEAD) || map_ahead(file, PIECE);
    close_file(file);
    if (!is_mapped) {
        fail("has no room, so the log is cut");
    }
    return is_mapped;
}

/* Gives whole pieces back whose lines are written: they are the kernel's. */
static void unmap_written(void)
{
    size_t behind = (written - mapped_from) / PIECE * PIECE;
    if (behind > 0 && behind < mapped_bytes) {
        munmap(mapped, behind);
        mapped += behind;
        mapped_from += behind;
        mapped_bytes -= behind;
    }
}

/* Whether there is room for so many bytes, and the line that says that the log is cut. */
static bool has_room(size_t bytes)
{
    while (written + bytes + CUT_BYTES > room_to) {
        if (is_detached) {
            return false;
        }
        unmap_written();
        if (room_to >= mapped_from + mapped_bytes) {
            if (!map_on()) {
                return false;
            }
        } else if (!promise_again() && !try_page()) {
            fail("has no room, so the log is cut");
            return false;
        }
    }
    return true;
}

/* ---- lines */

/* After the end, where the file was cut: a line takes the place of the last, which is written again
 * behind it. */
static void write_to_file(const char *text, size_t length)
{
    int file = is_detached ? -1 : open_again(O_WRONLY);
    if (file >= 0) {
        syscall(SYS_pwrite64, file, text, length, (long)written);
        close_file(file);
        written += length - END_BYTES;
    }
}

/* After the end. */
static void write_before_end(const char *lines, size_t length)
{
    char text[LINES_MOST + END_BYTES];
    memcpy(text, lines, length);
    memcpy(text + length, end_line, END_BYTES);
    if (mapped == NULL) {
        write_to_file(text, length + END_BYTES);
    } else if (has_room(length + END_BYTES)) {
        memcpy(mapped + (written - mapped_from), text, length + END_BYTES);
        written += length;
    }
}

static const char no_follower[] = "has no follower any more, so the log is cut";

static void append_to_ring(const char *lines, size_t length)
{
    if (ring_write(lines, length, sealed == 0)) {
        held_take(lines, length, sealed == 0);
    } else if (!is_detached) {
        fail(no_follower);
    }
}

/* Writes whole lines behind the last one. */
static void append(const char *lines, size_t length)
{
    if (ring_is_on()) {
        append_to_ring(lines, length);
    } else if (is_ended) {
        write_before_end(lines, length);
    } else if (has_room(length)) {
        memcpy(mapped + (written - mapped_from), lines, length);
        written += length;
    }
}

static uint64_t milliseconds(void)
{
    struct timespec now;
    clock_gettime(CLOCK_MONOTONIC_COARSE, &now);
    return (uint64_t)now.tv_sec * 1000 + (uint64_t)now.tv_nsec / 1000000;
}

/* A line without effect that tells a number: `@ t1234 ! (nil) 0`. */
static void tell_number(char what, uint64_t number)
{
    static const char no_effect[] = " ! (nil) 0\n";
    char line[64] = {'@', ' ', what};
    char *end = put_decimal(line + 3, number);
    memcpy(end, no_effect, sizeof no_effect - 1);
    append(line, (size_t)(end - line) + sizeof no_effect - 1);
}

/* Tells how old the log is, by a line without effect: `@ t1234 ! (nil) 0`, where TELL_EACH
 * milliseconds are over. This clock costs no system call. */
static void tell_time(void)
{
    uint64_t now = milliseconds();
    if (now - last_told >= TELL_EACH) {
        last_told = now;
        tell_number('t', now - begun);
    }
}

void log_write(const char *lines, size_t length)
{
    if (log_is_on()) {
        tell_time();
    }
    if (log_is_on()) {
        append(lines, length);
    }
}

/* Tells how many blocks from before the log were freed, where a running program is traced: `@ b7 !
 * (nil) 0`. */
static void tell_before(void)
{
    if (since_is_on()) {
        tell_number('b', since_before());
    }
}

/* Where the file can't be opened zeros stay behind the end, which bin/trace cuts off. */
static void end_file(void)
{
    if (has_room(END_BYTES)) {
        memcpy(mapped + (written - mapped_from), end_line, END_BYTES);
        is_ended = true;
        if (cut_file(written + END_BYTES)) {
            unmap();
            room_to = 0;
        }
    }
}

/* The follower writes the end of a ring. */
static void end_ring(void)
{
    is_ended = ring_end(true, sealed == 0);
    if (!is_ended) {
        fail(no_follower);
    }
}

void log_end(void)
{
    if (!log_is_on() || is_ended) {
        return;
    }
    tell_before();
    if (log_is_on()) {
        (ring_is_on() ? end_ring : end_file)();
    }
}

void log_close(void)
{
    log_end();
    *alive = 0;
    ring_leave();
}

void log_drop(const char *why) { fail(why); }

void log_seal(bool is_on) { sealed = is_on ? getpid() : 0; }

void log_keep_small(void)
{
    is_small = true;
    size_t kept = room_to - mapped_from;
    if (mapped != NULL && kept < mapped_bytes) {
        munmap(mapped + kept, mapped_bytes - kept);
        mapped_bytes = kept;
    }
}

void log_resume(void)
{
    if (!log_is_on() || !is_ended) {
        return;
    }
    if (ring_is_on()) {
        ring_end(false, sealed == 0);
        is_ended = false;
    } else if (mapped != NULL || map_on()) {
        memset(mapped + (written - mapped_from), 0, END_BYTES);
        is_ended = false;
    }
}

void log_forget(void)
{
    ring_forget();
    unmap();
    *alive = 0;
    /* A filter of system calls is the child's, too. */
    sealed = sealed != 0 && sealed == process ? getpid() : 0;
    process = 0;
    written = room_to = 0;
    is_ended = false;
    pthread_mutex_t fresh = PTHREAD_MUTEX_INITIALIZER;
    lock = fresh;
}

void log_detach(void)
{
    ring_detach();
    if (mapped != NULL) {
        /* With the page that may just be tried. */
        size_t left = mapped_from + mapped_bytes - written / PAGE * PAGE,
               wanted = room_to + PAGE - written / PAGE * PAGE;
        int kind = MAP_PRIVATE | MAP_ANONYMOUS | MAP_FIXED;
        mmap(mapped + (written / PAGE * PAGE - mapped_from), wanted < left ? wanted : left,
             PROT_READ | PROT_WRITE, kind, -1, 0);
    }
    *alive = 0;
    is_detached = true;
    pthread_mutex_t fresh = PTHREAD_MUTEX_INITIALIZER;
    lock = fresh;
}

/* The name with the process's number for %p; or behind it where it has none and a file has that
 * name already. Where that is there, too, the number of the try stands behind. */
static bool name_file(const char *name, int tries)
{
    const char *place = strstr(name, "%p");
    int before = (int)(place == NULL ? strlen(name) : (size_t)(place - name));
    int again = place == NULL ? tries : tries + 1;
    char number[32] = "";
    if (again == 1) {
        snprintf(number, sizeof number, "%d", (int)getpid());
    } else if (again > 1) {
        snprintf(number, sizeof number, "%d.%d", (int)getpid(), again);
    }
    int length =
        snprintf(path, sizeof path, "%.*s%s%s%s", before, name,
                 place == NULL && again > 0 ? "." : "", number, place == NULL ? "" : place + 2);
    return length > 0 && (size_t)length < sizeof path;
}

/* Makes a new file: none that exists is written over. */
static bool make_file(const char *name)
{
    for (int tries = 0; tries < NAMES_MOST && name_file(name, tries); tries++) {
        int file = open_file(path, O_RDWR | O_CREAT | O_EXCL);
        if (file >= 0) {
            bool is_told = fstat(file, &made) == 0;
            close_file(file);
            return is_told;
        }
        if (errno != EEXIST) {
            return false;
        }
    }
    return false;
}

void log_note(const char *words, size_t length)
{
    int file =
        index_path[0] == 0 || !log_may_open() ? -1 : open_file(index_path, O_WRONLY | O_APPEND);
    if (file >= 0) {
        syscall(SYS_write, file, words, length);
        close_file(file);
    }
}

/* Adds process, log and program to the index, each ended by a zero. With the lock held. */
static void add_to_index(void)
{
    static char entry[2 * PATH_MOST + 32], program[PATH_MOST];
    const char *given = getenv("TLSF_TRACE_INDEX");
    if (given != NULL && strlen(given) < sizeof index_path) {
        strcpy(index_path, given);
    }
    ssize_t length = readlink("/proc/self/exe", program, sizeof program - 1);
    program[length < 0 ? 0 : length] = 0;
    int bytes = snprintf(entry, sizeof entry, "%d%c%s%c%s%c", (int)process, 0, path, 0, program, 0);
    if (bytes > 0) {
        log_note(entry, (size_t)bytes);
    }
}

/* Makes the log a file, or a ring. */
static bool begin_file(const char *name)
{
    if (!make_file(name)) {
        fail("can't be made, so nothing is traced");
        return false;
    }
    return map_on();
}

static bool begin_ring(const char *name)
{
    if (!ring_session(name, since_is_on())) {
        say(name, "has no follower, so nothing is traced");
        return false;
    }
    if (!name_file(name, (int)ring_number()) || !ring_begin(path, begun)) {
        say(path, errno == ENOSPC ? "has no room for a ring, so nothing is traced"
                                  : "can't be made, so nothing is traced");
        return false;
    }
    return true;
}

/* The page with `alive`. */
static void make_alive(void)
{
    if (alive == &nothing) {
        void *page = mmap(NULL, PAGE, PROT_READ | PROT_WRITE, MAP_PRIVATE | MAP_ANONYMOUS, -1, 0);
        if (page != MAP_FAILED) {
            madvise(page, PAGE, MADV_WIPEONFORK);
            alive = page;
        }
    }
}

bool log_begin(const char *name)
{
    static const char start_line[] = "= Start\n", ring_sign[] = "ring:";
    make_alive();
    told_forget();
    is_detached = is_ended = false;
    begun = last_told = milliseconds();
    process = getpid();
    written = room_to = 0;
    if (log_is_sealed()) {
        say(name,
            "can't be made by a child behind a filter of system calls, so nothing of it is traced");
        return false;
    }
    first_filter = syscall(SYS_prctl, PR_GET_SECCOMP, 0ul, 0ul, 0ul, 0ul);
    is_small |= since_is_on();
    bool is_ring = strncmp(name, ring_sign, sizeof ring_sign - 1) == 0;
    if (!(is_ring ? begin_ring(name + sizeof ring_sign - 1) : begin_file(name))) {
        return false;
    }
    *alive = 1;
    log_write(start_line, sizeof start_line - 1);
    tell_before();
    add_to_index();
    return true;
}
