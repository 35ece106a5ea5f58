/* ring.c: the follower of one ring. It gives its lines to the consumer, and writes those that tell
 * modules and stacks into a file, which bin/source-lines reads as a log. In a silence it tells the
 * time by itself.
 */
#define _GNU_SOURCE
#include "follow.h"

#include <errno.h>
#include <fcntl.h>
#include <limits.h>
#include <linux/futex.h>
#include <signal.h>
#include <stdio.h>
#include <stdlib.h>
#include <string.h>
#include <sys/mman.h>
#include <sys/sendfile.h>
#include <sys/stat.h>
#include <sys/syscall.h>
#include <time.h>
#include <unistd.h>

/* The most bytes that are given at once; and how long is slept at first, and at most, in
 * milliseconds. */
enum { GIVE_MOST = 1 << 18, SLEEP_FIRST = 10, SLEEP_MOST = 200 };

static const char no_effect[] = " ! (nil) 0\n", start_line[] = "= Start\n", end_line[] = "= End\n",
                  cut_line[] = "@ cut ! (nil) 0\n";
enum { NO_EFFECT_BYTES = sizeof no_effect - 1 };

static volatile sig_atomic_t is_asked;

/* A ring as it is followed: its head and lines, up to where they are read; the bytes of lines that
 * are no calls; and the time of the last mark. What was read has been taken, or the consumer is
 * gone. Lines are kept where that was asked for, until their file is full. */
struct feed {
    struct ring *ring;
    const char *lines;
    uint64_t read, no_calls, marked;
    struct consumer consumer;
    FILE *told, *kept;
    size_t kept_bytes;
    const char *name;
    bool took_all, is_told, is_full;
};

static void on_signal(int number)
{
    (void)number;
    is_asked = 1;
}

/* How old the log is, in milliseconds. */
static uint64_t age(const struct feed *feed)
{
    struct timespec now;
    clock_gettime(CLOCK_MONOTONIC_COARSE, &now);
    uint64_t milliseconds = (uint64_t)now.tv_sec * 1000 + (uint64_t)now.tv_nsec / 1000000;
    return milliseconds > feed->ring->begun ? milliseconds - feed->ring->begun : 0;
}

/* ---- lines */

/* Takes a line that has no effect: of a module or a stack, or of blocks from before, it is kept.
 * The time of a mark is looked at. */
static void take_told(struct feed *feed, const char *line, const char *end)
{
    size_t length = (size_t)(end - line);
    feed->no_calls += length + NO_EFFECT_BYTES;
    if (length < 4 || memcmp(line, "@ ", 2) != 0) {
        return;
    }
    if (line[2] == 't') {
        feed->marked = strtoull(line + 3, NULL, 10);
    } else if (line[2] == 'b' || memchr(line, '=', length) != NULL
               || memchr(line, '+', length) != NULL) {
        fwrite(line, 1, length + NO_EFFECT_BYTES, feed->told);
        feed->is_told = true;
    }
}

static void look_for_told(struct feed *feed, const char *from, const char *end)
{
    feed->is_told = false;
    for (const char *at = from;
         (at = memmem(at, (size_t)(end - at), no_effect, NO_EFFECT_BYTES)) != NULL;
         at += NO_EFFECT_BYTES) {
        const char *newline = memrchr(from, '\n', (size_t)(at - from));
        take_told(feed, newline == NULL ? from : newline + 1, at);
    }
    if (feed->is_told) {
        fflush(feed->told);
    }
}

/* Keeps lines. Behind the first that has no room none is kept. */
static void keep(struct feed *feed, const char *from, size_t length)
{
    size_t left = asked.keep_most - feed->kept_bytes;
    if (feed->is_full) {
        return;
    }
    feed->is_full = length > left;
    if (feed->is_full) {
        const char *newline = memrchr(from, '\n', left);
        length = newline == NULL ? 0 : (size_t)(newline + 1 - from);
    }
    feed->kept_bytes += fwrite(from, 1, length, feed->kept);
    if (feed->is_full) {
        fflush(feed->kept);
        say(file_of(feed->name, "log"), "is cut at its limit; the report is of all lines");
    }
}

/* Gives lines on. Those of modules and stacks are in their file before a report can name them. */
static bool give(struct feed *feed, const char *from, size_t length)
{
    look_for_told(feed, from, from + length);
    if (feed->kept != NULL) {
        keep(feed, from, length);
    }
    return consumer_give(&feed->consumer, from, length);
}

/* A line of the follower's own: a mark of time, or one that asks for a snapshot. */
static bool give_mark(struct feed *feed, char letter)
{
    char line[64];
    int length =
        snprintf(line, sizeof line, "@ %c%llu%s", letter, (unsigned long long)age(feed), no_effect);
    bool is_taken = give(feed, line, (size_t)length);
    feed->no_calls -= (size_t)length;
    return is_taken;
}

/* How many bytes are given next: whole lines, and not past a byte. */
static size_t next_bytes(const struct feed *feed, const char *from, uint64_t to)
{
    size_t length = to - feed->read;
    return length <= GIVE_MOST ? length
                               : (size_t)((const char *)memrchr(from, '\n', GIVE_MOST) + 1 - from);
}

/* Gives what is written up to a byte, and makes room. Returns whether it was taken. */
static bool give_up_to(struct feed *feed, uint64_t to)
{
    struct ring *ring = feed->ring;
    bool is_taken = true;
    while (is_taken && feed->read < to) {
        const char *from = feed->lines + (feed->read & (ring->bytes - 1));
        size_t length = next_bytes(feed, from, to);
        is_taken = give(feed, from, length);
        feed->read += length;
        __atomic_store_n(&ring->read, feed->read, __ATOMIC_SEQ_CST);
        uint64_t left = __atomic_load_n(&ring->written, __ATOMIC_RELAXED) - feed->read;
        if (__atomic_load_n(&ring->process_waits, __ATOMIC_SEQ_CST) != 0
            && left <= ring->bytes / 2) {
            wake(&ring->room);
        }
    }
    return is_taken;
}

/* ---- the time */

/* Whether a report is due, in a silence of the process. */
static bool is_due(const struct feed *feed)
{
    return asked.every > 0 && age(feed) / asked.every > feed->marked / asked.every;
}

/* Behind lines that belong together. Returns whether the marks that are due were taken. */
static bool give_marks(struct feed *feed, bool was_asked, bool is_silent)
{
    if (was_asked) {
        is_asked = 0;
    }
    return !(was_asked && !give_mark(feed, 'n'))
           && !(is_silent && is_due(feed) && !give_mark(feed, 't'));
}

/* Sleeps until there is news, but not for long: a process that writes little wakes nobody. */
static void sleep_for_news(struct ring *ring, uint32_t seen, long milliseconds)
{
    struct timespec most = {0, milliseconds * 1000000};
    __atomic_store_n(&ring->follower_waits, 1, __ATOMIC_SEQ_CST);
    if (!is_asked) {
        syscall(SYS_futex, &ring->news, FUTEX_WAIT, seen, &most, NULL, 0);
    }
    __atomic_store_n(&ring->follower_waits, 0, __ATOMIC_RELAXED);
}

/* Gives all lines, until the process has no more. Returns whether they were taken. */
static bool give_all(struct feed *feed)
{
    struct ring *ring = feed->ring;
    for (long pause = SLEEP_FIRST;; pause = pause < SLEEP_MOST ? pause * 2 : SLEEP_MOST) {
        uint32_t seen = __atomic_load_n(&ring->news, __ATOMIC_ACQUIRE);
        bool is_closed = __atomic_load_n(&ring->is_closed, __ATOMIC_ACQUIRE) != 0,
             was_asked = is_asked != 0;
        uint64_t written = __atomic_load_n(&ring->written, __ATOMIC_ACQUIRE);
        bool is_silent = written == feed->read;
        if (!give_up_to(feed, written) || !give_marks(feed, was_asked, is_silent)) {
            return false;
        }
        if (__atomic_load_n(&ring->is_dropped, __ATOMIC_ACQUIRE) != 0 || (is_silent && is_closed)) {
            return true;
        }
        if (is_silent) {
            sleep_for_news(ring, seen, pause);
        } else {
            pause = SLEEP_FIRST;
        }
    }
}

/* ---- begin and end */

static bool map(struct feed *feed, int file)
{
    struct stat is;
    size_t page = (size_t)sysconf(_SC_PAGESIZE);
    if (fstat(file, &is) != 0 || (size_t)is.st_size <= page) {
        return false;
    }
    size_t bytes = (size_t)is.st_size - page;
    char *memory = mmap(NULL, page + 2 * bytes, PROT_READ | PROT_WRITE, MAP_SHARED, file, 0);
    if (memory == MAP_FAILED
        || mmap(memory + page + bytes, bytes, PROT_READ, MAP_SHARED | MAP_FIXED, file, (off_t)page)
               == MAP_FAILED) {
        return false;
    }
    feed->ring = (struct ring *)(void *)memory;
    feed->lines = memory + page;
    return feed->ring->bytes == bytes;
}

static bool open_files(struct feed *feed)
{
    feed->told = fopen(file_of(feed->name, "told"), "we");
    feed->kept = asked.keeps_lines ? fopen(file_of(feed->name, "log"), "we") : NULL;
    if (feed->told == NULL || (asked.keeps_lines && feed->kept == NULL)) {
        return false;
    }
    fputs(start_line, feed->told);
    feed->consumer.report = strdup(file_of(feed->name, "report"));
    feed->consumer.is_stopped = &feed->ring->is_dropped;
    return feed->consumer.report != NULL && consumer_start(&feed->consumer);
}

/* Closes a file. Returns whether all of it is written. */
static bool close_file(FILE *file, const char *name)
{
    bool is_good = file == NULL || ferror(file) == 0;
    if (file != NULL && (fclose(file) != 0 || !is_good)) {
        say(name, "can't be written, so it isn't whole");
        return false;
    }
    return true;
}

/* How a log ended, as it is told to who started this. */
static const char *how(const struct feed *feed)
{
    const struct ring *ring = feed->ring;
    return !feed->took_all || ring->is_dropped != 0 ? "lost"
           : ring->is_cut != 0                      ? "cut"
           : ring->is_ended != 0                    ? "whole"
                                                    : "ended";
}

/* The last line, which no ring has. */
static void give_end(struct feed *feed)
{
    char state = *how(feed);
    const char *last = state == 'w' ? end_line : state == 'e' ? "" : cut_line;
    feed->took_all = feed->took_all && give(feed, last, strlen(last));
}

static void tell(const struct feed *feed)
{
    char name[4096];
    snprintf(name, sizeof name, "%s/states", asked.folder);
    FILE *states = fopen(name, "ae");
    if (states != NULL) {
        bool has_calls = feed->read > feed->no_calls + sizeof start_line - 1;
        fprintf(states, "%s %s %s\n", feed->name, how(feed), has_calls ? "calls" : "none");
        fclose(states);
    }
}

/* Copies the rest of a file into another, which is made. Returns whether it could. */
static bool copy(int from, const char *name)
{
    int to = open(name, O_WRONLY | O_CREAT | O_TRUNC | O_CLOEXEC, 0666);
    ssize_t gave = to < 0 ? -1 : 1;
    while (gave > 0) {
        gave = sendfile(to, from, NULL, GIVE_MOST);
    }
    return to >= 0 && close(to) == 0 && gave == 0;
}

/* The process tells at its end beside its ring what is reachable. That gets to the folder of
 * reports. */
static void bring_list(const char *name)
{
    char list[PATH_MAX];
    snprintf(list, sizeof list, "%s/%s.reachable", asked.rings, name);
    int from = open(list, O_RDONLY | O_CLOEXEC | O_NOFOLLOW);
    if (from < 0) {
        return;
    }
    const char *to = file_of(name, "reachable");
    if (!copy(from, to)) {
        say(to, "can't be written, so there is none");
        unlink(to);
    }
    close(from);
    unlink(list);
}

static void unblock(int number)
{
    sigset_t set;
    sigemptyset(&set);
    sigaddset(&set, number);
    sigprocmask(SIG_UNBLOCK, &set, NULL);
}

int follow_ring(int file, const char *name)
{
    struct feed feed = {.name = name};
    struct sigaction action = {.sa_handler = on_signal};
    sigaction(SIGUSR1, &action, NULL);
    unblock(SIGUSR1);
    if (!map(&feed, file) || !open_files(&feed)) {
        say(file_of(name, "report"), strerror(errno));
        return LOST_SOME;
    }
    close(file);
    feed.took_all = give_all(&feed);
    if (!feed.took_all) {
        __atomic_store_n(&feed.ring->is_dropped, 1, __ATOMIC_RELEASE);
        wake(&feed.ring->room);
    }
    bring_list(name);
    give_end(&feed);
    feed.took_all = consumer_end(&feed.consumer, feed.took_all) && feed.took_all;
    feed.took_all = close_file(feed.told, file_of(name, "told")) && feed.took_all;
    feed.took_all = close_file(feed.kept, file_of(name, "log")) && feed.took_all;
    tell(&feed);
    return *how(&feed) == 'l' ? LOST_SOME : KEPT_ALL;
}
