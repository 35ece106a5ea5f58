/* The calls of the C library that read and write, which fail, move one byte or wait where the
 * environment tells them to. Each read and each write counts as one call, from 1 on. tests/faults
 * and scripts of tests/program.d preload them.
 *
 *     IO_FAIL=N       call N fails
 *     IO_FAIL_READ=N  the N-th read fails
 *     IO_SHORT=N      call N moves one byte at most
 *     IO_ERROR=E      the error of a call that fails; else 5, a fault of the device
 *     IO_WAIT=N,N..   the N-th read begins 1.2 seconds later
 *     IO_COUNT=FILE   at the end FILE gets the number of reads and the number of writes
 *     IO_GROW=FILE    behind call IO_GROW_AT a line is appended to FILE
 *     IO_CUT=FILE     behind call IO_CUT_AT FILE is cut to IO_CUT_TO bytes
 *     IO_NO_RANDOM=E  there are no random bytes, for this error
 */
#define _GNU_SOURCE
#include <dlfcn.h>
#include <errno.h>
#include <stdbool.h>
#include <stdio.h>
#include <stdlib.h>
#include <string.h>
#include <time.h>
#include <unistd.h>

static long calls, reads, writes;

static long number_of(const char *name)
{
    const char *number = getenv(name);
    return number == NULL ? 0 : strtol(number, NULL, 10);
}

/* Waits where this read is one of those that do. */
static void wait_where_asked(void)
{
    const char *rest = getenv("IO_WAIT");
    int error = errno;
    while (rest != NULL && *rest != 0) {
        char *end;
        if (strtol(rest, &end, 10) == reads)
            nanosleep(&(struct timespec){1, 200000000}, NULL);
        rest = *end == ',' ? end + 1 : end;
    }
    errno = error;
}

static void append_line(const char *name)
{
    FILE *file = fopen(name, "a");
    if (file == NULL || fputs("+ 0xfff0 0x8\n", file) == EOF || fclose(file) == EOF)
        abort();
}

/* The call with this many bytes: how many of them it may move, or -1 where it fails. */
static ssize_t begin(size_t count, bool is_read)
{
    calls++;
    reads += is_read;
    writes += !is_read;
    if (calls == number_of("IO_FAIL") || (is_read && reads == number_of("IO_FAIL_READ"))) {
        errno = getenv("IO_ERROR") == NULL ? EIO : (int)number_of("IO_ERROR");
        return -1;
    }
    return calls == number_of("IO_SHORT") && count > 1 ? 1 : (ssize_t)count;
}

static void end(void)
{
    const char *grows = getenv("IO_GROW");
    const char *is_cut = getenv("IO_CUT");
    int error = errno;
    if (grows != NULL && calls == number_of("IO_GROW_AT"))
        append_line(grows);
    if (is_cut != NULL && calls == number_of("IO_CUT_AT")
        && truncate(is_cut, number_of("IO_CUT_TO")) != 0)
        abort();
    errno = error;
}

ssize_t read(int file, void *bytes, size_t count)
{
    static ssize_t (*next)(int, void *, size_t);
    ssize_t most = begin(count, true);
    wait_where_asked();
    if (next == NULL)
        next = dlsym(RTLD_NEXT, "read");
    if (most >= 0)
        most = next(file, bytes, most);
    end();
    return most;
}

ssize_t write(int file, const void *bytes, size_t count)
{
    static ssize_t (*next)(int, const void *, size_t);
    ssize_t most = begin(count, false);
    if (next == NULL)
        next = dlsym(RTLD_NEXT, "write");
    if (most >= 0)
        most = next(file, bytes, most);
    end();
    return most;
}

int getentropy(void *bytes, size_t count)
{
    static int (*next)(void *, size_t);
    if (getenv("IO_NO_RANDOM") != NULL) {
        errno = (int)number_of("IO_NO_RANDOM");
        return -1;
    }
    if (next == NULL)
        next = dlsym(RTLD_NEXT, "getentropy");
    return next(bytes, count);
}

__attribute__((destructor)) static void tell_count(void)
{
    const char *name = getenv("IO_COUNT");
    FILE *file = name == NULL ? NULL : fopen(name, "w");
    if (file != NULL) {
        fprintf(file, "%ld %ld\n", reads, writes);
        fclose(file);
    }
}
