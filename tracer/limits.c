/* limits.c: the calls by which a process limits itself.
 *
 * Before a filter of system calls comes the log is begun, and from then on it opens no file: the
 * filter might end the process for that. Where memory is limited or locked no more of the log is
 * mapped than is needed.
 */
#define _GNU_SOURCE
#include "trace.h"

#include <linux/seccomp.h>
#include <stdarg.h>
#include <sys/mman.h>
#include <sys/prctl.h>
#include <sys/syscall.h>
#include <unistd.h>

static void seal(void)
{
    begin_early();
    log_seal(true);
}

/* Where no filter came the log may open files as before. */
static long sealed_by(bool was_sealed, long result)
{
    if (result < 0 && !was_sealed) {
        log_seal(false);
    }
    return result;
}

static void keep_small(void)
{
    find_real();
    if (!inside) {
        inside = true;
        log_lock();
        log_keep_small();
        log_unlock();
        inside = false;
    }
}

EXPORT int prctl(int option, ...)
{
    va_list list;
    va_start(list, option);
    unsigned long one = va_arg(list, unsigned long), two = va_arg(list, unsigned long);
    unsigned long three = va_arg(list, unsigned long), four = va_arg(list, unsigned long);
    va_end(list);
    find_real();
    if (option != PR_SET_SECCOMP) {
        return real.prctl(option, one, two, three, four);
    }
    if (one == SECCOMP_MODE_STRICT) {
        end_early();
        return real.prctl(option, one, two, three, four);
    }
    bool was_sealed = log_is_sealed();
    seal();
    return (int)sealed_by(was_sealed, real.prctl(option, one, two, three, four));
}

EXPORT long syscall(long number, ...)
{
    va_list list;
    va_start(list, number);
    long one = va_arg(list, long), two = va_arg(list, long), three = va_arg(list, long);
    long four = va_arg(list, long), five = va_arg(list, long), six = va_arg(list, long);
    va_end(list);
    find_real();
    if (number != SYS_seccomp) {
        return real.syscall(number, one, two, three, four, five, six);
    }
    bool was_sealed = log_is_sealed();
    if (one == SECCOMP_SET_MODE_STRICT && two == 0) {
        end_early();
    } else if (one == SECCOMP_SET_MODE_FILTER) {
        seal();
    }
    return sealed_by(was_sealed, real.syscall(number, one, two, three, four, five, six));
}

EXPORT int mlockall(int flags)
{
    keep_small();
    return real.mlockall(flags);
}

EXPORT int setrlimit(__rlimit_resource_t resource, const struct rlimit *limit)
{
    if (resource == RLIMIT_AS) {
        keep_small();
    }
    find_real();
    return real.setrlimit((int)resource, limit);
}

EXPORT int prlimit(pid_t process, __rlimit_resource_t resource, const struct rlimit *limit,
                   struct rlimit *before)
{
    if (resource == RLIMIT_AS && limit != NULL) {
        keep_small();
    }
    find_real();
    return real.prlimit(process, (int)resource, limit, before);
}

/* The same for programs whose files have offsets of 64 bits. */
EXPORT int setrlimit64(__rlimit_resource_t, const struct rlimit64 *)
    __attribute__((alias("setrlimit")));
EXPORT int prlimit64(pid_t, __rlimit_resource_t, const struct rlimit64 *, struct rlimit64 *)
    __attribute__((alias("prlimit")));
