/* child.c: the calls that start a program. One whose variables don't preload the tracer, that gets
 * more rights, or that is static, is noted in the index, so that nobody takes it for one without
 * leaks.
 */
#define _GNU_SOURCE
#include "trace.h"

#include <errno.h>
#include <fcntl.h>
#include <link.h>
#include <string.h>
#include <sys/stat.h>
#include <sys/syscall.h>
#include <sys/xattr.h>
#include <unistd.h>

/* The most bytes of a program's path that are noted, and of its file in which its headers are
 * looked for. */
enum { PROGRAM_MOST = 1024, HEAD_MOST = 2048 };

/* Whether variables preload this library. */
static bool has_tracer(char *const variables[])
{
    static const char preload[] = "LD_PRELOAD=";
    for (size_t k = 0; variables != NULL && variables[k] != NULL; k++) {
        if (strncmp(variables[k], preload, sizeof preload - 1) == 0) {
            return strstr(variables[k], "/libtlsf_trace.so") != NULL;
        }
    }
    return false;
}

/* Whether a program gets other rights than its caller, by its file: then the dynamic linker
 * preloads nothing. */
static bool is_secure(const char *program)
{
    struct stat told;
    char capabilities[64];
    if (stat(program, &told) != 0) {
        return false;
    }
    bool is_other_user = (told.st_mode & S_ISUID) != 0 && told.st_uid != getuid();
    bool is_other_group =
        (told.st_mode & S_ISGID) != 0 && (told.st_mode & S_IXGRP) != 0 && told.st_gid != getgid();
    bool is_capable =
        getuid() != 0
        && getxattr(program, "security.capability", capabilities, sizeof capabilities) > 0;
    return is_other_user || is_other_group || is_capable;
}

/* Whether the first bytes of a file are those of a program that names no dynamic linker. */
static bool has_no_linker(const char *head, size_t length)
{
    ElfW(Ehdr) program;
    ElfW(Phdr) part = {0};
    if (length < sizeof program || memcmp(head, ELFMAG, SELFMAG) != 0
        || head[EI_CLASS] != ELFCLASS64) {
        return false;
    }
    memcpy(&program, head, sizeof program);
    for (size_t k = 0; k < program.e_phnum && part.p_type != PT_INTERP; k++) {
        size_t at = program.e_phoff + k * sizeof part;
        if (at > length - sizeof part) {
            return false;
        }
        memcpy(&part, head + at, sizeof part);
    }
    return part.p_type != PT_INTERP;
}

static bool is_static(const char *program)
{
    char head[HEAD_MOST];
    int file = (int)syscall(SYS_openat, AT_FDCWD, program, O_RDONLY | O_CLOEXEC);
    long length = file < 0 ? 0 : syscall(SYS_read, file, head, sizeof head);
    if (file >= 0) {
        syscall(SYS_close, file);
    }
    return length > 0 && has_no_linker(head, (size_t)length);
}

/* Whether nothing is preloaded into a program, by its file. One that is looked for on the path
 * isn't known. A filter of system calls can end a process for a look at a file. */
static bool is_preloaded_nothing(const char *program)
{
    int code = errno;
    bool is_so = strchr(program, '/') != NULL && log_may_open()
                 && (is_secure(program) || is_static(program));
    errno = code;
    return is_so;
}

/* An entry of the index: a process without a log, and its program, which is cut where it is
 * long. */
static void note(pid_t process, const char *program)
{
    char entry[PROGRAM_MOST + 32];
    char *end = put_decimal(entry, (size_t)process);
    size_t length = strlen(program) < PROGRAM_MOST ? strlen(program) : PROGRAM_MOST;
    *end++ = 0;
    *end++ = 0;
    memcpy(end, program, length);
    end += length;
    *end++ = 0;
    log_note(entry, (size_t)(end - entry));
}

bool child_note(pid_t process, const char *program, char *const variables[])
{
    bool is_untraced = program != NULL && program[0] != 0
                       && (!has_tracer(variables) || is_preloaded_nothing(program));
    if (is_untraced) {
        note(process, program);
    }
    return is_untraced;
}

void child_take_back(pid_t process) { note(process, ""); }

typedef const posix_spawn_file_actions_t *actions_t;
typedef const posix_spawnattr_t *attributes_t;

/* The same of a program that was started, if it was. */
static int note_spawned(int result, const pid_t *process, const char *program,
                        char *const variables[])
{
    if (result == 0) {
        child_note(*process, program, variables == NULL ? environ : variables);
    }
    return result;
}

EXPORT int posix_spawn(pid_t *process, const char *path, actions_t actions, attributes_t attributes,
                       char *const words[], char *const variables[])
{
    pid_t own, *told = process == NULL ? &own : process;
    find_real();
    return note_spawned(real.posix_spawn(told, path, actions, attributes, words, variables), told,
                        path, variables);
}

EXPORT int posix_spawnp(pid_t *process, const char *file, actions_t actions,
                        attributes_t attributes, char *const words[], char *const variables[])
{
    pid_t own, *told = process == NULL ? &own : process;
    find_real();
    return note_spawned(real.posix_spawnp(told, file, actions, attributes, words, variables), told,
                        file, variables);
}

/* A command of the shell is noted by its words, and by the process that starts it. */
EXPORT int system(const char *command)
{
    find_real();
    if (command != NULL) {
        child_note(getpid(), command, environ);
    }
    return real.system(command);
}

EXPORT FILE *popen(const char *command, const char *mode)
{
    find_real();
    FILE *stream = real.popen(command, mode);
    if (stream != NULL) {
        int code = errno;
        child_note(getpid(), command, environ);
        errno = code;
    }
    return stream;
}
