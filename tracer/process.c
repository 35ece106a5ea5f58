/* process.c: where a log begins and ends. */
#define _GNU_SOURCE
#include "trace.h"

#include <dlfcn.h>
#include <errno.h>
#include <link.h>
#include <pthread.h>
#include <stdarg.h>
#include <stdlib.h>
#include <string.h>
#include <sys/stat.h>
#include <sys/syscall.h>
#include <unistd.h>

enum { FRAMES_USUAL = 256 };

__thread bool inside __attribute__((tls_model("initial-exec")));
struct real real;
static char name[PATH_MOST];
/* Whether settings were read, and whether nothing is to be traced. */
static bool is_set;
static bool is_off;
/* Whether tracing began while the program ran, and wasn't ended by order; and whether handlers were
 * tied then. */
static bool is_late, is_ordered, is_tied;
/* Whether what is still reachable is told at the end, and whether the last handler of exit runs. */
static bool tells_reachable, is_last_handler;

extern int __cxa_atexit(void (*)(void *), void *, void *);

void say(const char *what, const char *why)
{
    const char *parts[] = {"tlsf-trace: ", what, " ", why, "\n"};
    for (size_t k = 0; k < sizeof parts / sizeof *parts; k++) {
        syscall(SYS_write, STDERR_FILENO, parts[k], strlen(parts[k]));
    }
}

/* Looks a name up behind this library. A pointer to code is no pointer to data, so it is copied. */
static void find(const char *symbol, void *place)
{
    void *found = dlsym(RTLD_NEXT, symbol);
    memcpy(place, &found, sizeof found);
}

void find_real(void)
{
    if (real.malloc != NULL) {
        return;
    }
    bool before = inside;
    inside = true;
    find("syscall", &real.syscall);
    find("free", &real.free);
    find("calloc", &real.calloc);
    find("realloc", &real.realloc);
    find("memalign", &real.memalign);
    find("aligned_alloc", &real.aligned_alloc);
    find("posix_memalign", &real.posix_memalign);
    find("valloc", &real.valloc);
    find("pvalloc", &real.pvalloc);
    find("dlclose", &real.dlclose);
    find("dlopen", &real.dlopen);
    find("execve", &real.execve);
    find("execv", &real.execv);
    find("execvp", &real.execvp);
    find("execvpe", &real.execvpe);
    find("fexecve", &real.fexecve);
    find("execveat", &real.execveat);
    find("posix_spawn", &real.posix_spawn);
    find("posix_spawnp", &real.posix_spawnp);
    find("system", &real.system);
    find("popen", &real.popen);
    find("prctl", &real.prctl);
    find("mlockall", &real.mlockall);
    find("setrlimit", &real.setrlimit);
    find("prlimit", &real.prlimit);
    find("malloc", &real.malloc);
    inside = before;
}

/* ---- the end */

/* Ends the log where it is this process's: a child of vfork shares the memory of its parent. A
 * signal's handler that came while its thread was in the tracer may not wait for the lock.
 * Registers are put onto the stack, where reach_tell looks for pointers. */
__attribute__((noinline)) static bool end_by(bool is_closed)
{
    if (inside || !log_is_on() || getpid() != log_process()) {
        return false;
    }
    inside = true;
    log_lock();
    log_end();
    if (tells_reachable && log_may_open()) {
        __builtin_unwind_init();
        reach_tell(is_last_handler);
    } else if (tells_reachable) {
        say(log_path(),
            "has no list of what is reachable: a filter of system calls may forbid to read it");
    }
    if (is_closed) {
        log_close();
    }
    log_unlock();
    inside = false;
    return true;
}

static bool end(void) { return end_by(false); }

/* Whether this thread is the only one, by the links of the folder that has one for each. */
static bool is_alone(void)
{
    struct stat told;
    return stat("/proc/self/task", &told) == 0 && told.st_nlink == 3;
}

/* Calls a function by its name, of the first object that has it and of the first library: a program
 * may have the library of C++ in itself. */
static void call_each(const char *symbol)
{
    inside = true;
    void *found[] = {dlsym(RTLD_DEFAULT, symbol), dlsym(RTLD_NEXT, symbol)};
    inside = false;
    for (size_t k = 0; k < 2; k++) {
        void (*release)(void);
        memcpy(&release, &found[k], sizeof release);
        if (release != NULL && (k == 0 || found[k] != found[0])) {
            release();
        }
    }
}

/* The C library gives back what it keeps for itself, as it does for mtrace(3), and so does that of
 * C++. Another thread might still use it. */
static void release_libraries(void)
{
    call_each("_ZN9__gnu_cxx9__freeresEv");
    call_each("__libc_freeres");
}

static void at_exit(void *unused)
{
    (void)unused;
    if (!inside && log_is_on() && log_may_open() && is_alone()) {
        release_libraries();
    }
    is_last_handler = true;
    end();
    is_last_handler = false;
}

static void at_quick(void) { end(); }

/* Where tracing began late a handler would run before those of the program: this runs behind
 * them. */
__attribute__((destructor)) static void at_last(void)
{
    if (is_late) {
        end();
    }
}

EXPORT void _exit(int status)
{
    end();
    for (;;) {
        syscall(SYS_exit_group, status);
    }
}

EXPORT void _Exit(int status) { _exit(status); }

/* ---- the start */

static void forget_parent(void)
{
    log_forget();
    stack_in_child();
    reach_in_child();
    slots_in_child();
}

/* In the child of a fork. */
static void in_child(void)
{
    if (inside) {
        log_detach();
        stack_in_child();
        reach_in_child();
        slots_in_child();
    } else {
        forget_parent();
    }
}

/* Takes the log's name, the most frames, and whether what is reachable is told. */
static void take(const char *log, int frames, bool reachable)
{
    strcpy(name, log);
    stack_begin(frames < 1 ? 1 : frames > FRAMES_MOST ? FRAMES_MOST : (unsigned)frames);
    tells_reachable = reachable;
    if (reachable) {
        reach_begin();
    }
}

/* Reads the environment, once. */
static void set(void)
{
    const char *given = getenv("TLSF_TRACE_LOG");
    const char *frames = getenv("TLSF_TRACE_FRAMES");
    const char *reachable = getenv("TLSF_TRACE_REACHABLE");
    is_set = true;
    is_off = given == NULL || given[0] == 0 || strlen(given) >= sizeof name;
    if (!is_off) {
        take(given, frames == NULL ? FRAMES_USUAL : atoi(frames),
             reachable != NULL && reachable[0] != 0);
        pthread_atfork(stack_before_fork, stack_in_parent, in_child);
        /* Tied to no library, so that it runs behind the destructors of all. */
        __cxa_atexit(at_exit, NULL, NULL);
        at_quick_exit(at_quick);
    }
}

/* Begins a log where this process has none. Too early is a call before there is an environment, or
 * amid the work of the dynamic linker. */
static bool begin(void)
{
    if (is_off || log_process() == getpid()) {
        return false;
    }
    if (!is_set && (environ == NULL || _r_debug.r_state != RT_CONSISTENT)) {
        return false;
    }
    int code = errno;
    if (log_process() != 0) {
        forget_parent();
    }
    if (!is_set) {
        set();
    }
    if (!is_off) {
        log_lock();
        if (!log_is_on()) {
            held_begin(tells_reachable);
            is_off = !log_begin(name);
        }
        log_unlock();
    }
    errno = code;
    return !is_off;
}

bool enter(void)
{
    if (inside) {
        return false;
    }
    find_real();
    inside = true;
    if (!log_is_on() && !begin()) {
        inside = false;
        return false;
    }
    if (is_late) {
        slots_pass();
    }
    return true;
}

void leave(void) { inside = false; }

void begin_early(void)
{
    if (enter()) {
        leave();
    }
}

void end_early(void)
{
    if (!inside && log_is_on() && getpid() == log_process()) {
        is_off = true;
        log_lock();
        log_drop("is cut, since its process may call read and write alone from now on");
        log_unlock();
    }
}

__attribute__((constructor)) static void start(void) { begin_early(); }

/* ---- a running program, whose debugger calls these */

static void tie(void)
{
    if (!is_tied) {
        pthread_atfork(stack_before_fork, stack_in_parent, in_child);
        at_quick_exit(at_quick);
        is_tied = true;
    }
}

/* Begins a log whose name is taken. Slots are changed first: so no block of the log is freed
 * unseen. */
static bool begin_late(void)
{
    is_late = true;
    is_off = true;
    stack_forget();
    slots_turn(true);
    log_lock();
    held_begin(tells_reachable);
    bool made = since_begin() && log_begin(name);
    log_unlock();
    if (!made) {
        slots_turn(false);
    }
    is_ordered = made;
    return made;
}

/* Begins to trace this process. Returns the log's name, which begins with a slash, or why it can't
 * be. */
EXPORT const char *tlsf_trace_begin(const char *log, int frames, int reachable)
{
    uintptr_t theirs;
    find_real();
    memcpy(&theirs, &real.malloc, sizeof theirs);
    if (log_is_on()) {
        return "it is traced already";
    }
    if (first_definition("malloc") != theirs) {
        return "its malloc isn't that of the C library";
    }
    if (strlen(log) >= sizeof name) {
        return "the log's name is too long";
    }
    inside = true;
    take(log, frames, reachable != 0);
    tie();
    if (reachable != 0) {
        /* Blocks from before are no blocks of the log, as those of a parent. */
        reach_in_child();
    }
    bool begun = begin_late();
    inside = false;
    return begun ? log_path() : "the log can't be made";
}

/* Ends the log of this process, which goes on without being traced. Returns as above. */
EXPORT const char *tlsf_trace_end(void)
{
    if (!is_ordered || getpid() != log_process()) {
        return "it isn't traced since it runs";
    }
    /* A log that can't go on has ended by itself. */
    end_by(true);
    is_ordered = false;
    slots_turn(false);
    return log_path();
}

/* ---- exec: the log ends, and goes on where the call returns */

/* What was done before a call of exec: whether the log has ended, and whether the program is noted
 * as untraced. */
struct before {
    bool ended, noted;
};

static struct before leave_for(const char *program, char *const variables[])
{
    find_real();
    struct before before = {end(), child_note(getpid(), program, variables)};
    return before;
}

static int back(struct before before, int result)
{
    int code = errno;
    if (before.noted) {
        child_take_back(getpid());
    }
    if (before.ended) {
        inside = true;
        log_lock();
        log_resume();
        if (tells_reachable && log_may_open()) {
            reach_resume();
        }
        log_unlock();
        inside = false;
    }
    errno = code;
    return result;
}

EXPORT int execve(const char *path, char *const words[], char *const variables[])
{
    struct before before = leave_for(path, variables);
    return back(before, real.execve(path, words, variables));
}

EXPORT int execv(const char *path, char *const words[])
{
    struct before before = leave_for(path, environ);
    return back(before, real.execv(path, words));
}

EXPORT int execvp(const char *file, char *const words[])
{
    struct before before = leave_for(file, environ);
    return back(before, real.execvp(file, words));
}

EXPORT int execvpe(const char *file, char *const words[], char *const variables[])
{
    struct before before = leave_for(file, variables);
    return back(before, real.execvpe(file, words, variables));
}

EXPORT int fexecve(int file, char *const words[], char *const variables[])
{
    struct before before = leave_for(words[0], variables);
    return back(before, real.fexecve(file, words, variables));
}

EXPORT int execveat(int folder, const char *path, char *const words[], char *const variables[],
                    int flags)
{
    struct before before = leave_for(path[0] == 0 ? words[0] : path, variables);
    return back(before, real.execveat(folder, path, words, variables, flags));
}

/* The number of words of a list that ends with a null pointer. */
static size_t count_words(const char *word, va_list list)
{
    size_t count = 0;
    for (; word != NULL; word = va_arg(list, const char *)) {
        count++;
    }
    return count;
}

/* Copies the words of a list, and behind its end what execle has there. */
static char *const *take_words(char **words, const char *word, va_list list, bool with_variables)
{
    size_t count = 0;
    for (; word != NULL; word = va_arg(list, const char *)) {
        memcpy(&words[count++], &word, sizeof word);
    }
    words[count] = NULL;
    return with_variables ? va_arg(list, char *const *) : NULL;
}

#define TAKE_WORDS(word, with_variables) \
    va_list list; \
    va_start(list, word); \
    char *words[count_words(word, list) + 1]; \
    va_end(list); \
    va_start(list, word); \
    char *const *variables = take_words(words, word, list, with_variables); \
    va_end(list); \
    (void)variables

EXPORT int execl(const char *path, const char *word, ...)
{
    TAKE_WORDS(word, false);
    return execv(path, words);
}

EXPORT int execlp(const char *file, const char *word, ...)
{
    TAKE_WORDS(word, false);
    return execvp(file, words);
}

EXPORT int execle(const char *path, const char *word, ...)
{
    TAKE_WORDS(word, true);
    return execve(path, words, variables);
}

EXPORT int dlclose(void *library)
{
    find_real();
    int result = real.dlclose(library);
    stack_forget();
    return result;
}
