/* trace.h: the parts of libtlsf_trace.so, a tracer of malloc's calls. It is preloaded by
 * bin/trace, and writes the log that docs/FORMATS.md describes. Not proved.
 *
 *     calls.c    the calls of malloc that stand in for those of the C library
 *     stack.c    the stack of a call: its frames, and its number
 *     module.c   the program or library that an address is in
 *     told.c     the modules and stacks that the log has told
 *     text.c     numbers as text
 *     log.c      the log: a file that is mapped ahead
 *     ring.c     the same without a file: a ring in memory, whose follower (follow/) gives its
 *                lines to tlsf
 *     slots.c    the slots by which a running program calls malloc
 *     since.c    the blocks that are held since a running program is traced
 *     held.c     the blocks that are held at the end, by the log
 *     reach.c    which of them the process's memory still points to
 *     process.c  where a log begins and ends: start, fork, exec, exit, and a running program's
 *                orders
 *     child.c    the calls that start a program, of which those are noted that aren't traced
 *     limits.c   the calls by which a process limits itself: the log is made ready for that
 *
 * The environment has TLSF_TRACE_LOG, the log's name, behind `ring:` where it is a ring;
 * TLSF_TRACE_FRAMES, the most frames of a location; TLSF_TRACE_INDEX, a file to which each process
 * adds its log's name; and TLSF_TRACE_REACHABLE, with which each process tells what is still
 * reachable at its end.
 *
 * A program that runs already is told by gdb to call tlsf_trace_begin and tlsf_trace_end
 * (process.c). tracer/in_gdb.py tells where that is safe.
 */
#ifndef TLSF_TRACE_H
#define TLSF_TRACE_H

#include <spawn.h>
#include <stdbool.h>
#include <stddef.h>
#include <stdint.h>
#include <stdio.h>
#include <sys/auxv.h>
#include <sys/resource.h>
#include <sys/types.h>

#define EXPORT __attribute__((visibility("default")))
#define PAGE ((size_t)getauxval(AT_PAGESZ))
#define CALLER __builtin_extract_return_addr(__builtin_return_address(0))

/* Bytes of the grammar: a location, the longest line with its newline, and of the last two lines
 * of a realloc. A path has at most PATH_MOST bytes with its end. */
enum { LOCATION_MOST = 255, LINE_MOST = 317, LINES_MOST = 2 * LINE_MOST, PATH_MOST = 4096 };

/* The most frames that a stack can be asked to have. Behind these one more can stand, for all
 * others. */
enum { FRAMES_MOST = 256 };

/* Whether this thread is in the tracer: what it asks for then isn't written. */
extern __thread bool inside __attribute__((tls_model("initial-exec")));

/* process.c */

/* The names of the C library, or of an allocator behind this library, by dlsym. */
struct real {
    void *(*malloc)(size_t);
    void (*free)(void *);
    void *(*calloc)(size_t, size_t);
    void *(*realloc)(void *, size_t);
    void *(*memalign)(size_t, size_t);
    void *(*aligned_alloc)(size_t, size_t);
    int (*posix_memalign)(void **, size_t, size_t);
    void *(*valloc)(size_t);
    void *(*pvalloc)(size_t);
    int (*dlclose)(void *);
    void *(*dlopen)(const char *, int);
    int (*execve)(const char *, char *const[], char *const[]);
    int (*execv)(const char *, char *const[]);
    int (*execvp)(const char *, char *const[]);
    int (*execvpe)(const char *, char *const[], char *const[]);
    int (*fexecve)(int, char *const[], char *const[]);
    int (*execveat)(int, const char *, char *const[], char *const[], int);
    int (*posix_spawn)(pid_t *, const char *, const posix_spawn_file_actions_t *,
                       const posix_spawnattr_t *, char *const[], char *const[]);
    int (*posix_spawnp)(pid_t *, const char *, const posix_spawn_file_actions_t *,
                        const posix_spawnattr_t *, char *const[], char *const[]);
    int (*system)(const char *);
    FILE *(*popen)(const char *, const char *);
    int (*prctl)(int, ...);
    long (*syscall)(long, ...);
    int (*mlockall)(int);
    int (*setrlimit)(int, const struct rlimit *);
    int (*prlimit)(pid_t, int, const struct rlimit *, struct rlimit *);
};
extern struct real real;

/* Fills `real`, where that wasn't done. */
void find_real(void);

/* Whether this call is to be written: then the thread is inside until leave(). A process begins
 * its log with its first call. */
bool enter(void);
void leave(void);

/* Begins the log of a process that has none yet, and before one that may call read and write alone
 * ends it for good. */
void begin_early(void);
void end_early(void);

/* A line on standard error, behind the tracer's name. */
void say(const char *what, const char *why);

/* log.c: but for log_forget and log_detach, with the lock held. */

void log_lock(void);
void log_unlock(void);

/* Makes the log of this process by its name, in which %p is the process's number, and writes
 * `= Start`. Returns whether it could. */
bool log_begin(const char *name);

/* Writes whole lines, at most LINES_MOST bytes. */
void log_write(const char *lines, size_t length);

/* Writes `= End` and cuts the file to its length. Later lines stand in front of it. */
void log_end(void);

/* Ends the log: nothing is traced from then on. */
void log_close(void);

/* The log stays as it is, with a last line that it is cut, for a reason that is said. */
void log_drop(const char *why);

/* From now on this process may open no file, since a filter of its system calls might end it for
 * that; or it may again. */
void log_seal(bool is_on);

bool log_is_sealed(void);

/* Whether it may: so not where another filter came unseen, either. */
bool log_may_open(void);

/* From now on no more of the file is mapped than is needed: memory is limited or locked. */
void log_keep_small(void);

/* Takes back the end: the program goes on. */
void log_resume(void);

/* Whether this process has a log: not so in a child of a fork that hasn't begun its own. */
bool log_is_on(void);

/* The process that began the log, or 0. */
pid_t log_process(void);

/* In a child of a fork: the log is the parent's. */
void log_forget(void);

/* The same where a handler forked while its thread was in the tracer, to which the child returns:
 * what it writes there is lost. */
void log_detach(void);

/* The name of the log's file, as long as this process has one. */
const char *log_path(void);

/* Adds words to the index, each ended by a zero, in one write. Without the lock: a child of vfork
 * may do it. */
void log_note(const char *words, size_t length);

/* ring.c: but for ring_forget and ring_detach, with the log's lock held. Where no system call may
 * be made, as behind a filter, none is. */

bool ring_is_on(void);

/* Looks for the follower by the file `session` beside a ring's name: where tracing begins late
 * another than before. Returns whether it is there. Then each ring has another number. */
bool ring_session(const char *name, bool is_late);
unsigned ring_number(void);

/* Makes a ring of this name, of a log that began then. Returns whether it could; errno is ENOSPC
 * where there is no memory. */
bool ring_begin(const char *path, uint64_t begun);

/* Writes whole lines, once there is room. Returns whether the follower reads them: else it is
 * gone. */
bool ring_write(const char *text, size_t length, bool may_call);

/* Whether the log has its end. Returns as above. */
bool ring_end(bool is_ended, bool may_call);

/* Gives the ring up; the same where the log goes on without being whole. */
void ring_leave(void);
void ring_cut(void);

/* As log_forget and log_detach. */
void ring_forget(void);
void ring_detach(void);

/* child.c */

/* Notes a program that is to be started with these variables, or the process's own, where they
 * don't preload the tracer. Returns whether they don't. And takes the last note of a process
 * back. */
bool child_note(pid_t process, const char *program, char *const variables[]);
void child_take_back(pid_t process);

/* since.c: with the lock held. */

/* What adding an address found: it is new; it was held already; or there is no memory for it. */
enum since { ADDED, HELD, NO_MEMORY };

/* From now on blocks are from before, or added. Returns whether there is memory. */
bool since_begin(void);
void since_end(void);
bool since_is_on(void);

/* Adds a block that was given. */
enum since since_add(uintptr_t address);

/* Whether a block is held; and the same, after which it isn't: one from before is counted. */
bool since_has(uintptr_t address);
bool since_take(uintptr_t address);

/* How many blocks from before were freed. */
size_t since_before(void);

/* slots.c */

/* Writes the tracer's calls into the slots of all objects, or takes them out. */
void slots_turn(bool on);

/* A call of malloc: now and then, and behind a dlopen, objects that came are looked for. */
void slots_pass(void);

/* Looks at the objects that came. */
void slots_renew(void);

void slots_in_child(void);

/* held.c: with the lock held. */

/* How a block is pointed to: by nothing that is reachable; by a chain of pointers of which one
 * points amid its block; or by a chain of pointers to where blocks begin. */
enum reach { LOST, POSSIBLY_LOST, REACHABLE, REACHES };

/* A block that is held: its address, the bytes that were asked for, and the number of its stack, or
 * 0. One that is lost with others which lead to it has the number of their first's stack, or 0. */
struct block {
    uintptr_t start;
    size_t size;
    uint32_t stack;
    uint32_t reach;
    uint32_t leader;
};

/* The blocks that are held, in order of address, and the greatest number of a stack. While the log
 * is read they stand in a table of these places. */
struct held {
    struct block *blocks;
    size_t count, places;
    uint32_t stacks;
};

/* Reads what is held at the end of a log of this tracer. Returns whether it could. */
bool held_read(struct held *held, const char *log);

/* A log begins, whose lines are taken from now on, or aren't; takes whole lines; and copies what is
 * held by these. Returns whether all could be taken: not so where there was no memory, or a system
 * call was needed that may not be made. */
void held_begin(bool is_on);
void held_take(const char *lines, size_t length, bool may_call);
bool held_copy(struct held *held);

/* The block that has an address, or null. */
struct block *held_find(const struct held *held, uintptr_t address);

/* Memory of the system for the search and since.c, as zeros, or null; whether an address is in it;
 * and its end. */
void *take_pages(size_t bytes);
bool is_taken(uintptr_t address);
void give_pages(void *memory);

/* reach.c */

/* Looks up where the C library has its data. */
void reach_begin(void);

/* The process is a child of a fork: blocks of its parent aren't in its log. */
void reach_in_child(void);

/* Writes LOG.reachable: what is lost, and what is still reachable. With the lock of the log held,
 * behind its end. Each register that the caller may not change is to stand in the caller's frame.
 * Of exit's last handler nothing on the stack counts but what stands above exit. */
void reach_tell(bool is_last_handler);

/* The process goes on: the file is taken away. */
void reach_resume(void);

/* module.c */

/* A file that is read line by line, by system calls alone: stdio would ask for memory. */
struct reader {
    int file;
    ssize_t at, end;
    char piece[1024];
    char line[PATH_MOST + 128];
};

/* Reads the next line, whose end may be cut off. Returns whether there is one. */
bool next_line(struct reader *reader);

/* Frames that aren't told: of `operator new` or `delete`, and those from the C library's start of
 * `main` on. */
enum kind { PROGRAM, OPERATOR, START };

/* The most modules, the number of known functions, and the most bytes of a build id: a longer one
 * isn't told. */
enum { MODULES_MOST = 2048, KNOWN = 19, BUILD_ID_MOST = 32 };

/* Code of one kind: what returns there was called by it. */
struct range {
    uintptr_t after, last;
    enum kind kind;
};

/* A module: where it begins in memory, its path as text, its build id, and its known functions. */
struct module {
    uintptr_t base;
    const char *text;
    size_t length;
    unsigned char build_id[BUILD_ID_MOST];
    unsigned build_id_length;
    unsigned ranges;
    struct range range[KNOWN];
};

/* The number of the module that an address is in. That of code which no file has is 0: it begins at
 * 0, and its path is `?`. */
unsigned find_module(uintptr_t address);

/* The module of a number. */
const struct module *module_at(unsigned number);

struct dl_phdr_info;

/* An entry of an object's dynamic section, or 0. One that is an address is relocated. */
uintptr_t dynamic_entry(const struct dl_phdr_info *info, long tag, bool is_address);

/* The address of a name in the first object that defines it, or 0. */
uintptr_t first_definition(const char *name);

/* The kind of the code that an address returns to, in its module. */
enum kind kind_of(const struct module *module, uintptr_t address);

/* Looks for the program's own path. */
void module_begin(void);

/* In a child of a fork, where there is no other thread. */
void module_in_child(void);

/* stack.c */

/* A frame that is told: its module, and the address that it returns to, less the module's base.
 * Module 0 at 0 stands for frames that aren't told. */
struct place {
    uint64_t offset;
    unsigned module;
};

/* Looks for the unwinder, and takes the most frames of a stack. */
void stack_begin(unsigned frames);

/* The number of the stack of a call that returns to an address, which the log has told then; or 0
 * where there is no memory for it. */
unsigned stack_number(void *caller);

/* Modules were unloaded: their addresses may be those of others. */
void stack_forget(void);

/* Before a fork, until no other thread looks for a stack; behind it in the parent; and in the
 * child, where there is no other thread. */
void stack_before_fork(void);
void stack_in_parent(void);
void stack_in_child(void);

/* told.c */

/* The number of a stack of 1 to FRAMES_MOST + 1 frames, which is told where it is new. 0 where
 * there is no memory for it. With the log's lock held. */
unsigned told_stack(const struct place *frames, unsigned length);

/* Nothing was told: the log is a new one. In a child of a fork that isn't before its first call,
 * since a handler's fork may have come amid told_stack, to which the child returns. */
void told_forget(void);

/* text.c: each writes a number, and returns where it ends. */

/* Hexadecimal digits. */
char *put_digits(char *to, uintptr_t number);

/* `0x` and hexadecimal digits. */
char *put_hex(char *to, uintptr_t number);

/* Decimal digits. */
char *put_decimal(char *to, size_t number);

/* A number of this process that no program knows before it runs, taken by stack_begin: so none can
 * choose what collides. */
extern uint64_t mix_seed;

/* A number whose bits all depend on all of another's. */
static inline uint64_t mix(uint64_t number)
{
    number = (number ^ mix_seed) * 0x9E3779B97F4A7C15u;
    return (number ^ number >> 32) * 0xD6E8FEB86659FD93u;
}

#endif
