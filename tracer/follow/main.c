/* main.c: tlsf-follow, which gives the lines of traced processes to tlsf while they run.
 *
 *     tlsf-follow [-k] [-m BYTES] [-g] [-e MS] [-r BYTES] RINGS FOLDER TLSF WORD..
 *
 * In the folder RINGS each traced process makes a ring (ring.h). Of each FOLDER gets NAME.report,
 * what `TLSF WORD..` tells of its lines, and NAME.told, the lines of modules and stacks; with -k
 * NAME.log, all lines, or with -m as many bytes of them at most. A process that tells what is
 * reachable, into a file beside its ring, has NAME.reachable. With -e a report is due each MS
 * milliseconds, as TLSF knows by its own words, and at SIGUSR1. With -g a process goes on untraced
 * where TLSF hangs. FOLDER/states gets how each ended.
 *
 * `ready` on standard output tells that processes may begin. At SIGTERM it ends once no process is
 * left, at SIGINT it lets all go at once. Its status is 3 where lines were lost, or a process
 * couldn't make a ring. bin/trace starts it.
 */
#define _GNU_SOURCE
#include "follow.h"

#include <dirent.h>
#include <errno.h>
#include <fcntl.h>
#include <limits.h>
#include <linux/futex.h>
#include <poll.h>
#include <signal.h>
#include <stdio.h>
#include <stdlib.h>
#include <string.h>
#include <sys/inotify.h>
#include <sys/mman.h>
#include <sys/prctl.h>
#include <sys/signalfd.h>
#include <sys/syscall.h>
#include <sys/wait.h>
#include <unistd.h>

/* How often a process that begins is looked for, in milliseconds, and how many times. */
enum { RING_LEAST = 1 << 16, SET_UP_FAILED = 2, LOOK_EACH = 50, LOOKS_MOST = 100 };

struct asked asked = {.keep_most = ULONG_MAX};

/* A ring that is followed: its name, its head, and its follower. */
struct followed {
    char *name;
    struct ring *ring;
    pid_t follower;
};

static struct followed *all;
static size_t count, room;
static struct session *session;
static bool is_over, is_stopped, has_lost;
/* How many programs run, with their children. */
static long programs;

static size_t page(void) { return (size_t)sysconf(_SC_PAGESIZE); }

void say(const char *what, const char *why) { fprintf(stderr, "tlsf-trace: %s: %s\n", what, why); }

static void die(const char *what)
{
    say(what, strerror(errno));
    exit(SET_UP_FAILED);
}

void wake(uint32_t *word)
{
    __atomic_add_fetch(word, 1, __ATOMIC_RELEASE);
    syscall(SYS_futex, word, FUTEX_WAKE, 1, NULL, NULL, 0);
}

static const char *path_in(const char *folder, const char *name, int length, const char *end)
{
    static char path[PATH_MAX];
    snprintf(path, sizeof path, "%s/%.*s%s", folder, length, name, end);
    return path;
}

const char *file_of(const char *ring, const char *end)
{
    return path_in(asked.folder, ring, (int)(strlen(ring) - strlen("ring")), end);
}

/* ---- rings */

/* The follower of a ring dies with this process, which a session's owner is. */
static void become_follower(int file, const char *name, pid_t parent)
{
    prctl(PR_SET_PDEATHSIG, SIGKILL);
    if (getppid() == parent) {
        exit(follow_ring(file, name));
    }
    exit(LOST_SOME);
}

static void add(struct followed fresh)
{
    if (count == room) {
        room = room == 0 ? 16 : 2 * room;
        struct followed *more = realloc(all, room * sizeof *all);
        if (more == NULL) {
            die(fresh.name);
        }
        all = more;
    }
    all[count++] = fresh;
}

/* Follows a ring, whose file has no name from then on: so nothing is left of it, whatever ends
 * all. */
static void follow(const char *name)
{
    char path[PATH_MAX];
    snprintf(path, sizeof path, "%s/%s", asked.rings, name);
    int file = open(path, O_RDWR | O_CLOEXEC);
    struct ring *ring =
        file < 0 ? MAP_FAILED : mmap(NULL, page(), PROT_READ | PROT_WRITE, MAP_SHARED, file, 0);
    if (ring == MAP_FAILED) {
        say(path, strerror(errno));
        has_lost = true;
        return;
    }
    unlink(path);
    pid_t parent = getpid();
    struct followed fresh = {strdup(name), ring, fork()};
    if (fresh.follower == 0) {
        become_follower(file, name, parent);
    }
    if (fresh.name == NULL || fresh.follower < 0) {
        die(path);
    }
    add(fresh);
    close(file);
}

static struct followed *find(const char *name)
{
    for (size_t k = 0; k < count; k++) {
        if (strcmp(all[k].name, name) == 0) {
            return &all[k];
        }
    }
    return NULL;
}

/* A process reads no more of its ring, and goes on. */
static void let_go(const struct followed *one)
{
    __atomic_store_n(&one->ring->is_dropped, 1, __ATOMIC_RELEASE);
    wake(&one->ring->room);
    wake(&one->ring->news);
}

static void let_all_go(void)
{
    is_over = is_stopped = true;
    for (size_t k = 0; k < count; k++) {
        let_go(&all[k]);
    }
}

/* A follower ended. Where something ended it its process is let go. */
static void forget(pid_t follower, int status)
{
    size_t k = 0;
    while (k < count && all[k].follower != follower) {
        k++;
    }
    if (k == count) {
        return;
    }
    if (!WIFEXITED(status)) {
        let_go(&all[k]);
        say(file_of(all[k].name, "report"), "its follower was killed, so the log is cut");
    }
    has_lost |= !WIFEXITED(status) || WEXITSTATUS(status) != KEPT_ALL;
    munmap(all[k].ring, page());
    free(all[k].name);
    all[k] = all[--count];
}

/* ---- what the kernel tells */

static bool ends_with(const char *name, const char *end)
{
    size_t length = strlen(name), tail = strlen(end);
    return length >= tail && strcmp(name + length - tail, end) == 0;
}

/* A ring got its name, so it is ready; or its process maps it no more. */
static void take_ring(const char *name, bool is_ready)
{
    struct followed *one = find(name);
    if (is_ready) {
        follow(name);
    } else if (one != NULL) {
        __atomic_store_n(&one->ring->is_closed, 1, __ATOMIC_RELEASE);
        wake(&one->ring->news);
    }
}

/* A program began; or none of its processes is left. */
static void take_program(const char *name, bool began)
{
    programs += began ? 1 : -1;
    if (!began) {
        unlink(path_in(asked.rings, name, (int)strlen(name), ""));
    }
}

/* Events that are alike and follow each other are one for the kernel. Here each has a name of its
 * own. */
static void take_event(const struct inotify_event *event)
{
    if ((event->mask & IN_Q_OVERFLOW) != 0) {
        errno = EOVERFLOW;
        die(asked.rings);
    }
    const char *name = event->len == 0 ? "" : event->name;
    if (ends_with(name, ".ring") && (event->mask & (IN_MOVED_TO | IN_CLOSE_WRITE)) != 0) {
        take_ring(name, (event->mask & IN_MOVED_TO) != 0);
    } else if (ends_with(name, ".here") && (event->mask & (IN_CREATE | IN_CLOSE_WRITE)) != 0) {
        take_program(name, (event->mask & IN_CREATE) != 0);
    }
}

static bool take_events(int events)
{
    _Alignas(struct inotify_event) char told[1 << 14];
    ssize_t length = read(events, told, sizeof told);
    for (ssize_t at = 0; at < length;) {
        const struct inotify_event *event = (const void *)(told + at);
        take_event(event);
        at += (ssize_t)sizeof *event + event->len;
    }
    return length > 0;
}

static void tell_stopped(pid_t follower)
{
    for (size_t k = 0; k < count; k++) {
        if (all[k].follower == follower) {
            say(file_of(all[k].name, "report"),
                "its follower is stopped by a signal, so its process may have to wait");
        }
    }
}

static void take_children(void)
{
    int status;
    for (pid_t child; (child = waitpid(-1, &status, WNOHANG | WUNTRACED)) > 0;) {
        if (WIFSTOPPED(status)) {
            tell_stopped(child);
        } else {
            forget(child, status);
        }
    }
}

static void take_signal(int signals)
{
    struct signalfd_siginfo told;
    if (read(signals, &told, sizeof told) != (ssize_t)sizeof told) {
        return;
    }
    if (told.ssi_signo == SIGTERM) {
        is_over = true;
    } else if (told.ssi_signo == SIGINT) {
        let_all_go();
    } else if (told.ssi_signo == SIGUSR1) {
        for (size_t k = 0; k < count; k++) {
            kill(all[k].follower, SIGUSR1);
        }
    }
}

/* Whether a process has variables by which it makes its ring here. */
static bool has_variables(const char *process)
{
    static char variables[1 << 18];
    char wanted[PATH_MAX], name[64];
    snprintf(wanted, sizeof wanted, "TLSF_TRACE_LOG=ring:%s/", asked.rings);
    snprintf(name, sizeof name, "/proc/%.20s/environ", process);
    int file = open(name, O_RDONLY | O_CLOEXEC);
    ssize_t length = file < 0 ? 0 : read(file, variables, sizeof variables);
    if (file >= 0) {
        close(file);
    }
    return length > 0 && memmem(variables, (size_t)length, wanted, strlen(wanted)) != NULL;
}

/* Whether a process has just become another program, which hasn't begun yet. One that isn't traced
 * is waited for for a while, too. */
static bool is_beginning(void)
{
    static int looks;
    DIR *processes = looks++ < LOOKS_MOST ? opendir("/proc") : NULL;
    bool is_found = false;
    for (struct dirent *entry;
         !is_found && processes != NULL && (entry = readdir(processes)) != NULL;) {
        is_found =
            entry->d_name[0] >= '1' && entry->d_name[0] <= '9' && has_variables(entry->d_name);
    }
    if (processes != NULL) {
        closedir(processes);
    }
    return is_found;
}

static bool is_any_left(void)
{
    return count > 0 || (!is_stopped && (programs > 0 || is_beginning()));
}

/* Until it is over, and no process is left that has a ring, or may begin one. */
static void follow_all(int events, int signals)
{
    struct pollfd both[] = {{events, POLLIN, 0}, {signals, POLLIN, 0}};
    while (!is_over || is_any_left()) {
        poll(both, 2, is_over && count == 0 && programs == 0 ? LOOK_EACH : -1);
        while (take_events(events)) {
        }
        if ((both[1].revents & POLLIN) != 0) {
            take_signal(signals);
        }
        /* What came before the end was asked for. */
        while (take_events(events)) {
        }
        /* Behind their signal, since the next is one with it until it is taken. */
        take_children();
    }
}

/* ---- begin */

/* The session: this thread is the owner of its futex, so that the kernel tells its death. */
static void open_session(unsigned long bytes)
{
    static struct robust_list_head head;
    const char *name = path_in(asked.rings, "session", 7, "");
    int file = open(name, O_RDWR | O_CREAT | O_CLOEXEC, 0600);
    void *memory = file < 0 || ftruncate(file, (off_t)page()) != 0
                       ? MAP_FAILED
                       : mmap(NULL, page(), PROT_READ | PROT_WRITE, MAP_SHARED, file, 0);
    if (memory == MAP_FAILED) {
        die(name);
    }
    close(file);
    session = memory;
    session->ring_bytes = RING_LEAST;
    while (session->ring_bytes < bytes) {
        session->ring_bytes *= 2;
    }
    session->owner = (uint32_t)syscall(SYS_gettid);
    session->next = &head;
    head.list.next = (struct robust_list *)(void *)session;
    head.futex_offset = offsetof(struct session, owner);
    syscall(SYS_set_robust_list, &head, sizeof head);
}

static int open_signals(void)
{
    const int numbers[] = {SIGTERM, SIGINT, SIGUSR1, SIGCHLD};
    sigset_t set;
    sigemptyset(&set);
    for (size_t k = 0; k < sizeof numbers / sizeof *numbers; k++) {
        sigaddset(&set, numbers[k]);
    }
    sigprocmask(SIG_BLOCK, &set, NULL);
    signal(SIGPIPE, SIG_IGN);
    return signalfd(-1, &set, SFD_CLOEXEC | SFD_NONBLOCK);
}

/* Takes the options. Returns the bytes of a ring. */
static unsigned long take_options(int argc, char **argv)
{
    unsigned long bytes = 0;
    for (int option; (option = getopt(argc, argv, "+kge:m:r:")) != -1;) {
        asked.keeps_lines |= option == 'k';
        asked.gives_up |= option == 'g';
        asked.every = option == 'e' ? strtoul(optarg, NULL, 10) : asked.every;
        asked.keep_most = option == 'm' ? strtoul(optarg, NULL, 10) : asked.keep_most;
        bytes = option == 'r' ? strtoul(optarg, NULL, 10) : bytes;
    }
    if (argc - optind < 3) {
        fputs("tlsf-follow [-k] [-m BYTES] [-g] [-e MS] [-r BYTES] RINGS FOLDER TLSF WORD..\n",
              stderr);
        exit(SET_UP_FAILED);
    }
    asked.rings = argv[optind];
    asked.folder = argv[optind + 1];
    asked.words = argv + optind + 2;
    return bytes;
}

int main(int argc, char **argv)
{
    unsigned long bytes = take_options(argc, argv);
    prctl(PR_SET_PDEATHSIG, SIGTERM);
    int signals = open_signals(), events = inotify_init1(IN_NONBLOCK | IN_CLOEXEC);
    if (signals < 0 || events < 0
        || inotify_add_watch(events, asked.rings, IN_CREATE | IN_MOVED_TO | IN_CLOSE_WRITE) < 0) {
        die(asked.rings);
    }
    open_session(bytes);
    puts("ready");
    fclose(stdout);
    follow_all(events, signals);
    unlink(path_in(asked.rings, "session", 7, ""));
    rmdir(asked.rings);
    return has_lost || session->untraced > 0 ? LOST_SOME : 0;
}
