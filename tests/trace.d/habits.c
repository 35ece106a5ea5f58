/* What a program relies on while it is traced, by the word given. The status is 0 where it is
 * kept. */
#define _GNU_SOURCE
#include <errno.h>
#include <fcntl.h>
#include <malloc.h>
#include <pwd.h>
#include <pthread.h>
#include <signal.h>
#include <stdint.h>
#include <stdio.h>
#include <stdlib.h>
#include <string.h>
#include <sys/time.h>
#include <sys/wait.h>
#include <unistd.h>

enum { ODD = 77, CALLS = 60000, FORKS = 300 };

/* Of a library that the user preloads. */
int preloaded(void) __attribute__((weak));

/* A call that succeeds leaves errno, also where the log goes on in its next piece. */
static int keeps_errno(void)
{
    for (int k = 0; k < CALLS; k++) {
        errno = ODD;
        char *block = malloc(10);
        block = errno == ODD ? realloc(block, 20) : NULL;
        void *zeros = errno == ODD ? calloc(2, 3) : NULL;
        void *aligned = errno == ODD ? memalign(64, 5) : NULL;
        free(block);
        free(zeros);
        free(aligned);
        if (errno != ODD) {
            return 1;
        }
    }
    return malloc(SIZE_MAX / 2) != NULL || errno != ENOMEM;
}

/* The signals of which Python ignores some. */
static int has_signals(void)
{
    return signal(SIGPIPE, SIG_DFL) != SIG_DFL || signal(SIGXFSZ, SIG_DFL) != SIG_DFL;
}

/* Products that no size holds: each call is refused. */
static int overflows(void)
{
    void *block = malloc(30);
    return calloc(SIZE_MAX / 2 + 2, 2) != NULL || reallocarray(block, SIZE_MAX / 4 + 2, 4) != NULL;
}

static volatile sig_atomic_t forks, failures, is_child, returns;

/* The child ends here, or behind the handler, with calls of its own. */
static void fork_one(int number)
{
    (void)number;
    int status = 0;
    if (is_child) {
        return;
    }
    pid_t child = fork();
    if (child == 0 && returns) {
        is_child = 1;
        return;
    }
    if (child == 0) {
        _exit(0);
    }
    waitpid(child, &status, 0);
    failures += status != 0;
    forks++;
}

/* A handler that forks, while its thread may be in the tracer. */
static int forks_in_handler(int with_return)
{
    struct itimerval often = {{0, 2000}, {0, 2000}};
    returns = with_return;
    signal(SIGALRM, fork_one);
    setitimer(ITIMER_REAL, &often, NULL);
    while (forks < FORKS && !is_child) {
        free(malloc(10));
    }
    if (is_child) {
        _exit(malloc(7) == NULL);
    }
    return failures > 0;
}

static void *sleep_on(void *unused)
{
    (void)unused;
    for (;;) {
        sleep(10);
    }
}

/* The C library keeps a buffer for the names of users. */
static int asks_for_user(int with_thread)
{
    pthread_t thread;
    if (with_thread) {
        pthread_create(&thread, NULL, sleep_on, NULL);
    }
    return getpwuid(0) == NULL;
}

/* Writes the first line of a realloc behind the log's last line, as a kill amid two lines leaves
 * it. */
static int tears_realloc(void)
{
    static const char torn[] = "@ s1 < 0x10\n";
    char byte;
    off_t end = 0;
    int log = open(getenv("TLSF_TRACE_LOG"), O_RDWR);
    while (pread(log, &byte, 1, end) == 1 && byte != 0) {
        end++;
    }
    if (pwrite(log, torn, sizeof torn - 1, end) > 0) {
        raise(SIGKILL);
    }
    return 1;
}

int main(int count, char **words)
{
    const char *word = count > 1 ? words[1] : "";
    void *block = malloc(123);
    int result = strcmp(word, "errno") == 0          ? keeps_errno()
                 : strcmp(word, "signals") == 0      ? has_signals()
                 : strcmp(word, "preloaded") == 0    ? preloaded == NULL || preloaded() != 5
                 : strcmp(word, "overflows") == 0    ? overflows()
                 : strcmp(word, "forks") == 0        ? forks_in_handler(0)
                 : strcmp(word, "returns") == 0      ? forks_in_handler(1)
                 : strcmp(word, "user") == 0         ? asks_for_user(0)
                 : strcmp(word, "user, thread") == 0 ? asks_for_user(1)
                 : strcmp(word, "torn") == 0         ? tears_realloc()
                                                     : 1;
    return block == NULL ? 1 : result;
}
