/* The ways in which a process ends or makes another, by the word given. */
#define _GNU_SOURCE
#include <signal.h>
#include <stdio.h>
#include <stdlib.h>
#include <string.h>
#include <sys/syscall.h>
#include <sys/wait.h>
#include <unistd.h>

enum { CHILDREN = 50, CALLS = 60000 };

static void take(int count)
{
    for (int k = 0; k < count; k++) {
        malloc((size_t)k % 90 + 1);
    }
}

/* Each child frees a block of its parent and one of its own, and keeps 7 bytes. */
static void fork_many(void)
{
    void *before = malloc(50);
    for (int k = 0; k < CHILDREN; k++) {
        if (fork() == 0) {
            free(malloc(1000));
            free(before);
            malloc(7);
            exit(0);
        }
    }
    while (wait(NULL) > 0) {
    }
    free(before);
}

/* A child of which the C library doesn't know. */
static void clone_one(void)
{
    if (syscall(SYS_clone, SIGCHLD, 0, 0, 0, 0) == 0) {
        malloc(7);
        _exit(0);
    }
    wait(NULL);
}

/* A child that shares the memory until it is another program, or none. */
static void vfork_two(void)
{
    for (int k = 0; k < 2; k++) {
        if (vfork() == 0) {
            execl(k == 0 ? "/bin/true" : "/nothing", "true", NULL);
            _exit(0);
        }
        wait(NULL);
    }
}

static void handle(int number)
{
    static const char text[] = "handled\n";
    (void)number;
    (void)!write(1, text, sizeof text - 1);
    _exit(9);
}

int main(int count, char **words)
{
    const char *word = count > 1 ? words[1] : "";
    malloc(123);
    if (strcmp(word, "fork") == 0) {
        fork_many();
    } else if (strcmp(word, "clone") == 0) {
        clone_one();
    } else if (strcmp(word, "vfork") == 0) {
        vfork_two();
    } else if (strcmp(word, "exec") == 0) {
        execlp(words[0], words[0], "end", NULL);
    } else if (strcmp(word, "failed exec") == 0) {
        execl("/nothing", "nothing", NULL);
    } else if (strcmp(word, "failed exec, kill at once") == 0) {
        execl("/nothing", "nothing", NULL);
        raise(SIGKILL);
    } else if (strcmp(word, "failed exec, kill") == 0) {
        execl("/nothing", "nothing", NULL);
        malloc(5);
        raise(SIGKILL);
    } else if (strcmp(word, "abort") == 0) {
        abort();
    } else if (strcmp(word, "term") == 0) {
        raise(SIGTERM);
    } else if (strcmp(word, "int") == 0) {
        raise(SIGINT);
    } else if (strcmp(word, "segv") == 0) {
        raise(SIGSEGV);
    } else if (strcmp(word, "kill") == 0) {
        take(CALLS);
        raise(SIGKILL);
    } else if (strcmp(word, "handler") == 0) {
        signal(SIGTERM, handle);
        raise(SIGTERM);
    } else if (strcmp(word, "_exit") == 0) {
        _exit(3);
    } else if (strcmp(word, "quick") == 0) {
        quick_exit(4);
    } else if (strcmp(word, "closes") == 0) {
        for (int file = 3; file < 1024; file++) {
            close(file);
        }
        take(CALLS);
    } else if (strcmp(word, "waits") == 0) {
        (void)!write(1, "ready\n", 6);
        alarm(40);
        for (;;) {
            free(malloc(10));
        }
    }
    malloc(5);
    return 0;
}
