/* What is reachable at the edges, by the word given; and stacks of a child that its parent has
 * told, too. The sizes tell the blocks. */
#define _GNU_SOURCE
#include <fcntl.h>
#include <pthread.h>
#include <stdbool.h>
#include <stdio.h>
#include <stdlib.h>
#include <string.h>
#include <sys/mman.h>
#include <sys/syscall.h>
#include <sys/wait.h>
#include <unistd.h>

enum { PAGE = 4096, GUARD_INSTALL = 102, STACKS = 100000 };

static void *kept[8];

/* The text of an old std::string stands behind its length, its room and a count. */
static void *old_string(size_t length, size_t room, size_t bytes)
{
    size_t *head = malloc(bytes);
    head[0] = length;
    head[1] = room;
    return head + 3;
}

static void strings(void)
{
    kept[0] = old_string(10, 40, 65);
    kept[1] = old_string(10, 41, 67);
    kept[2] = old_string(50, 43, 68);
}

/* A block of one word leads to another. */
static void one_word(void)
{
    void **cell = malloc(sizeof *cell);
    *cell = malloc(71);
    kept[0] = cell;
}

/* Memory that several processes share is a file of /dev/shm. */
static void shared(void)
{
    char name[64];
    snprintf(name, sizeof name, "/dev/shm/tlsf-%d", (int)getpid());
    int file = open(name, O_RDWR | O_CREAT | O_EXCL, 0600);
    unlink(name);
    void **room = ftruncate(file, PAGE) == 0
                      ? mmap(NULL, PAGE, PROT_READ | PROT_WRITE, MAP_SHARED, file, 0)
                      : MAP_FAILED;
    if (room == MAP_FAILED)
        exit(9);
    room[5] = malloc(72);
}

/* Behind a page that can't be read stands a pointer. */
static void guarded(void)
{
    char *room = mmap(NULL, 3 * PAGE, PROT_READ | PROT_WRITE, MAP_PRIVATE | MAP_ANONYMOUS, -1, 0);
    memset(room, 0, 3 * PAGE);
    *(void **)(room + 2 * PAGE + 64) = malloc(73);
    if (madvise(room + PAGE, PAGE, GUARD_INSTALL) != 0)
        exit(9);
}

/* A thread that waits has a pointer below its stack's alone. */
static void *volatile passed;

static void *wait_below(void *unused)
{
    void *block = passed;
    passed = NULL;
#ifdef __x86_64__
    __asm__ volatile(
        "movq %0, -96(%%rsp)\n\txorl %%edi, %%edi\n\tmovq %%rdi, %0\n\tmovl $34, %%eax\n\tsyscall"
        : "+r"(block)
        :
        : "rax", "rdi", "rcx", "r11", "memory");
#endif
    return NULL;
}

static void below_stack(void)
{
    pthread_t thread;
    passed = malloc(74);
    pthread_create(&thread, NULL, wait_below, NULL);
    usleep(300000);
}

/* A free of what the log doesn't have. */
static void odd_free(void)
{
    extern void *__libc_malloc(size_t);
    free(__libc_malloc(75));
}

__attribute__((noinline)) static void *deepest(size_t bytes) { return malloc(bytes); }
__attribute__((noinline)) static void *deep(size_t bytes) { return deepest(bytes); }
__attribute__((noinline)) static void *other(size_t bytes) { return deepest(bytes); }

/* A child takes a block by the stack that its parent told last. */
static void told_by_parent(void)
{
    free(deepest(10));
    free(other(11));
    for (int k = 0; k < 2; k++) {
        bool is_child = k == 1 && fork() == 0;
        void *block = deep(is_child ? 76 : 12);
        if (is_child)
            exit(0);
        free(block);
    }
    while (wait(NULL) > 0) {
    }
}

/* Each number is another stack: its bits are the calls. Some are asked for once more. */
static void by_bits(int number, int left)
{
    if (left == 0)
        free(malloc(8));
    else if (number & 1)
        by_bits(number >> 1, left - 1);
    else
        by_bits(number >> 1, left - 1);
}

static void many_stacks(int rounds)
{
    for (int round = 0; round < rounds; round++)
        for (int number = 0; number < STACKS; number++)
            by_bits(number, 17);
}

/* What the program becomes has these variables alone, and the tracer's. */
static void with_variables(void)
{
    char preload[4096], log[4096];
    snprintf(preload, sizeof preload, "LD_PRELOAD=%s",
             getenv("LD_PRELOAD") ? getenv("LD_PRELOAD") : "");
    snprintf(log, sizeof log, "TLSF_TRACE_LOG=%s",
             getenv("TLSF_TRACE_LOG") ? getenv("TLSF_TRACE_LOG") : "");
    char *variables[] = {preload, log, "ONE=1", NULL};
    execle("/usr/bin/env", "env", NULL, variables);
}

int main(int count, char **words)
{
    const char *word = count > 1 ? words[1] : "";
    strcmp(word, "strings") == 0     ? strings()
    : strcmp(word, "word") == 0      ? one_word()
    : strcmp(word, "shared") == 0    ? shared()
    : strcmp(word, "guarded") == 0   ? guarded()
    : strcmp(word, "below") == 0     ? below_stack()
    : strcmp(word, "odd") == 0       ? odd_free()
    : strcmp(word, "child") == 0     ? told_by_parent()
    : strcmp(word, "once") == 0      ? many_stacks(1)
    : strcmp(word, "twice") == 0     ? many_stacks(2)
    : strcmp(word, "variables") == 0 ? with_variables()
                                     : (void)0;
    return 0;
}
