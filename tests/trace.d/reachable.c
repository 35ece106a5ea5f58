/* Blocks that are held at the end, each of another size. Behind each call stands what it is then:
 * lost, which nothing leads to; possibly lost, where a pointer on the way points amid its block; or
 * reachable. With the word `threads` there are blocks of threads, and with the word `fork` those of
 * a child. The word `quick` ends by quick_exit, `handler` in a handler of exit, and `failed exec`
 * is killed behind an exec that failed. */
#include <pthread.h>
#include <signal.h>
#include <stdlib.h>
#include <string.h>
#include <sys/mman.h>
#include <sys/wait.h>
#include <unistd.h>

struct node {
    struct node *next;
    size_t length;
    char text[64];
};

struct node *global, *large, **in_mapping;
char *amid, *behind_length;
__thread struct node *of_thread;
static pthread_barrier_t barrier;

/* All words of a block are zeros at first. */
static __attribute__((noinline)) void *get(size_t bytes) { return calloc(1, bytes); }

static __attribute__((noinline)) void lose(void)
{
    struct node *one = get(1001);   /* lost */
    one->next = get(1002);          /* lost */
    struct node *cycle = get(1003); /* lost */
    cycle->next = get(1004);        /* lost */
    cycle->next->next = cycle;
    struct node *mapped = get(400000); /* lost */
    mapped->next = get(1005);          /* lost */
}

/* A block that was given back leads nowhere. The last block stands before the heap's unused rest,
 * to which glibc has a pointer: it is one into the last word of this block. */
static __attribute__((noinline)) void leave_stale(void)
{
    struct node *given_back = get(100000);
    given_back[1200].next = get(1006); /* lost */
    get(1016);                         /* lost */
    free(given_back);
}

static __attribute__((noinline)) void keep(void)
{
    global = get(2001);                           /* reachable */
    global->next = get(2002);                     /* reachable */
    global->next->next = get(2003);               /* reachable */
    large = get(400001);                          /* reachable */
    large[1000].next = get(2004);                 /* reachable */
    large[1001].next = aligned_alloc(64, 2240);   /* reachable */
    large[1002].next = realloc(malloc(40), 2005); /* reachable */
    large[1003].next = malloc(0);                 /* reachable */
    in_mapping = mmap(NULL, 1 << 16, PROT_READ | PROT_WRITE, MAP_PRIVATE | MAP_ANONYMOUS, -1, 0);
    in_mapping[777] = get(2006); /* reachable */
    in_mapping = NULL;
    size_t *sized = get(2007); /* reachable */
    sized[0] = 2007 - sizeof *sized;
    behind_length = (char *)(sized + 1);
}

static __attribute__((noinline)) void point_amid(void)
{
    struct node *one = get(3001); /* possibly */
    one->next = get(3002);        /* possibly */
    one->next->next = get(3003);  /* possibly */
    amid = one->text;
    get(3004); /* lost */
    /* Behind its last byte. */
    global->next->next->next = (struct node *)((char *)get(3005) + 3005); /* lost */
}

/* Puts zeros where calls that have returned left pointers. */
static __attribute__((noinline)) void wipe(void)
{
    volatile char room[8192];
    for (size_t k = 0; k < sizeof room; k++) {
        room[k] = 0;
    }
}

static void *stay(void *unused)
{
    struct node *volatile here = get(6001); /* reachable threads */
    of_thread = get(6002);                  /* reachable threads */
    (void)unused;
    pthread_barrier_wait(&barrier);
    while (here != NULL) {
        pause();
    }
    return NULL;
}

/* The stack of a thread that has ended is kept by the C library, with what stands in it. */
static void *leave(void *unused)
{
    struct node *volatile here = get(6003); /* lost threads */
    (void)unused;
    pthread_barrier_wait(&barrier);
    return here == NULL ? unused : NULL;
}

static void run_threads(void)
{
    pthread_t staying, leaving;
    pthread_barrier_init(&barrier, NULL, 3);
    pthread_create(&staying, NULL, stay, NULL);
    pthread_create(&leaving, NULL, leave, NULL);
    pthread_barrier_wait(&barrier);
    pthread_join(leaving, NULL);
    /* Until the thread that stays waits: where one runs, its stack's use isn't known. */
    usleep(300000);
}

/* A block of a child that a block of its parent points to alone. */
static void run_child(void)
{
    global = get(7001);
    if (fork() == 0) {
        global->next = get(7002);
        wipe();
        _exit(0);
    }
    wait(NULL);
    free(global);
}

/* A handler that ends the process, with a block of its own. */
static void end_in_handler(void)
{
    struct node *volatile here = get(6004); /* reachable handler */
    _exit(here == NULL);
}

static int run_failed_exec(void)
{
    global = get(8001);
    execl("/nothing", "nothing", (char *)NULL);
    return raise(9);
}

int main(int count, char **words)
{
    const char *word = count > 1 ? words[1] : "";
    if (strcmp(word, "fork") == 0) {
        run_child();
        return 0;
    }
    if (strcmp(word, "failed exec") == 0) {
        return run_failed_exec();
    }
    struct node *volatile here = get(2008); /* reachable */
    lose();
    leave_stale();
    keep();
    point_amid();
    if (strcmp(word, "threads") == 0) {
        run_threads();
    }
    wipe();
    if (strcmp(word, "handler") == 0) {
        atexit(end_in_handler);
    }
    if (strcmp(word, "quick") == 0) {
        quick_exit(here == NULL);
    }
    exit(here == NULL);
}
