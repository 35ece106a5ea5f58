/* Sixteen threads that ask for blocks, move and free them, and hand some to each other. Of each
 * thread 3 blocks of 24 bytes stay. With the word `on` they go on, for ten seconds at most. With
 * the word `fork` the process has children meanwhile. */
#define _GNU_SOURCE
#include <pthread.h>
#include <stdlib.h>
#include <string.h>
#include <sys/wait.h>
#include <unistd.h>

enum { THREADS = 16, CALLS = 20000, HELD = 64, SHARED = 32, CHILDREN = 20 };

static void *shared[SHARED];
static int calls = CALLS;

/* Puts a block where all threads look, and frees what was there. */
static void hand_over(unsigned number, void *block)
{
    free(__atomic_exchange_n(&shared[number % SHARED], block, __ATOMIC_ACQ_REL));
}

static void *work(void *seed)
{
    void *held[HELD] = {NULL};
    unsigned random = (unsigned)(size_t)seed;
    for (int k = 0; calls == 0 || k < calls; k++) {
        random = random * 1103515245u + 12345u;
        void **block = &held[(random >> 16) % HELD];
        switch ((random >> 8) % 4) {
        case 0:
            hand_over(random >> 22, *block);
            *block = malloc((random >> 10) % 500);
            break;
        case 1: *block = realloc(*block, (random >> 10) % 900 + 1); break;
        case 2:
            free(*block);
            *block = NULL;
            break;
        default: free(*block); *block = aligned_alloc(64, 64 * ((random >> 10) % 9 + 1));
        }
    }
    for (int k = 0; k < HELD; k++) {
        free(held[k]);
    }
    for (int k = 0; k < 3; k++) {
        malloc(24);
    }
    return NULL;
}

/* Each child keeps seven bytes. */
static void fork_children(void)
{
    for (int k = 0; k < CHILDREN; k++) {
        if (fork() == 0) {
            free(malloc(1000));
            malloc(7);
            _exit(0);
        }
    }
    while (wait(NULL) > 0) {
    }
}

int main(int count, char **words)
{
    pthread_t threads[THREADS];
    const char *word = count > 1 ? words[1] : "";
    calls = strcmp(word, "on") == 0 ? 0 : CALLS;
    alarm(*word == 0 ? 0 : 10);
    for (size_t k = 0; k < THREADS; k++) {
        pthread_create(&threads[k], NULL, work, (void *)(k + 1));
    }
    if (strcmp(word, "fork") == 0) {
        fork_children();
    }
    for (int k = 0; k < THREADS; k++) {
        pthread_join(threads[k], NULL);
    }
    for (int k = 0; k < SHARED; k++) {
        free(shared[k]);
    }
    return 0;
}
