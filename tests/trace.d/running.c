/* A program that runs until it is told to end, by lines on standard input. It answers each with a
 * line. What it takes before the first `plant` is from before, where it is traced from then on.
 *
 *     running           waits for lines
 *     running pthreads  the same, while the main thread waits for another, which reads the lines
 */
#define _GNU_SOURCE
#include <dlfcn.h>
#include <pthread.h>
#include <stdio.h>
#include <stdlib.h>
#include <string.h>
#include <sys/wait.h>
#include <unistd.h>

enum { PLANTED = 12, FREED = 5, OLD = 9 };

static void *old[OLD], *planted[PLANTED];

/* Of twelve blocks five are freed; nine from before are freed or moved, and a string is kept. */
static void plant(void)
{
    for (int k = 0; k < PLANTED; k++) {
        planted[k] = malloc(5000 + k);
    }
    for (int k = 0; k < FREED; k++) {
        free(planted[k]);
    }
    for (int k = 1; k < OLD; k++) {
        free(old[k]);
    }
    planted[0] = realloc(old[0], 6000);
    planted[1] = strdup("a name");
    planted[2] = aligned_alloc(64, 640);
    planted[3] = realloc(calloc(7, 100), 7000);
    for (int k = 0; k < OLD; k++) {
        old[k] = malloc(300 + k);
    }
}

/* A child takes and frees blocks of its own. */
static void fork_child(void)
{
    pid_t child = fork();
    if (child == 0) {
        free(malloc(4321));
        free(planted[PLANTED - 1]);
        _exit(0);
    }
    waitpid(child, NULL, 0);
}

/* What a library takes that is loaded by a part of its path. */
static void load(const char *name)
{
    void *library = dlopen(name, RTLD_NOW);
    void *(*plug)(void);
    void *found = library == NULL ? NULL : dlsym(library, "plug");
    memcpy(&plug, &found, sizeof plug);
    printf("%s\n", plug == NULL ? dlerror() : plug() == NULL ? "no block" : "loaded");
}

/* Whether calls of malloc lead to the C library. */
static void tell_slots(void)
{
    void *(*volatile called)(size_t) = malloc;
    void *found = dlsym(RTLD_DEFAULT, "malloc");
    printf("%s\n", (void *)called == found ? "calls are the C library's" : "calls are traced");
}

static void *read_lines(void *unused)
{
    char line[100];
    for (int turn = 0; fgets(line, sizeof line, stdin) != NULL; turn++) {
        line[strcspn(line, "\n")] = 0;
        if (strcmp(line, "plant") == 0) {
            plant();
        } else if (strcmp(line, "slots") == 0) {
            tell_slots();
        } else if (strcmp(line, "fork") == 0) {
            fork_child();
        } else if (strncmp(line, "load ", 5) == 0) {
            load(line + 5);
        } else if (strcmp(line, "exec") == 0) {
            execl("/bin/cat", "cat", (char *)NULL);
        } else if (strcmp(line, "_exit") == 0) {
            _exit(8);
        } else {
            break;
        }
        printf("done %s\n", line);
        fflush(stdout);
    }
    return unused;
}

int main(int count, char **words)
{
    for (int k = 0; k < OLD; k++) {
        old[k] = malloc(200 + k);
    }
    printf("ready\n");
    fflush(stdout);
    if (count > 1 && strcmp(words[1], "pthreads") == 0) {
        pthread_t thread;
        pthread_create(&thread, NULL, read_lines, NULL);
        pthread_join(thread, NULL);
    } else {
        read_lines(NULL);
    }
    printf("ended\n");
    return 5;
}
