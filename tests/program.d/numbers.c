/* numbers PROGRAM WHAT FROM STEP TO: runs the program once for each number from FROM on, in steps
 * of STEP, up to TO. WHAT is
 * - records: `timeline` of an empty log, with so many records. With them go over the pools, 1 to 8,
 *   and the points, 1 to 10,000
 * - pairs: `sites` of an empty log, with so many records and each number of pools
 * - sites: the same with one pool
 * - points: `timeline` of `lines`, with so many points, without a heap
 * - lines: each report without a heap, of a log of so many lines, each of which holds a block of
 *   its own, at a location of its own
 * - loads: `save` of an empty log with so many records, and `check` of the image.
 *   Each run has memory, so none ends with 4. What does, or ends otherwise than it has to, is
 *   told. */
#include <fcntl.h>
#include <spawn.h>
#include <stdio.h>
#include <stdlib.h>
#include <string.h>
#include <sys/wait.h>
#include <unistd.h>

enum { MOST_POOLS = 8, MOST_POINTS = 10000, WORD = 64, WORDS = 8 };

extern char **environ;

static char *program;
static posix_spawn_file_actions_t quiet;
static int failures;

/* Runs the program with these words, which end with a null pointer. Whether it ends with this
 * status. */
static void expect(int number, int wanted, char *const *words)
{
    char *all[WORDS + 2] = {program};
    pid_t child;
    int status = -1;
    for (int k = 0; k < WORDS && words[k] != NULL; k++)
        all[k + 1] = words[k];
    if (posix_spawn(&child, program, &quiet, NULL, all, environ) == 0
        && waitpid(child, &status, 0) == child)
        status = WIFEXITED(status) ? WEXITSTATUS(status) : -1;
    if (status != wanted && ++failures <= 5)
        printf("%s of %d: status %d\n", words[0], number, status);
}

static void records(int number)
{
    char words[3][WORD];
    snprintf(words[0], WORD, "--records=%d", number);
    snprintf(words[1], WORD, "--pools=%d",
             1 + number % (number < MOST_POOLS ? number : MOST_POOLS));
    snprintf(words[2], WORD, "--points=%d", 1 + number % MOST_POINTS);
    expect(number, 0,
           (char *[]){"timeline", words[0], words[1], words[2], "--pool=16", "empty", NULL});
}

static void sites(int number)
{
    char word[WORD];
    snprintf(word, WORD, "--records=%d", number);
    expect(number, 0, (char *[]){"sites", word, "empty", NULL});
}

static void pairs(int number)
{
    char words[2][WORD];
    snprintf(words[0], WORD, "--records=%d", number);
    for (int pools = 2; pools <= MOST_POOLS && pools <= number; pools++) {
        snprintf(words[1], WORD, "--pools=%d", pools);
        expect(number, 0, (char *[]){"sites", words[0], words[1], "--pool=16", "empty", NULL});
    }
}

static void points(int number)
{
    char word[WORD];
    snprintf(word, WORD, "--points=%d", number);
    expect(number, 1, (char *[]){"timeline", word, "lines", NULL});
}

static void loads(int number)
{
    char word[WORD], image[WORD];
    snprintf(word, WORD, "--records=%d", number);
    snprintf(image, WORD, "image.%d", (int)getpid());
    expect(number, 0, (char *[]){"save", word, "--pool=16", "empty", image, NULL});
    expect(number, 0, (char *[]){"check", image, NULL});
}

/* The log grows by what it lacks. */
static void lines(int number)
{
    static int written;
    char log[WORD];
    snprintf(log, WORD, "lines.%d", (int)getpid());
    FILE *to = fopen(log, "a");
    for (; to != NULL && written < number; written++)
        fprintf(to, "@ ./prog:[0x%x] + 0x%x 0x%x\n", 1 + written, 4096 + 64 * written,
                1 + written % 40);
    if (to == NULL || fclose(to) != 0) {
        failures++;
        return;
    }
    expect(number, 1, (char *[]){"leaks", "--no-heap", log, NULL});
    expect(number, 1, (char *[]){"peak", "--no-heap", log, NULL});
    expect(number, 1, (char *[]){"sites", log, NULL});
    expect(number, 1, (char *[]){"timeline", log, NULL});
    expect(number, 1, (char *[]){"fit", "--heaps=7", log, NULL});
}

static void (*const kinds[])(int) = {records, sites, pairs, points, lines, loads};
static const char *const names[] = {"records", "sites", "pairs", "points", "lines", "loads"};
enum { KINDS = sizeof kinds / sizeof kinds[0] };

int main(int argc, char **argv)
{
    size_t kind = 0;
    while (argc == 6 && kind < KINDS && strcmp(names[kind], argv[2]) != 0)
        kind++;
    if (argc != 6 || kind == KINDS || posix_spawn_file_actions_init(&quiet) != 0
        || posix_spawn_file_actions_addopen(&quiet, 1, "/dev/null", O_WRONLY, 0) != 0)
        return 2;
    program = argv[1];
    for (int number = atoi(argv[3]); number <= atoi(argv[5]); number += atoi(argv[4]))
        kinds[kind](number);
    return failures == 0 ? 0 : 1;
}
