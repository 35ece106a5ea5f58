/* Beside the program: `tlsf size` answers what the functions of tlsf_heap.h do, for as many random
 * bounds as are asked for. The words are the program and the number of bounds. The last line is
 * `N passed, M failed`. */
#define _POSIX_C_SOURCE 200809L
#include <spawn.h>
#include <stdlib.h>
#include <string.h>
#include <sys/wait.h>
#include <unistd.h>

#include "cases.h"
#include "tlsf_heap.h"

enum { WORKERS = 4, WORDS = 12, LONGEST = 24 };

extern char **environ;

static uint64_t state;

static uint64_t below(uint64_t bound)
{
    state ^= state << 13;
    state ^= state >> 7;
    state ^= state << 17;
    return state % bound;
}

/* What a program keeps to. Without bytes or an alignment these are 0. */
struct bounds {
    uint64_t blocks, largest, bytes, align;
};

/* From 1 to the most, with small and great ones alike. */
static uint64_t up_to(uint64_t most)
{
    uint64_t value = 1 + below(1ull << (1 + below(31)));
    return value > most ? 1 + below(most) : value;
}

static struct bounds any_bounds(void)
{
    struct bounds bounds = {up_to(below(2) == 0 ? 32766 : 300), up_to(1056964608), 0, 0};
    bounds.bytes = below(2) == 0 ? 0 : up_to(1073741808);
    bounds.align = below(2) == 0 ? 0 : 1ull << below(30);
    return bounds;
}

/* The end of a line that tells bytes, or that there are none. */
static int put_bytes(char *text, size_t room, uint64_t bytes)
{
    if (bytes == 0) {
        return snprintf(text, room, "-\n");
    }
    return snprintf(text, room, "%llu bytes\n", (unsigned long long)bytes);
}

/* The text by the functions of the header. */
static void wanted_text(struct bounds bounds, char *text, size_t room)
{
    uint64_t records = 2 * bounds.blocks + 3;
    uint64_t each = (bounds.largest + 15) / 16 * 16;
    uint64_t bytes = bounds.bytes == 0 ? bounds.blocks * each : (bounds.bytes + 15) / 16 * 16;
    uint32_t size = tlsf_heap_class_size(bounds.align == 0 ? 1 : bounds.align, bounds.largest);
    uint32_t pool = tlsf_heap_sure_pool(bounds.blocks, bytes, size);
    int length = snprintf(text, room, "records: %llu\ntable: %zu bytes\nsure pool: ",
                          (unsigned long long)records, TLSF_HEAP_TABLE_BYTES(records));
    length += put_bytes(text + length, room - (size_t)length, pool);
    length += snprintf(text + length, room - (size_t)length, "rounded pool: ");
    uint64_t rounded = bounds.align > 16 ? 0 : bounds.blocks * size;
    (void)put_bytes(text + length, room - (size_t)length, rounded > 1073741808 ? 0 : rounded);
}

/* Puts an option and its number behind the words so far. */
static void put_option(char **words, char numbers[][LONGEST], int *count, char *option,
                       uint64_t number)
{
    snprintf(numbers[*count], LONGEST, "%llu", (unsigned long long)number);
    words[*count + 1] = numbers[*count];
    words[(*count)++] = option;
    (*count)++;
}

/* What the program writes, up to the room less one; false where it doesn't end with status 0. */
static bool run_program(char *program, struct bounds bounds, char *text, size_t room)
{
    char numbers[WORDS][LONGEST], *words[WORDS] = {program, "size"};
    int count = 2, ends[2], status = 1;
    pid_t child;
    posix_spawn_file_actions_t actions;
    put_option(words, numbers, &count, "--blocks", bounds.blocks);
    put_option(words, numbers, &count, "--largest", bounds.largest);
    if (bounds.bytes != 0) {
        put_option(words, numbers, &count, "--bytes", bounds.bytes);
    }
    if (bounds.align != 0) {
        put_option(words, numbers, &count, "--align", bounds.align);
    }
    words[count] = NULL;
    if (pipe(ends) != 0) {
        return false;
    }
    posix_spawn_file_actions_init(&actions);
    posix_spawn_file_actions_adddup2(&actions, ends[1], 1);
    posix_spawn_file_actions_addclose(&actions, ends[0]);
    bool made = posix_spawn(&child, program, &actions, NULL, words, environ) == 0;
    posix_spawn_file_actions_destroy(&actions);
    close(ends[1]);
    size_t got = 0;
    for (ssize_t more = 1; made && more > 0 && got<room - 1; got += more> 0 ? (size_t)more : 0) {
        more = read(ends[0], text + got, room - 1 - got);
    }
    text[got] = 0;
    close(ends[0]);
    return made && waitpid(child, &status, 0) == child && status == 0;
}

/* Whether the two agree for this many bounds; the first that they don't agree for is told. */
static bool agree(char *program, uint64_t seed, long many)
{
    char wanted[200], told[200];
    state = seed * 2654435761u + 88172645463325252u;
    for (long k = 0; k < many; k++) {
        struct bounds bounds = any_bounds();
        wanted_text(bounds, wanted, sizeof wanted);
        if (!run_program(program, bounds, told, sizeof told) || strcmp(wanted, told) != 0) {
            printf("blocks %llu, largest %llu, bytes %llu, align %llu:\n%s and not\n%s",
                   (unsigned long long)bounds.blocks, (unsigned long long)bounds.largest,
                   (unsigned long long)bounds.bytes, (unsigned long long)bounds.align, told,
                   wanted);
            return false;
        }
    }
    return true;
}

int main(int count, char **words)
{
    pid_t workers[WORKERS];
    long many = count == 3 ? strtol(words[2], NULL, 10) : 0;
    if (many < WORKERS) {
        fputs("the words are the program and a number of bounds, 4 or more\n", stderr);
        return 2;
    }
    for (int k = 0; k < WORKERS; k++) {
        workers[k] = fork();
        if (workers[k] == 0) {
            exit(agree(words[1], (uint64_t)k, many / WORKERS) ? 0 : 1);
        }
    }
    for (int k = 0; k < WORKERS; k++) {
        int status = 1;
        bool ended = workers[k] > 0 && waitpid(workers[k], &status, 0) == workers[k];
        expect(ended && status == 0, "tlsf size beside tlsf_heap.h");
    }
    return cases_end();
}
