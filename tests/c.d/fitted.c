/* Logs over tlsf.h, each on one pool of the bytes that `tlsf fit --front 8` tells: no call answers
 * null. On the least pool that is told without a front some call does. The words are the program,
 * how many random logs are made, a file for these, and other logs. The last line is
 * `N passed, M failed`.
 *
 * Where a log has aligned requests, the gaps in front of their blocks depend on where the pool
 * begins. `fit` reckons with a pool whose first block is a multiple of each alignment. So the safe
 * pool begins there, but the sure pool elsewhere. */
#define _POSIX_C_SOURCE 200809L
#include <inttypes.h>
#include <stdint.h>
#include <stdlib.h>
#include <string.h>

#include "cases.h"
#include "tlsf.h"

enum { HELD = 256, LONGEST = 400, FRONT = 8, STEPS = 300, ALIGN = 4096 };

static uint64_t state;

static uint64_t below(uint64_t bound)
{
    state ^= state << 13;
    state ^= state >> 7;
    state ^= state << 17;
    return state % bound;
}

/* ---- random logs ---- */

/* Sizes of several kinds. One that is a multiple of 16 grows by a whole unit with its front. */
static uint64_t any_size(void)
{
    switch (below(4)) {
    case 0: return 1 + below(40);
    case 1: return 16 * (1 + below(20));
    case 2: return 1 + below(300);
    default: return below(8) == 0 ? 1 + below(3000) : 24;
    }
}

static const char *any_place(void) { return below(2) == 0 ? "@ ./a:[0x11a3] " : ""; }

/* Writes the log of a program that holds few blocks at most, and keeps some at its end. */
static bool write_log(const char *name, uint64_t seed)
{
    uint64_t live[HELD], next = 0, blocks = 0;
    FILE *log = fopen(name, "w");
    if (log == NULL) {
        return false;
    }
    state = seed * 2654435761u + 88172645463325252u;
    uint64_t most = 3 + below(30);
    fprintf(log, "= Start\n");
    for (int k = 0; k < STEPS; k++) {
        uint64_t kind = below(10), *any = &live[blocks == 0 ? 0 : below(blocks)];
        if (blocks == 0 || (kind < 5 && blocks < most)) {
            next += 16;
            live[blocks++] = next;
            if (below(4) == 0) {
                fprintf(log, "%s* 0x%" PRIx64 " 0x%x 0x%" PRIx64 "\n", any_place(), next,
                        16u << below(6), any_size());
            } else {
                fprintf(log, "%s+ 0x%" PRIx64 " 0x%" PRIx64 "\n", any_place(), next, any_size());
            }
        } else if (kind < 7) {
            const char *place = any_place();
            fprintf(log, "%s< 0x%" PRIx64 "\n", place, *any);
            if (below(2) == 0) {
                next += 16;
                *any = next;
            }
            fprintf(log, "%s> 0x%" PRIx64 " 0x%" PRIx64 "\n", place, *any, any_size());
        } else {
            fprintf(log, "%s- 0x%" PRIx64 "\n", any_place(), *any);
            *any = live[--blocks];
        }
    }
    fprintf(log, "= End\n");
    return fclose(log) == 0;
}

/* ---- what the program tells ---- */

/* A number that isn't told is 0. */
struct told {
    uint32_t records;
    uint64_t least, safe, sure;
};

static struct told fit(const char *log, bool has_front)
{
    struct told told = {0};
    char line[LONGEST];
    (void)setenv("FITTED", log, 1);
    FILE *text = popen(has_front ? "\"$TLSF\" fit --step 16 --front 8 \"$FITTED\""
                                 : "\"$TLSF\" fit --step 16 \"$FITTED\"",
                       "r");
    while (text != NULL && fgets(line, sizeof line, text) != NULL) {
        (void)sscanf(line, "records: %" SCNu32, &told.records);
        (void)sscanf(line, "least pool: %" SCNu64, &told.least);
        (void)sscanf(line, "safe pool: %" SCNu64, &told.safe);
        (void)sscanf(line, "sure pool: %" SCNu64, &told.sure);
    }
    if (text != NULL) {
        (void)pclose(text);
    }
    return told;
}

/* ---- a log over tlsf.h ---- */

static struct {
    uint64_t address;
    void *block;
} held[HELD];
static size_t count;
static unsigned calls, nulls;

/* The entry of an address that is held, or `count`. */
static size_t find(uint64_t address)
{
    size_t at = 0;
    while (at < count && held[at].address != address) {
        at++;
    }
    return at;
}

/* The block of an address, which is held no more; or null. */
static void *take(uint64_t address)
{
    size_t at = find(address);
    if (at == count) {
        return NULL;
    }
    void *block = held[at].block;
    held[at] = held[--count];
    return block;
}

/* Holds a block by its address. Where the call was refused the old one is gone, as in the replay. A
 * block more than there is room for counts as null. */
static void hold(tlsf_t heap, void *block, void *old, uint64_t address)
{
    calls++;
    if (block == NULL || count == HELD) {
        nulls++;
        tlsf_free(heap, old);
        return;
    }
    memset(block, 0xa5, tlsf_block_size(block));
    held[count].address = address;
    held[count++].block = block;
}

/* For 0 bytes the log tells a block, where tlsf.h answers null. So one byte is asked for, which has
 * a block of the same bytes. */
static size_t asked(uint64_t size) { return size == 0 ? 1 : (size_t)size; }

/* The calls of a line. *half is the address of the line `<` in front. */
static void call(tlsf_t heap, const char *line, uint64_t *half)
{
    uint64_t address = 0, size = 0, last = 0;
    const char *words = line[0] == '@' ? strchr(line + 2, ' ') + 1 : line;
    int numbers = sscanf(words + 1, " %" SCNx64 " %" SCNx64 " %" SCNx64, &address, &size, &last);
    if (words[0] == '+' && numbers == 2) {
        hold(heap, tlsf_malloc(heap, asked(size)), NULL, address);
    } else if (words[0] == '*' && numbers == 3) {
        hold(heap, tlsf_memalign(heap, (size_t)size, asked(last)), NULL, address);
    } else if (words[0] == '>' && numbers == 2) {
        void *old = take(*half);
        hold(heap, tlsf_realloc(heap, old, asked(size)), old, address);
    } else if (words[0] == '<' && numbers == 1) {
        *half = address;
    } else if (words[0] == '-' && numbers == 1) {
        tlsf_free(heap, take(address));
    }
}

/* Makes a heap with so many records, and one pool of so many bytes, whose first block is so far
 * behind a multiple of ALIGN: a multiple of 16, so that no byte is skipped. Answers whether the log
 * was replayed there, and the heap is whole. `nulls` gets how many of its `calls` were null. */
static bool replay(const char *name, uint32_t records, size_t bytes, size_t behind)
{
    char line[LONGEST];
    uint64_t half = 0;
    tlsf_figures fresh = {0};
    void *memory = NULL, *start = malloc(tlsf_size_records(records));
    FILE *log = fopen(name, "r");
    size_t begin = ALIGN + behind - FRONT;
    tlsf_t heap = tlsf_create_records(start, tlsf_size_records(records), records);
    bool is_made = log != NULL && posix_memalign(&memory, ALIGN, begin + bytes) == 0
                   && tlsf_add_pool(heap, (unsigned char *)memory + begin, bytes) != NULL
                   && tlsf_stats(heap, &fresh) == 0 && fresh.bytes_free == bytes
                   && fresh.records == records;
    count = calls = nulls = 0;
    while (is_made && fgets(line, sizeof line, log) != NULL) {
        call(heap, line, &half);
    }
    bool is_whole = is_made && calls > 0 && tlsf_check(heap) == 0;
    free(start);
    free(memory);
    if (log != NULL) {
        (void)fclose(log);
    }
    return is_whole;
}

/* The pools that are told of a log. Answers whether a call is null on the least one that is told
 * without a front. It isn't always smaller: greater requests may leave fewer holes. */
static bool tried(const char *log, const char *what)
{
    char text[LONGEST];
    struct told told = fit(log, true), without = fit(log, false);
    snprintf(text, sizeof text, "%s: no call is null on the safe pool of %" PRIu64 " bytes", what,
             told.safe);
    expect(replay(log, told.records, told.safe, 0) && nulls == 0, text);
    snprintf(text, sizeof text, "%s: nor on the sure pool of %" PRIu64 " bytes", what, told.sure);
    expect(replay(log, told.records, told.sure, 48) && nulls == 0, text);
    bool is_whole = replay(log, without.records, without.least, 0);
    snprintf(text, sizeof text, "%s: without a front %u of %u are, on the least pool of %" PRIu64,
             what, nulls, calls, without.least);
    expect(is_whole, text);
    return nulls > 0;
}

int main(int words, char **word)
{
    char what[LONGEST];
    unsigned logs_with_nulls = 0;
    long many = words > 3 ? strtol(word[2], NULL, 10) : 0;
    if (many == 0 || setenv("TLSF", word[1], 1) != 0) {
        fputs("the words are the program, a number of random logs, a file for them, and logs\n",
              stderr);
        return 2;
    }
    expect(tlsf_alloc_overhead() == FRONT, "tlsf.h keeps eight bytes in front of each block");
    for (long k = 1; k <= many; k++) {
        snprintf(what, sizeof what, "random log %ld", k);
        expect(write_log(word[3], (uint64_t)k), "it is written");
        logs_with_nulls += tried(word[3], what);
    }
    for (int k = 4; k < words; k++) {
        logs_with_nulls += tried(word[k], word[k]);
    }
    snprintf(what, sizeof what, "without a front calls are null for %u logs", logs_with_nulls);
    expect(logs_with_nulls > 0, what);
    return cases_end();
}
