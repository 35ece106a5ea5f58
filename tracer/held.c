/* held.c: the blocks that are held where a process ends, by its log: a table by address while the
 * log is read, and then a list in order of address. A log in memory can't be read again: its lines
 * are taken into the table as they are written. Memory is the system's, and none is asked for by
 * malloc, since a handler may end the process amid such a call.
 */
#define _GNU_SOURCE
#include "trace.h"

#include <fcntl.h>
#include <string.h>
#include <sys/mman.h>
#include <sys/stat.h>
#include <sys/syscall.h>
#include <unistd.h>

enum { FIRST_PLACES = 1 << 12, OWN_MOST = 10 };

/* What the search and since.c took from the system, where no pointer counts. */
static struct {
    uintptr_t from, bytes;
} taken[OWN_MOST];

void *take_pages(size_t bytes)
{
    for (size_t k = 0; k < OWN_MOST; k++) {
        if (taken[k].bytes == 0) {
            int access = PROT_READ | PROT_WRITE, kind = MAP_PRIVATE | MAP_ANONYMOUS;
            void *memory = mmap(NULL, bytes, access, kind, -1, 0);
            if (memory == MAP_FAILED) {
                return NULL;
            }
            taken[k].from = (uintptr_t)memory;
            taken[k].bytes = bytes;
            return memory;
        }
    }
    return NULL;
}

bool is_taken(uintptr_t address)
{
    bool found = false;
    for (size_t k = 0; k < OWN_MOST; k++) {
        found |= address - taken[k].from < taken[k].bytes;
    }
    return found;
}

void give_pages(void *memory)
{
    for (size_t k = 0; k < OWN_MOST; k++) {
        if (taken[k].bytes > 0 && taken[k].from == (uintptr_t)memory) {
            munmap(memory, taken[k].bytes);
            taken[k].bytes = 0;
        }
    }
}

/* What is held by the lines that were taken, and whether these are all. */
static struct held taking;
static bool takes, takes_all;

/* ---- the table */

static size_t place_of(const struct held *held, uintptr_t start)
{
    return (size_t)mix(start) & (held->places - 1);
}

/* The place of an address, or the empty one where it would stand. */
static size_t find_place(const struct held *held, uintptr_t start)
{
    size_t place = place_of(held, start);
    while (held->blocks[place].start != 0 && held->blocks[place].start != start) {
        place = (place + 1) & (held->places - 1);
    }
    return place;
}

/* A table of twice as many places. */
static bool grow(struct held *held)
{
    struct held more = {.places = held->places == 0 ? FIRST_PLACES : 2 * held->places};
    more.blocks = take_pages(more.places * sizeof *more.blocks);
    if (more.blocks == NULL) {
        return false;
    }
    for (size_t k = 0; k < held->places; k++) {
        if (held->blocks[k].start != 0) {
            more.blocks[find_place(&more, held->blocks[k].start)] = held->blocks[k];
        }
    }
    give_pages(held->blocks);
    held->blocks = more.blocks;
    held->places = more.places;
    return true;
}

/* Holds a block. What is held already stays as it is. */
static bool hold(struct held *held, const struct block *block)
{
    if (2 * held->count >= held->places && !grow(held)) {
        return false;
    }
    size_t place = find_place(held, block->start);
    if (held->blocks[place].start == 0) {
        held->blocks[place] = *block;
        held->count++;
    }
    return true;
}

/* Drops a block: those behind it move up to where they are looked for. */
static void drop(struct held *held, uintptr_t start)
{
    size_t hole = held->places == 0 ? 0 : find_place(held, start), last = held->places - 1;
    if (held->places == 0 || held->blocks[hole].start == 0) {
        return;
    }
    for (size_t at = (hole + 1) & last; held->blocks[at].start != 0; at = (at + 1) & last) {
        size_t wanted = place_of(held, held->blocks[at].start);
        if (((at - wanted) & last) >= ((at - hole) & last)) {
            held->blocks[hole] = held->blocks[at];
            hole = at;
        }
    }
    held->blocks[hole].start = 0;
    held->count--;
}

/* ---- the lines of the log */

/* Reads a number of the log, `(nil)` as 0, and goes behind the space that follows. */
static uintptr_t read_number(const char **at, const char *end)
{
    uintptr_t number = 0;
    for (; *at < end && **at != ' '; ++*at) {
        char byte = **at;
        bool is_digit = byte >= '0' && byte <= '9', is_letter = byte >= 'a' && byte <= 'f';
        number = is_digit || is_letter
                     ? number << 4 | (uintptr_t)(byte - (is_digit ? '0' : 'a' - 10))
                     : 0;
    }
    *at += *at < end;
    return number;
}

/* Reads a location: the number of its stack, or 0, and goes behind the space that follows. */
static uint32_t read_location(const char **at, const char *end)
{
    uint32_t number = 0;
    for (const char *from = *at + 1; from < end && *from >= '0' && *from <= '9'; from++) {
        number = 10 * number + (uint32_t)(*from - '0');
    }
    while (*at < end && **at != ' ') {
        ++*at;
    }
    *at += *at < end;
    return number;
}

/* Takes a line into account. */
static bool read_line(struct held *held, const char *line, const char *end)
{
    struct block block = {0};
    if (end - line > 2 && line[0] == '@') {
        line += 2;
        block.stack = read_location(&line, end);
    }
    char sign = line < end ? *line : 0;
    line += 2;
    if (sign == 0 || strchr("+*>-<", sign) == NULL) {
        return true;
    }
    block.start = read_number(&line, end);
    if (sign == '-' || sign == '<') {
        drop(held, block.start);
        return true;
    }
    if (sign == '*') {
        read_number(&line, end);
    }
    block.size = read_number(&line, end);
    held->stacks = block.stack > held->stacks ? block.stack : held->stacks;
    return block.start == 0 || hold(held, &block);
}

static bool read_lines(struct held *held, const char *text, size_t length)
{
    const char *end = text + length;
    while (text < end) {
        const char *stop = memchr(text, '\n', (size_t)(end - text));
        if (stop == NULL) {
            return true;
        }
        if (!read_line(held, text, stop)) {
            return false;
        }
        text = stop + 1;
    }
    return true;
}

/* ---- the list */

static void sink(struct block *blocks, size_t at, size_t count)
{
    struct block block = blocks[at];
    for (size_t child = 2 * at + 1; child < count; child = 2 * at + 1) {
        child += child + 1 < count && blocks[child].start < blocks[child + 1].start;
        if (blocks[child].start <= block.start) {
            break;
        }
        blocks[at] = blocks[child];
        at = child;
    }
    blocks[at] = block;
}

/* Puts the blocks in order of address, by a heap: in place, and without calls of malloc. */
static void sort(struct block *blocks, size_t count)
{
    for (size_t k = count / 2; k > 0; k--) {
        sink(blocks, k - 1, count);
    }
    for (size_t left = count; left > 1; left--) {
        struct block last = blocks[left - 1];
        blocks[left - 1] = blocks[0];
        blocks[0] = last;
        sink(blocks, 0, left - 1);
    }
}

/* Moves the blocks of a table to the front of a list, which may be its own, and puts them in order
 * there. */
static void make_list(struct held *held, const struct block *table)
{
    size_t count = 0;
    for (size_t k = 0; k < held->places; k++) {
        if (table[k].start != 0) {
            held->blocks[count++] = table[k];
        }
    }
    sort(held->blocks, count);
}

bool held_read(struct held *held, const char *log)
{
    memset(held, 0, sizeof *held);
    int file = (int)syscall(SYS_openat, AT_FDCWD, log, O_RDONLY | O_CLOEXEC, 0);
    struct stat told;
    bool is_open = file >= 0 && fstat(file, &told) == 0;
    size_t length = is_open ? (size_t)told.st_size : 0;
    void *text = is_open ? mmap(NULL, length, PROT_READ, MAP_PRIVATE, file, 0) : MAP_FAILED;
    if (file >= 0) {
        syscall(SYS_close, file);
    }
    if (text == MAP_FAILED) {
        return false;
    }
    bool read = read_lines(held, text, length);
    munmap(text, length);
    if (read) {
        make_list(held, held->blocks);
    }
    return read;
}

/* ---- lines that are taken */

/* In a child of a fork that isn't before its first call: a handler's fork may have come amid a
 * change of the table, to which the child returns. */
void held_begin(bool is_on)
{
    if (taking.blocks != NULL) {
        give_pages(taking.blocks);
    }
    memset(&taking, 0, sizeof taking);
    takes = takes_all = is_on;
}

void held_take(const char *lines, size_t length, bool may_call)
{
    if (takes && takes_all) {
        /* A table that is to grow asks the system for memory. */
        bool has_room = may_call || 2 * (taking.count + 2) < taking.places;
        takes_all = has_room && read_lines(&taking, lines, length);
    }
}

bool held_copy(struct held *held)
{
    size_t bytes = (taking.count + 1) * sizeof *taking.blocks;
    *held = taking;
    held->blocks = takes && takes_all ? take_pages(bytes) : NULL;
    if (held->blocks == NULL) {
        return false;
    }
    make_list(held, taking.blocks);
    return true;
}

struct block *held_find(const struct held *held, uintptr_t address)
{
    size_t low = 0, high = held->count;
    while (low < high) {
        size_t middle = low + (high - low) / 2;
        if (held->blocks[middle].start <= address) {
            low = middle + 1;
        } else {
            high = middle;
        }
    }
    struct block *block = low == 0 ? NULL : &held->blocks[low - 1];
    bool is_inside =
        block != NULL && (address == block->start || address - block->start < block->size);
    return is_inside ? block : NULL;
}
