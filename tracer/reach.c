/* reach.c: which held blocks the memory of the process still points to where it ends, as
 * LeakSanitizer and valgrind look for them.
 *
 * Roots are the words of each mapping that can be read and written: data of the program and its
 * libraries, stacks from where a thread is, and what mmap gave. A held block is no root: its words
 * count where the block itself is pointed to. Memory is read by the kernel, so that a page which
 * can't be read is passed over.
 *
 * What glibc's malloc has beside held blocks isn't looked at: its lists and free blocks have stale
 * pointers. In a child of a fork it is looked at, since blocks of the parent stand there.
 */
#define _GNU_SOURCE
#include "trace.h"

#include <dlfcn.h>
#include <fcntl.h>
#include <stdio.h>
#include <stdlib.h>
#include <string.h>
#include <sys/resource.h>
#include <sys/syscall.h>
#include <sys/uio.h>
#include <unistd.h>

/* Bytes that are read at once, the most threads whose stacks are told apart, the bytes below a
 * stack's pointer that are in use, and what the arenas of glibc's threads are a multiple of. */
enum {
    PIECE = 1 << 16,
    WORD = sizeof(uintptr_t),
    THREADS_MOST = 1024,
    RED_ZONE = 128,
    ARENA = 1 << 26
};
/* The most parts of files, and the words of a table of functions that are looked at, of which so
 * many are to lead to code. */
enum { FILES_MOST = 8192, TABLE_WORDS = 20, TABLE_CODE = 2 };
/* What a lost block has in place of its first's stack until that is known: whether one before it
 * leads to it. */
#define IS_LED UINT32_MAX
#define IS_FIRST (UINT32_MAX - 1)
/* Words of a piece, bytes of a name, arguments of a system call, the pages that are asked for at
 * once, the most bytes of exit's code, the words that are looked at for its frame, and the
 * registers that it keeps. */
enum {
    WORDS = PIECE / WORD,
    NAME_MOST = PATH_MOST + 16,
    ARGUMENTS = 6,
    PAGES = 64,
    EXIT_CODE = 64,
    EXIT_WORDS = 128,
    EXIT_KEPT = 6
};

/* A part of the memory: a line of the kernel's list. */
struct mapping {
    uintptr_t from, to;
    bool is_written, is_private, is_guard, is_read, is_code;
    const char *path;
};

/* A part of a file that is mapped and can be read. */
struct part {
    uintptr_t from, to;
    bool is_code;
};

/* A search. The queue has blocks whose words are still to be looked at. Each block gets into it
 * twice at most, as its reach rises. */
struct search {
    struct held held;
    uint32_t *queue;
    size_t queued;
    /* Where each thread's stack is in use from, and whether one isn't known. */
    uintptr_t stacks[THREADS_MOST];
    size_t threads;
    bool is_unknown;
    /* Parts of files, in order. */
    struct part files[FILES_MOST];
    size_t file_count;
    /* The kernel's list of pages, or below 0; the file that is written, how many bytes wait for it,
     * and whether all others could be written. */
    int pages, file;
    /* The stack of the lost block whose others are looked for. */
    uint32_t leader;
    size_t waiting;
    bool is_whole;
    struct reader reader;
    uintptr_t words[WORDS];
    char name[NAME_MOST];
};

/* What is held by the blocks of one stack. */
struct sum {
    uint64_t blocks, bytes;
};

/* An address in glibc's data, where its malloc has its lists, or 0 where malloc is another's; and
 * where the code of exit begins. */
static uintptr_t library_data, exit_code;
static bool is_child;

void reach_begin(void)
{
    void *data = dlsym(RTLD_NEXT, "_IO_2_1_stdout_"),
         *start = dlsym(RTLD_NEXT, "__libc_start_main");
    exit_code = (uintptr_t)dlsym(RTLD_NEXT, "exit");
    uintptr_t allocator;
    memcpy(&allocator, &real.malloc, sizeof allocator);
    library_data = find_module(allocator) == find_module((uintptr_t)start) ? (uintptr_t)data : 0;
}

void reach_in_child(void) { is_child = true; }

/* ---- what points where */

/* Reads memory of this process: how many bytes could be. */
static size_t read_memory(void *to, uintptr_t from, size_t bytes)
{
    /* An address is no pointer to what the compiler knows. */
    void *source;
    memcpy(&source, &from, sizeof source);
    struct iovec here = {to, bytes}, there = {source, bytes};
    long got = syscall(SYS_process_vm_readv, getpid(), &here, 1ul, &there, 1ul, 0ul);
    return got < 0 ? 0 : (size_t)got;
}

/* The part of a file that an address is in, or null. */
static const struct part *file_at(const struct search *search, uintptr_t address)
{
    size_t low = 0, high = search->file_count;
    while (low < high) {
        size_t middle = low + (high - low) / 2;
        if (search->files[middle].from <= address) {
            low = middle + 1;
        } else {
            high = middle;
        }
    }
    const struct part *part = low == 0 ? NULL : &search->files[low - 1];
    return part != NULL && address < part->to ? part : NULL;
}

/* Whether a word leads to a table of functions: a part of a file whose first words that aren't 0
 * lead to code. */
static bool is_table(const struct search *search, uintptr_t word)
{
    uintptr_t table[TABLE_WORDS];
    size_t found = 0;
    if (word % WORD != 0 || file_at(search, word) == NULL) {
        return false;
    }
    size_t count = read_memory(table, word, sizeof table) / WORD;
    for (size_t k = 0; k < count && found < TABLE_CODE; k++) {
        const struct part *part = file_at(search, table[k]);
        if (table[k] != 0 && (part == NULL || !part->is_code)) {
            return false;
        }
        found += table[k] != 0;
    }
    return found == TABLE_CODE;
}

/* Whether an address in a block is that of an object's second base class: there and at the block's
 * start are tables of functions. */
static bool is_base(const struct search *search, const struct block *block, uintptr_t address)
{
    uintptr_t first, second;
    if (address % WORD != 0 || address - block->start + WORD > block->size
        || read_memory(&second, address, WORD) < WORD || !is_table(search, second)) {
        return false;
    }
    return read_memory(&first, block->start, WORD) == WORD && is_table(search, first);
}

/* Whether an address in a block is what a program knows it by: its start; behind its length, as
 * sqlite has it; behind the number of its elements, as of `new[]`; the text of an old std::string;
 * or a second base class. These are rules of valgrind's. */
static bool is_start(const struct search *search, const struct block *block, uintptr_t address)
{
    uintptr_t head[2], at = address - block->start;
    if (at == 0 || is_base(search, block, address)) {
        return true;
    }
    if ((at != WORD && at != 3 * WORD) || block->size <= at
        || read_memory(head, block->start, sizeof head) < sizeof head) {
        return false;
    }
    if (at == WORD) {
        return head[0] > 0 && (block->size - WORD) % head[0] == 0;
    }
    return head[0] <= head[1] && block->size - 3 * WORD - 1 == head[1];
}

/* Takes a word of memory into account, from which a block is pointed to in at most this way. */
static void look_at(struct search *search, uintptr_t word, enum reach most)
{
    struct block *block = held_find(&search->held, word);
    if (block == NULL || block->reach >= most) {
        return;
    }
    enum reach reach =
        most == REACHABLE && is_start(search, block, word) ? REACHABLE : POSSIBLY_LOST;
    if (block->reach < reach) {
        block->reach = reach;
        search->queue[search->queued++] = (uint32_t)(block - search->held.blocks);
    }
}

/* Whether a word can be the address of a held block. */
static bool is_near(const struct held *held, uintptr_t word)
{
    const struct block *last = &held->blocks[held->count - 1];
    return word >= held->blocks[0].start
           && word - last->start <= (word < last->start ? UINTPTR_MAX : last->size);
}

/* What is done with a word of a held block that can be the address of another. */
typedef void take_t(struct search *search, const struct block *block, uintptr_t word);

static void reach_on(struct search *search, const struct block *block, uintptr_t word)
{
    look_at(search, word, (enum reach)block->reach);
}

/* Looks at the words of a held block. */
static void look_at_block(struct search *search, const struct block *block, take_t *take)
{
    uintptr_t from = (block->start + WORD - 1) / WORD * WORD, end = block->start + block->size;
    while (from + WORD <= end) {
        size_t wanted = end - from < PIECE ? (end - from) / WORD * WORD : PIECE;
        size_t got = read_memory(search->words, from, wanted) / WORD;
        for (size_t k = 0; k < got; k++) {
            if (is_near(&search->held, search->words[k])) {
                take(search, block, search->words[k]);
            }
        }
        from += wanted;
    }
}

/* The first address from here on whose page was ever used, or where the next pages are to be asked
 * for: most of a large mapping may be unused. */
static uintptr_t used_from(const struct search *search, uintptr_t from)
{
    uint64_t pages[PAGES];
    uintptr_t page = from / PAGE;
    long got =
        syscall(SYS_pread64, search->pages, pages, sizeof pages, (long)(page * sizeof *pages));
    long known = got < 0 ? 0 : got / (long)sizeof *pages, unused = 0;
    /* The highest bits tell that a page is there, or was swapped. */
    while (unused < known && pages[unused] >> 62 == 0) {
        unused++;
    }
    return unused == 0 ? from : (page + (uintptr_t)unused) * PAGE;
}

/* Looks at the words of a part of the memory, but for those of held blocks and of the search. */
static void look_at_roots(struct search *search, const struct mapping *mapping, uintptr_t from,
                          bool starts_only)
{
    uintptr_t to = mapping->to;
    while (from + WORD <= to) {
        uintptr_t used = mapping->is_private ? used_from(search, from) : from;
        if (used > from) {
            from = used;
            continue;
        }
        size_t wanted = to - from < PIECE ? (to - from) / WORD * WORD : PIECE;
        size_t got = read_memory(search->words, from, wanted) / WORD;
        for (size_t k = 0; k < got; k++) {
            uintptr_t word = search->words[k], place = from + k * WORD;
            bool counts = is_near(&search->held, word) && !is_taken(place)
                          && held_find(&search->held, place) == NULL;
            const struct block *block = counts ? held_find(&search->held, word) : NULL;
            if (block != NULL && (!starts_only || block->start == word)) {
                look_at(search, word, REACHABLE);
            }
        }
        /* Behind what can't be read the next page may be one that can. */
        from = got * WORD == wanted ? from + wanted : (from + got * WORD) / PAGE * PAGE + PAGE;
    }
}

static void follow(struct search *search, take_t *take)
{
    while (search->queued > 0) {
        look_at_block(search, &search->held.blocks[search->queue[--search->queued]], take);
    }
}

/* ---- which lost blocks lead to others */

/* The lost block that an address is in, but for this one; or null. */
static struct block *lost_at(const struct search *search, uintptr_t word, const struct block *but)
{
    struct block *block = held_find(&search->held, word);
    return block == NULL || block == but || block->reach != LOST ? NULL : block;
}

/* Looks for all that a lost block leads to, by what takes it. */
static void follow_lost(struct search *search, struct block *first, uint32_t mark, take_t *take)
{
    first->leader = mark;
    search->leader = first->stack;
    look_at_block(search, first, take);
    follow(search, take);
}

static void note_led(struct search *search, const struct block *block, uintptr_t word)
{
    struct block *led = lost_at(search, word, block);
    if (led != NULL && led->leader == 0) {
        led->leader = IS_LED;
        search->queue[search->queued++] = (uint32_t)(led - search->held.blocks);
    }
}

static void lead_on(struct search *search, const struct block *block, uintptr_t word)
{
    struct block *led = lost_at(search, word, block);
    if (led != NULL && led->leader >= IS_FIRST) {
        led->leader = search->leader;
        search->queue[search->queued++] = (uint32_t)(led - search->held.blocks);
    }
}

/* Each lost block that none leads to is the first of those that it leads to. Of a ring to which
 * none leads the first is the block of the lowest address. One pass, up the addresses, marks each
 * block to which no earlier one leads. The other, down the addresses, drops of these the blocks to
 * which a later one leads. */
static void find_leaders(struct search *search)
{
    struct held *held = &search->held;
    for (size_t k = 0; k < held->count; k++) {
        if (held->blocks[k].reach == LOST && held->blocks[k].leader == 0) {
            follow_lost(search, &held->blocks[k], IS_FIRST, note_led);
        }
    }
    for (size_t k = held->count; k > 0; k--) {
        if (held->blocks[k - 1].reach == LOST && held->blocks[k - 1].leader == IS_FIRST) {
            follow_lost(search, &held->blocks[k - 1], 0, lead_on);
        }
    }
}

/* ---- the stacks */

/* Opens a file of the kernel's. */
static int open_told(const char *name)
{
    return (int)syscall(SYS_openat, AT_FDCWD, name, O_RDONLY | O_CLOEXEC, 0);
}

/* Takes a thread by the kernel's line on its system call: number, arguments, stack and code. The
 * arguments are in registers. Where it isn't in one, where its stack is in use from isn't known. */
static void read_thread(struct search *search, const char *name)
{
    char file[64], line[256];
    snprintf(file, sizeof file, "/proc/self/task/%.16s/syscall", name);
    int told = open_told(file);
    long length = told < 0 ? 0 : syscall(SYS_read, told, line, sizeof line - 1);
    syscall(SYS_close, told);
    line[length < 0 ? 0 : length] = 0;
    char *next = strchr(line, ' ');
    if (next == NULL || search->threads == THREADS_MOST) {
        search->is_unknown = true;
        return;
    }
    bool in_call = line[0] != '-';
    for (int k = 0; in_call && k < ARGUMENTS; k++) {
        look_at(search, strtoul(next, &next, 16), REACHABLE);
    }
    search->stacks[search->threads++] = strtoul(next, NULL, 16) - RED_ZONE;
}

/* One entry of a folder, as the kernel writes it. */
struct entry {
    uint64_t number, next;
    uint16_t length;
    uint8_t kind;
    char name[];
};

/* Takes the stacks of the other threads. */
static void read_threads(struct search *search)
{
    uint64_t entries[512];
    int folder = open_told("/proc/self/task");
    long length;
    while (folder >= 0 && (length = syscall(SYS_getdents64, folder, entries, sizeof entries)) > 0) {
        const char *at = (const char *)entries;
        for (long k = 0; k < length;) {
            uint16_t step;
            const char *name = at + k + offsetof(struct entry, name);
            memcpy(&step, at + k + offsetof(struct entry, length), sizeof step);
            if (name[0] != '.' && atoi(name) != (int)syscall(SYS_gettid)) {
                read_thread(search, name);
            }
            k += step;
        }
    }
    search->is_unknown |= folder < 0;
    syscall(SYS_close, folder);
}

/* The lowest place of a mapping that a thread's stack is in use from, or where the mapping ends. */
static uintptr_t stack_in(const struct search *search, const struct mapping *mapping)
{
    uintptr_t lowest = mapping->to;
    for (size_t k = 0; k < search->threads; k++) {
        uintptr_t from = search->stacks[k];
        lowest = from >= mapping->from && from < lowest ? from : lowest;
    }
    return lowest;
}

/* ---- the roots */

/* Reads a line of the kernel's list: `55d0-55f0 rw-p 00000000 08:01 123   /usr/bin/jq`. */
static struct mapping mapping_of(const char *line)
{
    char *at;
    struct mapping mapping = {.path = strpbrk(line, "/[")};
    mapping.from = strtoul(line, &at, 16);
    mapping.to = *at == '-' ? strtoul(at + 1, &at, 16) : 0;
    mapping.is_written = strncmp(at, " rw", 3) == 0;
    mapping.is_private = mapping.is_written && at[4] == 'p';
    mapping.is_guard = strncmp(at, " ---p", 5) == 0;
    mapping.is_read = strncmp(at, " r", 2) == 0;
    mapping.is_code = mapping.is_read && at[3] == 'x';
    mapping.path = mapping.path == NULL ? "" : mapping.path;
    return mapping;
}

/* Whether glibc's malloc serves from this mapping: the heap, or an arena of its threads, whose
 * first word points behind the few words that it begins with. */
static bool is_heap(const struct mapping *mapping)
{
    uintptr_t first = 0;
    if (library_data == 0 || is_child) {
        return false;
    }
    if (strcmp(mapping->path, "[heap]") == 0) {
        return true;
    }
    if (mapping->path[0] != 0 || mapping->from % ARENA != 0
        || read_memory(&first, mapping->from, WORD) < WORD) {
        return false;
    }
    return first != 0 && first % ARENA >= 2 * WORD && first % ARENA <= 16 * WORD
           && first % WORD == 0;
}

/* Whether this is the stack of a thread that has ended, which glibc keeps for the next one: of the
 * usual size, behind a guard, and in use by no thread. */
static bool is_old_stack(const struct search *search, const struct mapping *mapping,
                         const struct mapping *before)
{
    struct rlimit usual;
    uintptr_t bytes = mapping->to - mapping->from;
    bool is_guarded = before->is_guard && before->to == mapping->from && mapping->path[0] == 0;
    return is_guarded && !search->is_unknown && getrlimit(RLIMIT_STACK, &usual) == 0
           && (bytes == usual.rlim_cur || bytes + before->to - before->from == usual.rlim_cur)
           && stack_in(search, mapping) == mapping->to;
}

/* Looks at the stack of a thread that has ended. Its control block still leads to the thread's
 * table of variables, which glibc keeps with the stack. On x86-64 it begins with its own address,
 * that table's, and its own address again. */
static void look_at_old_stack(struct search *search, const struct mapping *mapping)
{
    uintptr_t from = mapping->to - PIECE;
    size_t got =
        mapping->to - mapping->from < PIECE ? 0 : read_memory(search->words, from, PIECE) / WORD;
    for (size_t k = 0; k + 2 < got; k++) {
        uintptr_t place = from + k * WORD;
        if (search->words[k] == place && search->words[k + 2] == place) {
            look_at(search, search->words[k + 1], REACHABLE);
            return;
        }
    }
}

/* Looks at a mapping. */
static void look_at_mapping(struct search *search, const struct mapping *mapping,
                            const struct mapping *before)
{
    bool is_device = strncmp(mapping->path, "/dev/", 5) == 0
                     && strncmp(mapping->path, "/dev/shm/", 9) != 0
                     && strncmp(mapping->path, "/dev/zero", 9) != 0;
    bool is_ring = strncmp(mapping->path, "/dev/shm/tlsf-trace-", 20) == 0;
    if (!mapping->is_written || is_device || is_ring || is_heap(mapping)) {
        return;
    }
    if (is_old_stack(search, mapping, before)) {
        look_at_old_stack(search, mapping);
        return;
    }
    uintptr_t stack = stack_in(search, mapping);
    uintptr_t from = stack < mapping->to ? stack / WORD * WORD : mapping->from;
    bool has_lists = library_data >= mapping->from && library_data < mapping->to;
    look_at_roots(search, mapping, from, has_lists && !is_child);
}

/* Notes which parts of files are mapped. */
static void read_files(struct search *search)
{
    struct reader *reader = &search->reader;
    reader->at = reader->end = 0;
    reader->file = open_told("/proc/self/maps");
    while (reader->file >= 0 && search->file_count < FILES_MOST && next_line(reader)) {
        struct mapping mapping = mapping_of(reader->line);
        if (mapping.is_read && mapping.path[0] == '/') {
            struct part part = {mapping.from, mapping.to, mapping.is_code};
            search->files[search->file_count++] = part;
        }
    }
    syscall(SYS_close, reader->file);
}

static bool look_at_mappings(struct search *search)
{
    struct mapping before = {0};
    struct reader *reader = &search->reader;
    reader->at = reader->end = 0;
    reader->file = open_told("/proc/self/maps");
    while (reader->file >= 0 && next_line(reader)) {
        struct mapping mapping = mapping_of(reader->line);
        look_at_mapping(search, &mapping, &before);
        mapping.path = "";
        before = mapping;
    }
    syscall(SYS_close, reader->file);
    return reader->file >= 0;
}

/* ---- what is told */

/* Adds up the blocks of one reach that none leads to by their stacks, and returns the sum of
 * all. */
static struct sum add_up(const struct held *held, enum reach reach, struct sum *sums)
{
    struct sum all = {0, 0};
    memset(sums, 0, (held->stacks + 1ul) * sizeof *sums);
    for (size_t k = 0; k < held->count; k++) {
        const struct block *block = &held->blocks[k];
        if (block->reach == reach) {
            sums[block->stack].blocks += block->leader == 0;
            sums[block->stack].bytes += block->leader == 0 ? block->size : 0;
            all.blocks++;
            all.bytes += block->size;
        }
    }
    return all;
}

/* Writes what waits, which stands where the words were. */
static void flush(struct search *search)
{
    search->is_whole = search->is_whole
                       && syscall(SYS_write, search->file, search->words, search->waiting)
                              == (long)search->waiting;
    search->waiting = 0;
}

static void put(struct search *search, const char *text)
{
    size_t length = strlen(text);
    if (search->waiting + length > PIECE) {
        flush(search);
    }
    memcpy((char *)search->words + search->waiting, text, length);
    search->waiting += length;
}

/* Writes the sum of the blocks of a stack, which others lead to, or none. */
static void tell_sum(struct search *search, struct sum sum, uint32_t stack, uint32_t leader)
{
    char line[128], place[32] = "", by[32] = "";
    if (sum.blocks == 0) {
        return;
    }
    snprintf(place, sizeof place, " at s%u", stack);
    snprintf(by, sizeof by, " by s%u", leader);
    snprintf(line, sizeof line, "%llu bytes in %llu blocks%s%s\n", (unsigned long long)sum.bytes,
             (unsigned long long)sum.blocks, stack == 0 ? "" : place,
             stack == 0 || leader == 0 ? "" : by);
    put(search, line);
}

/* Whether a block that others lead to stands behind another, by the stacks of both. */
static bool is_behind(const struct block *one, const struct block *other)
{
    return one->leader != other->leader ? one->leader > other->leader : one->stack > other->stack;
}

static void sink(const struct block *blocks, uint32_t *order, size_t at, size_t count)
{
    uint32_t moved = order[at];
    for (size_t child = 2 * at + 1; child < count; child = 2 * at + 1) {
        child += child + 1 < count && is_behind(&blocks[order[child + 1]], &blocks[order[child]]);
        if (!is_behind(&blocks[order[child]], &blocks[moved])) {
            break;
        }
        order[at] = order[child];
        at = child;
    }
    order[at] = moved;
}

/* The blocks that others lead to, in order of the stacks of both, by a heap. Returns how many there
 * are. */
static size_t put_in_order(const struct held *held, uint32_t *order)
{
    size_t count = 0;
    for (size_t k = 0; k < held->count; k++) {
        if (held->blocks[k].leader != 0) {
            order[count++] = (uint32_t)k;
        }
    }
    for (size_t k = count / 2; k > 0; k--) {
        sink(held->blocks, order, k - 1, count);
    }
    for (size_t left = count; left > 1; left--) {
        uint32_t last = order[left - 1];
        order[left - 1] = order[0];
        order[0] = last;
        sink(held->blocks, order, 0, left - 1);
    }
    return count;
}

/* Writes the sums of lost blocks that others lead to, each behind its stack with that of their
 * first. */
static void tell_led(struct search *search)
{
    const struct block *blocks = search->held.blocks, *before = NULL;
    uint32_t *order = take_pages((search->held.count + 1) * sizeof *order);
    size_t count = order == NULL ? 0 : put_in_order(&search->held, order);
    struct sum sum = {0, 0};
    search->is_whole = search->is_whole && order != NULL;
    for (size_t k = 0; k < count; k++) {
        const struct block *block = &blocks[order[k]];
        if (before != NULL && is_behind(block, before)) {
            tell_sum(search, sum, before->stack, before->leader);
            sum.blocks = sum.bytes = 0;
        }
        sum.blocks++;
        sum.bytes += block->size;
        before = block;
    }
    if (before != NULL) {
        tell_sum(search, sum, before->stack, before->leader);
    }
    give_pages(order);
}

/* Writes the part of the blocks of one reach. */
static void tell_part(struct search *search, enum reach reach, struct sum *sums)
{
    static const char *const names[] = {"Lost", "Possibly lost", "Still reachable"};
    char line[128];
    struct sum all = add_up(&search->held, reach, sums);
    snprintf(line, sizeof line, "%s: %llu blocks, %llu bytes.\n", names[reach],
             (unsigned long long)all.blocks, (unsigned long long)all.bytes);
    put(search, line);
    for (uint32_t stack = 0; stack <= search->held.stacks; stack++) {
        tell_sum(search, sums[stack], stack, 0);
    }
    if (reach == LOST) {
        tell_led(search);
    }
}

/* The name of the file. */
static const char *name_in(struct search *search)
{
    snprintf(search->name, sizeof search->name, "%s.reachable", log_path());
    return search->name;
}

static void remove_file(struct search *search)
{
    syscall(SYS_unlinkat, AT_FDCWD, name_in(search), 0);
}

/* Writes the file: a new one. Where it can't be written whole there is none. */
static bool tell(struct search *search)
{
    struct sum *sums = take_pages((search->held.stacks + 1ul) * sizeof *sums);
    int flags = O_WRONLY | O_CREAT | O_EXCL | O_CLOEXEC;
    remove_file(search);
    search->file =
        sums == NULL ? -1 : (int)syscall(SYS_openat, AT_FDCWD, name_in(search), flags, 0666);
    search->is_whole = search->file >= 0;
    for (int reach = LOST; search->is_whole && reach < REACHES; reach++) {
        tell_part(search, (enum reach)reach, sums);
    }
    if (search->file >= 0) {
        flush(search);
        syscall(SYS_close, search->file);
    }
    if (!search->is_whole) {
        remove_file(search);
    }
    give_pages(sums);
    return search->is_whole;
}

/* Whether the kernel reads memory for this process: it can be forbidden. */
static bool can_read(void)
{
    uintptr_t word = 1, copy = 0;
    return read_memory(&copy, (uintptr_t)&word, sizeof word) == sizeof word && copy == word;
}

/* Looks at all roots, and follows the pointers from there. */
static bool look(struct search *search)
{
    if (search->held.count == 0) {
        return true;
    }
    if (!can_read()) {
        return false;
    }
    search->queue = take_pages(2 * search->held.count * sizeof *search->queue);
    if (search->queue == NULL) {
        return false;
    }
    search->pages = open_told("/proc/self/pagemap");
    read_files(search);
    read_threads(search);
    bool looked = look_at_mappings(search);
    follow(search, reach_on);
    find_leaders(search);
    syscall(SYS_close, search->pages);
    give_pages(search->queue);
    return looked;
}

/* Where this thread's stack is in use from. Amid exit that is where exit keeps its caller's
 * registers, on x86-64 in front of where it was called: below are words that calls before it have
 * left. */
static uintptr_t stack_from(struct search *search, uintptr_t here)
{
    size_t got = read_memory(search->words, here, EXIT_WORDS * WORD) / WORD;
    for (size_t k = EXIT_KEPT; k < got && exit_code != 0; k++) {
        if (search->words[k] - exit_code - 1 < EXIT_CODE) {
            return here + (k - EXIT_KEPT) * WORD;
        }
    }
    return here;
}

void reach_tell(bool is_last_handler)
{
    uintptr_t here = (uintptr_t)__builtin_frame_address(0);
    struct search *search = take_pages(sizeof *search);
    if (search != NULL) {
        search->stacks[search->threads++] = is_last_handler ? stack_from(search, here) : here;
    }
    bool is_read =
        search != NULL
        && (ring_is_on() ? held_copy(&search->held) : held_read(&search->held, log_path()));
    bool told = is_read && look(search) && tell(search);
    if (!told) {
        say(log_path(), "has no list of what is reachable: memory, /proc or the log can't be read, "
                        "or the list not be written");
    }
    if (search != NULL) {
        give_pages(search->held.blocks);
        give_pages(search);
    }
}

void reach_resume(void)
{
    struct search *search = take_pages(sizeof *search);
    if (search != NULL) {
        remove_file(search);
        give_pages(search);
    }
}
