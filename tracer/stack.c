/* stack.c: the stack of a call: the frames that are told, nearest first.
 *
 * Frames are found by libunwind, if it is installed. What an address is, and which number a stack
 * has, is kept in tables.
 */
#define _GNU_SOURCE
#include "trace.h"

#include <dlfcn.h>
#include <pthread.h>
#include <sched.h>
#include <string.h>

/* Frames of the tracer and of `operator new`, which stand in front of those that are told. */
enum { OTHER_FRAMES = 8 };

/* What is known of a return address: its module, and the kind of its code. */
struct frame {
    uintptr_t address;
    uint32_t generation;
    uint16_t module;
    uint8_t kind;
};

enum { TABLE_BITS = 17, TABLE = 1 << TABLE_BITS, PLACES = 16 };

/* A stack whose number was found: `check` is its key in another form, so that a number which two
 * threads write at once is none. */
struct recent {
    uint64_t number, check;
};

enum { RECENT_BITS = 16, RECENT = 1 << RECENT_BITS };

static struct frame frames[TABLE];
static struct recent recent[RECENT];
static uint32_t generation = 1;
static pthread_mutex_t lock = PTHREAD_MUTEX_INITIALIZER;

/* Threads that look for a stack, and those that fork. A child may not find another thread amid the
 * modules, whose lock nobody would give back: so a fork waits for the first, and they for it. */
static int writers, forks;
static __thread bool forking, searching;

uint64_t mix_seed;

static unsigned frames_most = 1;
static int (*unwind)(void **, int);

/* ---- the table of addresses and their modules */

/* The places of the table for an address: from this one on, PLACES of them. */
static size_t first_place(uintptr_t address) { return (size_t)(mix(address) >> (64 - TABLE_BITS)); }

/* The frame of an address in the table, or null. */
static const struct frame *kept_frame(uintptr_t address)
{
    size_t first = first_place(address);
    for (size_t k = 0; k < PLACES; k++) {
        const struct frame *at = &frames[(first + k) % TABLE];
        uintptr_t there = __atomic_load_n(&at->address, __ATOMIC_ACQUIRE);
        if (there == 0) {
            return NULL;
        }
        if (there == address && at->generation == generation) {
            return at;
        }
    }
    return NULL;
}

/* A place of the table that may take the frame of an address, or null. */
static struct frame *free_place(uintptr_t address)
{
    size_t first = first_place(address);
    for (size_t k = 0; k < PLACES; k++) {
        struct frame *at = &frames[(first + k) % TABLE];
        if (at->address == 0 || at->generation != generation) {
            return at;
        }
    }
    return NULL;
}

/* Finds what an address is, and puts it into the table if there is a place. The address is written
 * last, since others read without the lock. */
static void read_frame(uintptr_t address, struct frame *frame)
{
    unsigned module = find_module(address);
    frame->address = address;
    frame->module = (uint16_t)module;
    frame->kind = (uint8_t)kind_of(module_at(module), address);
    pthread_mutex_lock(&lock);
    frame->generation = generation;
    struct frame *place = kept_frame(address) == NULL ? free_place(address) : NULL;
    if (place != NULL) {
        __atomic_store_n(&place->address, 1, __ATOMIC_RELAXED);
        __atomic_thread_fence(__ATOMIC_RELEASE);
        place->generation = frame->generation;
        place->module = frame->module;
        place->kind = frame->kind;
        __atomic_store_n(&place->address, address, __ATOMIC_RELEASE);
    }
    pthread_mutex_unlock(&lock);
}

/* What an address is: from the table, else put into `frame`. */
static const struct frame *frame_of(void *address, struct frame *frame)
{
    const struct frame *kept = kept_frame((uintptr_t)address);
    if (kept == NULL) {
        read_frame((uintptr_t)address, frame);
        return frame;
    }
    return kept;
}

/* ---- the stacks that were asked for lately */

/* A number for the addresses of a stack, amid the libraries that are loaded, in this log. */
static uint64_t key_of(void *const *stack, int count)
{
    uint64_t key = mix((uint64_t)log_process() << 32 ^ generation);
    for (int k = 0; k < count; k++) {
        key = mix(key ^ (uintptr_t)stack[k]);
    }
    return key;
}

static unsigned recent_number(uint64_t key)
{
    const struct recent *at = &recent[key >> (64 - RECENT_BITS)];
    uint64_t number = __atomic_load_n(&at->number, __ATOMIC_RELAXED);
    return (__atomic_load_n(&at->check, __ATOMIC_RELAXED) ^ number) == key ? (unsigned)number : 0;
}

static void keep_number(uint64_t key, unsigned number)
{
    struct recent *at = &recent[key >> (64 - RECENT_BITS)];
    __atomic_store_n(&at->number, number, __ATOMIC_RELAXED);
    __atomic_store_n(&at->check, key ^ number, __ATOMIC_RELAXED);
}

/* ---- the frames of a call */

/* Where a stack has the frame that a call returns to, or its end. On 64-bit ARM libunwind tells the
 * address one byte before. */
static int find_caller(void *caller, void *const *stack, int count)
{
    int first = 0;
    while (first < count && (uintptr_t)caller - (uintptr_t)stack[first] > 1) {
        first++;
    }
    return first;
}

/* The stack from the frame that a call returns to on: the number of addresses. */
static int stack_of(char *caller, void **stack)
{
    int count = unwind == NULL ? 0 : unwind(stack, (int)frames_most + OTHER_FRAMES);
    int first = find_caller(caller, stack, count);
    if (first >= count) {
        stack[0] = caller;
        return 1;
    }
    ptrdiff_t before = caller - (char *)stack[first];
    for (int k = first; k < count; k++) {
        stack[k - first] = stack[k] == NULL ? NULL : (char *)stack[k] + before;
    }
    return count - first;
}

/* Whether a frame is of the C library's start of `main`. From glibc 2.34 on the first of these is a
 * function that has no name, in the module of the next. */
static bool is_of_start(const struct frame *frame, const struct frame *next)
{
    return frame->kind == START
           || (next != NULL && next->kind == START && next->module == frame->module);
}

static void begin_search(void)
{
    __atomic_add_fetch(&writers, 1, __ATOMIC_SEQ_CST);
    while (!forking && __atomic_load_n(&forks, __ATOMIC_SEQ_CST) > 0) {
        __atomic_sub_fetch(&writers, 1, __ATOMIC_SEQ_CST);
        sched_yield();
        __atomic_add_fetch(&writers, 1, __ATOMIC_SEQ_CST);
    }
    searching = true;
}

static void end_search(void)
{
    searching = false;
    __atomic_sub_fetch(&writers, 1, __ATOMIC_SEQ_CST);
}

void stack_before_fork(void)
{
    __atomic_add_fetch(&forks, 1, __ATOMIC_SEQ_CST);
    forking = true;
    /* The handler of a signal may fork while its thread is a writer. */
    while (!inside && __atomic_load_n(&writers, __ATOMIC_SEQ_CST) > 0) {
        sched_yield();
    }
}

void stack_in_parent(void)
{
    forking = false;
    __atomic_sub_fetch(&forks, 1, __ATOMIC_SEQ_CST);
}

void stack_in_child(void)
{
    pthread_mutex_t fresh = PTHREAD_MUTEX_INITIALIZER;
    lock = fresh;
    module_in_child();
    forking = false;
    forks = 0;
    writers = searching ? 1 : 0;
}

/* The addresses of a call's stack. With one frame only a call of `operator new` needs more. */
static int addresses_of(void *caller, void **stack)
{
    struct frame spare;
    stack[0] = caller;
    return frames_most == 1 && frame_of(caller, &spare)->kind != OPERATOR ? 1
                                                                          : stack_of(caller, stack);
}

/* The frames of a stack that are told: how many. Of more frames than are asked for the last says
 * so. */
static unsigned told_frames(void *const *stack, int count, struct place *places)
{
    struct frame spare[2];
    const struct frame *next = frame_of(stack[0], &spare[0]);
    unsigned told = 0;
    for (int k = 0; next != NULL; k++) {
        const struct frame *frame = next;
        bool is_last = k + 1 >= count || stack[k + 1] == NULL;
        next = is_last ? NULL : frame_of(stack[k + 1], &spare[(k + 1) % 2]);
        if (told == 0 && frame->kind == OPERATOR && next != NULL) {
            continue;
        }
        if (told > 0 && is_of_start(frame, next)) {
            break;
        }
        if (told == frames_most) {
            struct place others = {0, 0};
            places[told] = others;
            return told + (frames_most > 1);
        }
        places[told].module = frame->module;
        places[told++].offset = (uintptr_t)stack[k] - module_at(frame->module)->base;
    }
    return told;
}

static unsigned find_number(void *const *stack, int count)
{
    struct place places[FRAMES_MOST + 1];
    unsigned told = told_frames(stack, count, places);
    log_lock();
    /* The child of a handler's fork comes back here without a log. */
    unsigned number = log_is_on() ? told_stack(places, told) : 0;
    log_unlock();
    return number;
}

unsigned stack_number(void *caller)
{
    void *stack[FRAMES_MOST + OTHER_FRAMES];
    begin_search();
    int count = addresses_of(caller, stack);
    uint64_t key = key_of(stack, count);
    unsigned number = recent_number(key);
    if (number == 0) {
        number = find_number(stack, count);
        keep_number(key, number);
    }
    end_search();
    return number;
}

/* The kernel's random bytes for this process: the second word, for the first guards stacks. */
static uint64_t random_word(void)
{
    const uint64_t *bytes = (const uint64_t *)getauxval(AT_RANDOM);
    return bytes == NULL ? 0 : bytes[1];
}

void stack_begin(unsigned most)
{
    mix_seed = random_word();
    module_begin();
    frames_most = most;
    void *library = dlopen("libunwind.so.8", RTLD_NOW | RTLD_LOCAL);
    void *found = library == NULL ? NULL : dlsym(library, "unw_backtrace");
    memcpy(&unwind, &found, sizeof unwind);
    if (unwind != NULL) {
        void *stack[FRAMES_MOST];
        unwind(stack, FRAMES_MOST);
    }
}

void stack_forget(void) { __atomic_add_fetch(&generation, 1, __ATOMIC_RELAXED); }
