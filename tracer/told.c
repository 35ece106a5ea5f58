/* told.c: the modules and stacks that the log has told. Each is told once, by lines of a
 * reallocation that failed, which have no effect, and has a number from then on:
 *
 *     @ m3=/usr/lib/libshop.so ! (nil) 0
 *     @ i3=5a1f20c3 ! (nil) 0
 *     @ s17=3:1f2a<77<1:9a<s12.5 ! (nil) 0
 *
 * A stack's text has a frame for each call, the nearest first: the number of its module, left out
 * where the frame in front has the same, and the offset that it returns to. `s12.5` at its end are
 * the last five frames of stack 12. Where a text is too long for a line, another goes on: `@
 * s17+..`.
 *
 * Of a stack that was told its number and 96 bits of a hash are kept, so two that share these would
 * be taken for one. All calls but told_forget have the lock of the log held.
 */
#define _GNU_SOURCE
#include "trace.h"

#include <string.h>
#include <sys/mman.h>

/* What is kept of a stack, and the next one of its bucket. A stack's number is its place. */
struct known {
    uint64_t hash;
    uint32_t more, next;
};

enum { FIRST_ROOM = 1 << 12, STACKS_MOST = 1 << 30 };

static struct known *known;
static uint32_t *buckets;
static size_t count, room;

/* The stack that was told last: its frames, which the next one may share. */
static struct place last[FRAMES_MOST + 1];
static unsigned last_frames;

static bool is_told[MODULES_MOST];

/* ---- lines */

/* A line that tells a part of a module or a stack. */
struct line {
    char letter;
    unsigned number;
    char text[LINE_MOST];
    char *end;
};

static void begin_line(struct line *line, char sign)
{
    char *to = line->text;
    *to++ = '@';
    *to++ = ' ';
    *to++ = line->letter;
    to = put_decimal(to, line->number);
    *to++ = sign;
    line->end = to;
}

static void end_line(struct line *line)
{
    static const char no_effect[] = " ! (nil) 0\n";
    memcpy(line->end, no_effect, sizeof no_effect - 1);
    line->end += sizeof no_effect - 1;
    log_write(line->text, (size_t)(line->end - line->text));
}

/* Adds a part of the text, which stands in one line. */
static void add(struct line *line, const char *part, size_t length)
{
    if ((size_t)(line->end - line->text) + length > LOCATION_MOST + 2) {
        end_line(line);
        begin_line(line, '+');
    }
    memcpy(line->end, part, length);
    line->end += length;
}

/* `@ i3=5a1f..`: the build id of a module, where it has one. */
static void tell_build_id(unsigned number)
{
    static const char digits[] = "0123456789abcdef";
    const struct module *module = module_at(number);
    struct line line = {.letter = 'i', .number = number};
    begin_line(&line, '=');
    for (unsigned k = 0; k < module->build_id_length; k++) {
        char byte[] = {digits[module->build_id[k] >> 4], digits[module->build_id[k] & 15]};
        add(&line, byte, sizeof byte);
    }
    if (module->build_id_length > 0) {
        end_line(&line);
    }
}

static void tell_module(unsigned number)
{
    const struct module *module = module_at(number);
    struct line line = {.letter = 'm', .number = number};
    begin_line(&line, '=');
    for (size_t k = 0; k < module->length; k++) {
        add(&line, module->text + k, 1);
    }
    end_line(&line);
    tell_build_id(number);
    is_told[number] = true;
}

/* `<77` or `<3:1f2a`, without the mark where the frame is the first. */
static void add_frame(struct line *line, const struct place *frame, const struct place *before)
{
    char part[64], *to = part;
    if (before != NULL) {
        *to++ = '<';
    }
    if (before == NULL || before->module != frame->module) {
        to = put_decimal(to, frame->module);
        *to++ = ':';
    }
    add(line, part, (size_t)(put_digits(to, frame->offset) - part));
}

/* `<s12.5`: the last frames of the stack before this one. */
static void add_shared(struct line *line, unsigned frames, bool is_first)
{
    char part[64], *to = part;
    if (!is_first) {
        *to++ = '<';
    }
    *to++ = 's';
    to = put_decimal(to, line->number - 1);
    *to++ = '.';
    add(line, part, (size_t)(put_decimal(to, frames) - part));
}

/* How many frames at its end a stack shares with the last one. */
static unsigned shared_frames(const struct place *frames, unsigned length)
{
    unsigned shared = 0;
    while (shared < length && shared < last_frames) {
        const struct place *one = &frames[length - 1 - shared];
        const struct place *other = &last[last_frames - 1 - shared];
        if (one->module != other->module || one->offset != other->offset) {
            break;
        }
        shared++;
    }
    return shared;
}

static void tell_stack(unsigned number, const struct place *frames, unsigned length)
{
    unsigned shared = shared_frames(frames, length);
    unsigned own = length - shared;
    for (unsigned k = 0; k < own; k++) {
        if (!is_told[frames[k].module]) {
            tell_module(frames[k].module);
        }
    }
    struct line line = {.letter = 's', .number = number};
    begin_line(&line, '=');
    for (unsigned k = 0; k < own; k++) {
        add_frame(&line, &frames[k], k == 0 ? NULL : &frames[k - 1]);
    }
    if (shared > 0) {
        add_shared(&line, shared, own == 0);
    }
    end_line(&line);
    memcpy(last, frames, length * sizeof *frames);
    last_frames = length;
}

/* ---- the stacks that were told */

static struct known identity_of(const struct place *frames, unsigned length)
{
    uint64_t one = length, other = ~(uint64_t)length;
    for (unsigned k = 0; k < length; k++) {
        uint64_t frame = frames[k].offset ^ (uint64_t)frames[k].module << 48;
        one = mix(one ^ frame);
        other = mix(other + frame);
    }
    struct known stack = {one, (uint32_t)(other >> 32), 0};
    return stack;
}

static uint32_t *bucket_of(const struct known *stack) { return &buckets[stack->hash & (room - 1)]; }

/* The number of a stack that was told, or 0. */
static unsigned find_stack(const struct known *stack)
{
    unsigned number = room == 0 ? 0 : *bucket_of(stack);
    while (number != 0
           && (known[number].hash != stack->hash || known[number].more != stack->more)) {
        number = known[number].next;
    }
    return number;
}

static void put_into_bucket(unsigned number)
{
    uint32_t *bucket = bucket_of(&known[number]);
    known[number].next = *bucket;
    *bucket = number;
}

/* Room for twice as many stacks. Memory is taken from the system as it is used. */
static bool grow(void)
{
    size_t more = room == 0 ? FIRST_ROOM : 2 * room;
    if (more > STACKS_MOST) {
        return false;
    }
    int access = PROT_READ | PROT_WRITE, kind = MAP_PRIVATE | MAP_ANONYMOUS;
    void *fresh = mmap(NULL, more * sizeof *buckets, access, kind, -1, 0);
    void *moved = fresh == MAP_FAILED ? MAP_FAILED
                  : room == 0
                      ? mmap(NULL, more * sizeof *known, access, kind, -1, 0)
                      : mremap(known, room * sizeof *known, more * sizeof *known, MREMAP_MAYMOVE);
    if (moved == MAP_FAILED) {
        if (fresh != MAP_FAILED) {
            munmap(fresh, more * sizeof *buckets);
        }
        return false;
    }
    if (room > 0) {
        munmap(buckets, room * sizeof *buckets);
    }
    known = moved;
    buckets = fresh;
    room = more;
    for (size_t number = 1; number <= count; number++) {
        put_into_bucket((unsigned)number);
    }
    return true;
}

unsigned told_stack(const struct place *frames, unsigned length)
{
    struct known stack = identity_of(frames, length);
    unsigned number = find_stack(&stack);
    if (number == 0 && (count + 1 < room || grow())) {
        number = (unsigned)++count;
        known[number] = stack;
        put_into_bucket(number);
        tell_stack(number, frames, length);
    }
    return number;
}

void told_forget(void)
{
    if (room > 0) {
        munmap(known, room * sizeof *known);
        munmap(buckets, room * sizeof *buckets);
    }
    room = count = 0;
    last_frames = 0;
    memset(is_told, 0, sizeof is_told);
}
