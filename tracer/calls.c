/* calls.c: the calls of malloc that stand in for those of the C library, each of which writes a
 * line. A free's line is written before its block is given back, any other behind the call: so an
 * address is freed in the log before another call gets it. A realloc holds the lock throughout,
 * since its two lines stand side by side.
 */
#define _GNU_SOURCE
#include "trace.h"

#include <errno.h>
#include <string.h>

/* What the tracer's own calls ask for, as dlsym and dlopen do. It is never given back, and no line
 * tells of it. In front of each block stand its bytes. */
enum { UNIT = 16, OWN_BYTES = 1 << 20, USUAL_ALIGN = 16 };
static _Alignas(UNIT) char own[OWN_BYTES];
static size_t own_used;

static bool is_own(const void *address) { return (uintptr_t)address - (uintptr_t)own < sizeof own; }

static void *take_own(size_t bytes)
{
    size_t room = (bytes + 2 * UNIT - 1) / UNIT * UNIT;
    if (bytes > sizeof own) {
        return NULL;
    }
    size_t from = __atomic_fetch_add(&own_used, room, __ATOMIC_RELAXED);
    if (from > sizeof own - room) {
        return NULL;
    }
    memcpy(own + from, &bytes, sizeof bytes);
    return own + from + UNIT;
}

/* A block for the tracer's own calls, or one of the C library where they have taken all. */
static void *give_own(size_t bytes)
{
    void *given = take_own(bytes);
    return given != NULL || real.malloc == NULL ? given : real.malloc(bytes);
}

/* Moves one of these blocks to where the call would have got one. */
static void *move_own(const void *address, size_t bytes)
{
    size_t had;
    memcpy(&had, (const char *)address - UNIT, sizeof had);
    void *given = inside ? give_own(bytes) : real.malloc(bytes);
    return given == NULL ? NULL : memcpy(given, address, had < bytes ? had : bytes);
}

/* ---- lines */

/* A line that begins: `@ s17 `, or nothing where there was no memory for the stack. */
static char *put_place(char *to, void *caller)
{
    unsigned number = stack_number(caller);
    if (number == 0) {
        return to;
    }
    *to++ = '@';
    *to++ = ' ';
    *to++ = 's';
    to = put_decimal(to, number);
    *to++ = ' ';
    return to;
}

/* `+ ADDRESS`, or with another sign. */
static char *put_address(char *to, char sign, const void *address)
{
    static const char none[] = "(nil)";
    *to++ = sign;
    *to++ = ' ';
    if (address != NULL) {
        return put_hex(to, (uintptr_t)address);
    }
    memcpy(to, none, sizeof none - 1);
    return to + sizeof none - 1;
}

/* ` SIZE`, and the end of the line. */
static char *put_size(char *to, size_t size)
{
    *to++ = ' ';
    if (size == 0) {
        *to++ = '0';
    } else {
        to = put_hex(to, size);
    }
    *to++ = '\n';
    return to;
}

/* Writes a line that begins at `line`. */
static void write_line(const char *line, const char *end)
{
    log_lock();
    log_write(line, (size_t)(end - line));
    log_unlock();
}

/* Holds a block of a running program. The program frees blocks by ways that aren't seen, too, as
 * amid a library that is still loaded: that is told where the same address is given again. With the
 * lock held. */
static void hold(const void *address)
{
    enum since was = since_add((uintptr_t)address);
    if (was == HELD) {
        char line[LINE_MOST], *end = put_address(line, '-', address);
        *end++ = '\n';
        log_write(line, (size_t)(end - line));
    } else if (was == NO_MEMORY) {
        log_drop("has no memory for what is held, so the log is cut");
    }
}

/* Whether the log is one of a running program. With the lock held. */
static bool is_since(void) { return since_is_on() && log_is_on(); }

/* Writes the line of a block that was given. */
static void write_given(const char *line, const char *end, const void *address)
{
    log_lock();
    if (is_since() && address != NULL) {
        hold(address);
    }
    log_write(line, (size_t)(end - line));
    log_unlock();
}

/* Whether a block is one of the log, which it then leaves. Each is where the whole program is
 * traced. */
static bool take_block(const void *address)
{
    log_lock();
    bool is_held = !is_since() || since_take((uintptr_t)address);
    log_unlock();
    return is_held;
}

/* The power of two that the C library takes for an alignment. */
static size_t power_of(size_t align)
{
    size_t power = 1;
    while (power < align && power <= SIZE_MAX / 2) {
        power *= 2;
    }
    return power;
}

/* The line of a block that was given, or refused where the address is null. */
static void tell_given(void *caller, const void *address, size_t align, size_t bytes)
{
    int code = errno;
    char line[LINE_MOST];
    char *end = put_place(line, caller);
    bool aligned = address != NULL && align > USUAL_ALIGN;
    end = put_address(end, aligned ? '*' : '+', address);
    if (aligned) {
        *end++ = ' ';
        end = put_hex(end, power_of(align));
    }
    write_given(line, put_size(end, bytes), address);
    errno = code;
}

static void tell_freed(void *caller, const void *address)
{
    int code = errno;
    if (!take_block(address)) {
        return;
    }
    char line[LINE_MOST];
    char *end = put_address(put_place(line, caller), '-', address);
    *end++ = '\n';
    write_line(line, end);
    errno = code;
}

/* ---- the calls */

/* What a call of the tracer itself, or one that comes too early, gets. */
static void *untold(size_t bytes) { return inside ? give_own(bytes) : real.malloc(bytes); }

/* A call for new bytes from this caller, by the allocator behind. */
static void *give(void *caller, size_t bytes)
{
    if (!enter()) {
        return untold(bytes);
    }
    void *given = real.malloc(bytes);
    tell_given(caller, given, 0, bytes);
    leave();
    return given;
}

EXPORT void *malloc(size_t bytes) { return give(CALLER, bytes); }

EXPORT void free(void *address)
{
    if (address == NULL || is_own(address)) {
        return;
    }
    if (enter()) {
        tell_freed(CALLER, address);
        leave();
    }
    real.free(address);
}

/* A product above SIZE_MAX is SIZE_MAX, which is refused. */
static size_t product(size_t count, size_t size)
{
    size_t bytes;
    return __builtin_mul_overflow(count, size, &bytes) ? SIZE_MAX : bytes;
}

EXPORT void *calloc(size_t count, size_t size)
{
    size_t bytes = product(count, size);
    if (!enter()) {
        void *given = inside ? give_own(bytes) : real.calloc(count, size);
        return given == NULL || !inside ? given : memset(given, 0, bytes);
    }
    void *given = real.calloc(count, size);
    tell_given(CALLER, given, 0, bytes);
    leave();
    return given;
}

/* The lines of a realloc: two, or one where it failed or gave the block back. */
static const char *put_moved(char *place, size_t length, const void *old, const void *given,
                             size_t bytes)
{
    char *end = place + length;
    if (given == NULL && bytes != 0) {
        return put_size(put_address(end, '!', old), bytes);
    }
    end = put_address(end, given == NULL ? '-' : '<', old);
    *end++ = '\n';
    if (given != NULL) {
        memcpy(end, place, length);
        end = put_size(put_address(end + length, '>', given), bytes);
    }
    return end;
}

/* The lines of a realloc amid a running program, of which the block can be from before: then what
 * is given is a new block. */
static const char *put_moved_since(char *place, size_t length, const void *old, const void *given,
                                   size_t bytes)
{
    bool is_gone = given != NULL || bytes == 0;
    bool is_held = is_gone ? since_take((uintptr_t)old) : since_has((uintptr_t)old);
    if (given != NULL) {
        hold(given);
    }
    if (is_held) {
        return put_moved(place, length, old, given, bytes);
    }
    return given == NULL ? place : put_size(put_address(place + length, '+', given), bytes);
}

/* A call of realloc with an address from this caller. */
static void *move(void *caller, void *old, size_t bytes)
{
    if (is_own(old)) {
        return move_own(old, bytes);
    }
    if (!enter()) {
        return real.realloc(old, bytes);
    }
    char lines[LINES_MOST];
    size_t length = (size_t)(put_place(lines, caller) - lines);
    uintptr_t address = (uintptr_t)old;
    log_lock();
    void *given = real.realloc(old, bytes);
    int code = errno;
    const char *end = (is_since() ? put_moved_since
                                  : put_moved)(lines, length, (const void *)address, given, bytes);
    log_write(lines, (size_t)(end - lines));
    log_unlock();
    leave();
    errno = code;
    return given;
}

EXPORT void *realloc(void *old, size_t bytes)
{
    return old == NULL ? give(CALLER, bytes) : move(CALLER, old, bytes);
}

EXPORT void *reallocarray(void *old, size_t count, size_t size)
{
    size_t bytes = product(count, size);
    return old == NULL ? give(CALLER, bytes) : move(CALLER, old, bytes);
}

EXPORT void *memalign(size_t align, size_t bytes)
{
    bool told = enter();
    void *given = real.memalign(align, bytes);
    if (told) {
        tell_given(CALLER, given, align, bytes);
        leave();
    }
    return given;
}

EXPORT void *aligned_alloc(size_t align, size_t bytes)
{
    bool told = enter();
    void *given = real.aligned_alloc(align, bytes);
    if (told) {
        tell_given(CALLER, given, align, bytes);
        leave();
    }
    return given;
}

EXPORT int posix_memalign(void **out, size_t align, size_t bytes)
{
    bool told = enter();
    int result = real.posix_memalign(out, align, bytes);
    if (told) {
        tell_given(CALLER, result == 0 ? *out : NULL, align, bytes);
        leave();
    }
    return result;
}

EXPORT void *valloc(size_t bytes)
{
    bool told = enter();
    void *given = real.valloc(bytes);
    if (told) {
        tell_given(CALLER, given, PAGE, bytes);
        leave();
    }
    return given;
}

EXPORT void *pvalloc(size_t bytes)
{
    bool told = enter();
    void *given = real.pvalloc(bytes);
    if (told) {
        tell_given(CALLER, given, PAGE, bytes);
        leave();
    }
    return given;
}
