/* tlsf_log.c: the calls of tlsf.h are told in the words of mtrace(3). Not proved. */
#include "tlsf_log.h"

#include <stdbool.h>

#ifndef TLSF_LOG_LOCK
#define TLSF_LOG_LOCK() ((void)0)
#define TLSF_LOG_UNLOCK() ((void)0)
#endif

/* The most bytes of a file's name that are told. */
#define NAME 64u
/* Those of a call: two lines, each with a location, an address, an alignment and a size. */
#define TEXT 320u

static struct {
    const char *file;
    tlsf_log_put put;
    void *user;
} to;

/* What a call tells. */
struct text {
    char bytes[TEXT];
    size_t length;
};

static void add(struct text *text, const char *more, size_t most)
{
    for (size_t k = 0; k < most && more[k] != 0; k++) {
        text->bytes[text->length++] = more[k];
    }
}

static void add_text(struct text *text, const char *more) { add(text, more, TEXT); }

/* A number as the grammar has it: 0x and its digits, without zeros in front; 0 stands alone. */
static void add_number(struct text *text, uintptr_t number)
{
    char digits[2u * sizeof number + 1u];
    size_t at = sizeof digits - 1u;
    digits[at] = 0;
    for (; number != 0u; number /= 16u) {
        digits[--at] = "0123456789abcdef"[number % 16u];
    }
    add_text(text, digits[at] == 0 ? "0" : "0x");
    add_text(text, &digits[at]);
}

static void add_pointer(struct text *text, const void *ptr)
{
    if (ptr == NULL) {
        add_text(text, "(nil)");
    } else {
        add_number(text, (uintptr_t)ptr);
    }
}

/* The location of a call, and the form's sign. On ARM the lowest bit of a return address tells the
 * kind of code there. */
static void add_head(struct text *text, const void *from, const char *sign)
{
    uintptr_t address = (uintptr_t)from;
#ifdef __thumb__
    address &= ~(uintptr_t)1;
#endif
    add_text(text, "@ ");
    add(text, to.file, NAME);
    add_text(text, ":[");
    add_number(text, address);
    add_text(text, "] ");
    add_text(text, sign);
}

/* `+`, `>` or `!`, with a pointer and a size. */
static void add_line(struct text *text, const void *from, const char *sign, const void *ptr,
                     size_t bytes)
{
    add_head(text, from, sign);
    add_pointer(text, ptr);
    add_text(text, " ");
    add_number(text, bytes);
    add_text(text, "\n");
}

/* `-` or `<`, with a pointer that isn't null. */
static void add_taken(struct text *text, const void *from, const char *sign, const void *ptr)
{
    add_head(text, from, sign);
    add_pointer(text, ptr);
    add_text(text, "\n");
}

static void tell(const struct text *text) { to.put(text->bytes, text->length, to.user); }

/* The calls themselves. They are weak: a program that isn't linked by --wrap has none. */
__attribute__((weak)) void *__real_tlsf_malloc(tlsf_t tlsf, size_t bytes);
__attribute__((weak)) void *__real_tlsf_memalign(tlsf_t tlsf, size_t align, size_t bytes);
__attribute__((weak)) void *__real_tlsf_realloc(tlsf_t tlsf, void *ptr, size_t bytes);
__attribute__((weak)) void __real_tlsf_free(tlsf_t tlsf, void *ptr);
void *__wrap_tlsf_malloc(tlsf_t tlsf, size_t bytes);
void *__wrap_tlsf_memalign(tlsf_t tlsf, size_t align, size_t bytes);
void *__wrap_tlsf_realloc(tlsf_t tlsf, void *ptr, size_t bytes);
void __wrap_tlsf_free(tlsf_t tlsf, void *ptr);

void tlsf_log_begin(const char *file, tlsf_log_put put, void *user)
{
    TLSF_LOG_LOCK();
    to.file = file;
    to.user = user;
    to.put = put;
    put("= Start\n", 8, user);
    if (__real_tlsf_malloc == NULL) {
        put("not linked by --wrap\n", 21, user);
    }
    TLSF_LOG_UNLOCK();
}

void tlsf_log_end(void)
{
    TLSF_LOG_LOCK();
    if (to.put != NULL) {
        to.put("= End\n", 6, to.user);
    }
    to.put = NULL;
    TLSF_LOG_UNLOCK();
}

void *__wrap_tlsf_malloc(tlsf_t tlsf, size_t bytes)
{
    struct text text = {.length = 0};
    TLSF_LOG_LOCK();
    void *given = __real_tlsf_malloc(tlsf, bytes);
    if (to.put != NULL) {
        add_line(&text, __builtin_return_address(0), "+ ", given, bytes);
        tell(&text);
    }
    TLSF_LOG_UNLOCK();
    return given;
}

void *__wrap_tlsf_memalign(tlsf_t tlsf, size_t align, size_t bytes)
{
    struct text text = {.length = 0};
    TLSF_LOG_LOCK();
    void *given = __real_tlsf_memalign(tlsf, align, bytes);
    if (to.put != NULL && given == NULL) {
        add_line(&text, __builtin_return_address(0), "+ ", given, bytes);
        tell(&text);
    } else if (to.put != NULL) {
        add_head(&text, __builtin_return_address(0), "* ");
        add_pointer(&text, given);
        add_text(&text, " ");
        add_number(&text, align);
        add_text(&text, " ");
        add_number(&text, bytes);
        add_text(&text, "\n");
        tell(&text);
    }
    TLSF_LOG_UNLOCK();
    return given;
}

/* What a realloc did: it was a malloc, a free, refused, or gave a block for a block. */
static void add_realloc(struct text *text, const void *from, const void *ptr, const void *given,
                        size_t bytes)
{
    if (ptr == NULL) {
        add_line(text, from, "+ ", given, bytes);
    } else if (bytes == 0u) {
        add_taken(text, from, "- ", ptr);
    } else if (given == NULL) {
        add_line(text, from, "! ", ptr, bytes);
    } else {
        add_taken(text, from, "< ", ptr);
        add_line(text, from, "> ", given, bytes);
    }
}

void *__wrap_tlsf_realloc(tlsf_t tlsf, void *ptr, size_t bytes)
{
    struct text text = {.length = 0};
    TLSF_LOG_LOCK();
    void *given = __real_tlsf_realloc(tlsf, ptr, bytes);
    if (to.put != NULL) {
        add_realloc(&text, __builtin_return_address(0), ptr, given, bytes);
        tell(&text);
    }
    TLSF_LOG_UNLOCK();
    return given;
}

void __wrap_tlsf_free(tlsf_t tlsf, void *ptr)
{
    struct text text = {.length = 0};
    TLSF_LOG_LOCK();
    if (to.put != NULL && ptr != NULL) {
        add_taken(&text, __builtin_return_address(0), "- ", ptr);
        tell(&text);
    }
    __real_tlsf_free(tlsf, ptr);
    TLSF_LOG_UNLOCK();
}

/* ---- the ring. What is written is there before its place is told, and what is taken was read
 * before. */

static size_t filled(const tlsf_log_ring *ring)
{
    size_t written = __atomic_load_n(&ring->written, __ATOMIC_ACQUIRE);
    size_t taken = __atomic_load_n(&ring->taken, __ATOMIC_ACQUIRE);
    return (written + 2u * ring->bytes - taken) % (2u * ring->bytes);
}

static void go_on(const tlsf_log_ring *ring, size_t *place, size_t bytes)
{
    __atomic_store_n(place, (*place + bytes) % (2u * ring->bytes), __ATOMIC_RELEASE);
}

/* Whether the text had room. */
static bool has_written(tlsf_log_ring *ring, const char *text, size_t bytes)
{
    bool fits = ring->bytes - filled(ring) >= bytes;
    for (size_t k = 0; k < bytes && fits; k++) {
        ring->memory[(ring->written + k) % ring->bytes] = text[k];
    }
    if (fits) {
        go_on(ring, &ring->written, bytes);
    }
    return fits;
}

void tlsf_log_into_ring(const char *text, size_t bytes, void *ring)
{
    tlsf_log_ring *own = (tlsf_log_ring *)ring;
    struct text end = {.length = 0};
    if (own->lost == 0u && has_written(own, text, bytes)) {
        return;
    }
    own->lost++;
    if (own->is_cut == 0u) {
        add_text(&end, "@ lost ! (nil) ");
        add_number(&end, own->lost);
        add_text(&end, "\n@ cut ! (nil) 0\n");
        own->is_cut = has_written(own, end.bytes, end.length) ? 1u : 0u;
    }
}

size_t tlsf_log_take(tlsf_log_ring *ring, char *out, size_t room)
{
    size_t there = filled(ring);
    size_t count = there < room ? there : room;
    for (size_t k = 0; k < count; k++) {
        out[k] = ring->memory[(ring->taken + k) % ring->bytes];
    }
    go_on(ring, &ring->taken, count);
    return count;
}
