/* slots.c: the slots through which the loaded objects call malloc and what the tracer stands in
 * for. A program that runs already has them filled: tracing it writes the tracer's calls into them,
 * and its end writes back what was there. A slot is changed where it has the one address or the
 * other, so nothing has to be kept of it, and another thread sees either.
 *
 * An object that another thread still loads may be looked at: its slots aren't those addresses
 * before the dynamic linker has written them. The part that the linker makes read-only when it is
 * done is left alone until then, and looked at again.
 */
#define _GNU_SOURCE
#include "trace.h"

#include <dlfcn.h>
#include <errno.h>
#include <fcntl.h>
#include <link.h>
#include <malloc.h>
#include <pthread.h>
#include <stdlib.h>
#include <string.h>
#include <sys/mman.h>
#include <sys/syscall.h>
#include <unistd.h>

#ifdef __aarch64__
enum { SLOT = R_AARCH64_JUMP_SLOT, DATA = R_AARCH64_GLOB_DAT, WORD = R_AARCH64_ABS64 };
#else
enum { SLOT = R_X86_64_JUMP_SLOT, DATA = R_X86_64_GLOB_DAT, WORD = R_X86_64_64 };
#endif

enum { CALLS = 26, LOOK_EACH = 256, TRIES = 100 };

/* A call by its name: the address that the program has for it, and that of the tracer. */
struct call {
    const char *name;
    uintptr_t theirs, ours;
};

/* An object: what its tables have, and where it lies. */
struct object {
    const struct dl_phdr_info *info;
    uintptr_t from, to, relro_from, relro_to;
    const ElfW(Sym) * symbols;
    const char *strings;
};

static struct call calls[CALLS];
static size_t call_count;
static pthread_mutex_t lock = PTHREAD_MUTEX_INITIALIZER;
/* Whether slots are the tracer's; whether objects may have come; whether a slot has to wait, and
 * how often it was tried again; how many objects had come; and the calls of malloc. */
static bool is_on, is_due, is_waiting;
static unsigned tries, passed;
static unsigned long long seen;

/* ---- the calls */

static void add_call(const char *name, uintptr_t ours)
{
    void *found = dlsym(RTLD_NEXT, name);
    if (found != NULL && call_count < CALLS) {
        struct call call = {name, (uintptr_t)found, ours};
        calls[call_count++] = call;
    }
}

/* Whether the search for a library depends on the object that asks for it. */
static bool depends_on_caller(const char *file, void *caller);

/* Stands in for dlopen. Where the caller matters the C library has to see it: then this call leaves
 * no frame, and the next call of malloc looks for the new objects. */
static void *open_object(const char *file, int mode)
{
    if (file == NULL || depends_on_caller(file, CALLER)) {
        __atomic_store_n(&is_due, true, __ATOMIC_RELAXED);
        return real.dlopen(file, mode);
    }
    void *object = real.dlopen(file, mode);
    int code = errno;
    __atomic_store_n(&is_due, true, __ATOMIC_RELAXED);
    slots_renew();
    errno = code;
    return object;
}

static void find_calls(void)
{
#define ADD(name) add_call(#name, (uintptr_t)name)
    call_count = 0;
    ADD(malloc);
    ADD(free);
    ADD(calloc);
    ADD(realloc);
    ADD(reallocarray);
    ADD(memalign);
    ADD(aligned_alloc);
    ADD(posix_memalign);
    ADD(valloc);
    ADD(pvalloc);
    ADD(dlclose);
    ADD(_exit);
    ADD(_Exit);
    ADD(execve);
    ADD(execv);
    ADD(execvp);
    ADD(execvpe);
    ADD(fexecve);
    ADD(execveat);
    ADD(execl);
    ADD(execlp);
    ADD(execle);
    add_call("dlopen", (uintptr_t)open_object);
#undef ADD
}

static const struct call *find_call(const char *name)
{
    for (size_t k = 0; k < call_count; k++) {
        if (strcmp(calls[k].name, name) == 0) {
            return &calls[k];
        }
    }
    return NULL;
}

/* ---- an object */

static struct object object_of(const struct dl_phdr_info *info)
{
    struct object object = {.info = info, .from = UINTPTR_MAX};
    for (int k = 0; k < info->dlpi_phnum; k++) {
        const ElfW(Phdr) *part = &info->dlpi_phdr[k];
        uintptr_t from = info->dlpi_addr + part->p_vaddr, to = from + part->p_memsz;
        if (part->p_type == PT_LOAD) {
            object.from = from < object.from ? from : object.from;
            object.to = to > object.to ? to : object.to;
        } else if (part->p_type == PT_GNU_RELRO) {
            object.relro_from = from / PAGE * PAGE;
            object.relro_to = to / PAGE * PAGE;
        }
    }
    object.symbols = (const ElfW(Sym) *)dynamic_entry(info, DT_SYMTAB, true);
    object.strings = (const char *)dynamic_entry(info, DT_STRTAB, true);
    return object;
}

/* Whether the page of an address can be written to, by the kernel's list. */
static bool is_writable(uintptr_t address)
{
    static struct reader reader;
    bool found = false, is_written = false;
    reader.at = reader.end = 0;
    reader.file = (int)syscall(SYS_openat, AT_FDCWD, "/proc/self/maps", O_RDONLY | O_CLOEXEC);
    while (!found && reader.file >= 0 && next_line(&reader)) {
        char *at;
        uintptr_t from = strtoul(reader.line, &at, 16),
                  to = *at == '-' ? strtoul(at + 1, &at, 16) : 0;
        found = from <= address && address < to;
        is_written = found && at[0] == ' ' && at[2] == 'w';
    }
    if (reader.file >= 0) {
        syscall(SYS_close, reader.file);
    }
    return is_written;
}

/* Writes an address into a slot. Where the linker has made it read-only it is so again behind
 * that. */
static void write_slot(const struct object *object, uintptr_t *slot, uintptr_t address)
{
    uintptr_t place = (uintptr_t)slot;
    if (place < object->relro_from || place >= object->relro_to) {
        __atomic_store_n(slot, address, __ATOMIC_RELEASE);
        return;
    }
    void *page = (void *)(place / PAGE * PAGE);
    if (is_writable(place) || mprotect(page, PAGE, PROT_READ | PROT_WRITE) != 0) {
        is_waiting = true;
        return;
    }
    __atomic_store_n(slot, address, __ATOMIC_RELEASE);
    mprotect(page, PAGE, PROT_READ);
}

/* Whether a slot leads to the dynamic linker, which looks the call up when it comes first: then it
 * has an address of its own object. */
static bool is_lazy(const struct object *object, const ElfW(Rela) * entry, const ElfW(Sym) * symbol,
                    uintptr_t address)
{
    return ELF64_R_TYPE(entry->r_info) == SLOT && symbol->st_shndx == SHN_UNDEF
           && object->from <= address && address < object->to;
}

/* Looks at an entry of an object's relocations. */
static void look_at_entry(const struct object *object, const ElfW(Rela) * entry)
{
    uint64_t type = ELF64_R_TYPE(entry->r_info), number = ELF64_R_SYM(entry->r_info);
    if (number == 0 || (type != SLOT && type != DATA && (type != WORD || entry->r_addend != 0))) {
        return;
    }
    const ElfW(Sym) *symbol = &object->symbols[number];
    const struct call *call = find_call(object->strings + symbol->st_name);
    if (call == NULL) {
        return;
    }
    uintptr_t *slot = (uintptr_t *)(object->info->dlpi_addr + entry->r_offset);
    uintptr_t address = __atomic_load_n(slot, __ATOMIC_RELAXED);
    if (is_on && (address == call->theirs || is_lazy(object, entry, symbol, address))) {
        write_slot(object, slot, call->ours);
    } else if (!is_on && address == call->ours) {
        write_slot(object, slot, call->theirs);
    }
}

static void look_at_table(const struct object *object, long table, long bytes)
{
    const ElfW(Rela) *entry = (const ElfW(Rela) *)dynamic_entry(object->info, table, true);
    size_t count = entry == NULL ? 0 : dynamic_entry(object->info, bytes, false) / sizeof *entry;
    for (size_t k = 0; k < count; k++) {
        look_at_entry(object, &entry[k]);
    }
}

/* Looks at an object's slots, but for those of the tracer itself. */
static int look_at_object(struct dl_phdr_info *info, size_t size, void *unused)
{
    struct object object = object_of(info);
    uintptr_t here = (uintptr_t)look_at_object;
    (void)size;
    (void)unused;
    seen = info->dlpi_adds;
    if (object.symbols != NULL && object.strings != NULL
        && (here < object.from || here >= object.to)) {
        look_at_table(&object, DT_JMPREL, DT_PLTRELSZ);
        look_at_table(&object, DT_RELA, DT_RELASZ);
    }
    return 0;
}

/* ---- all objects */

/* Looks at all slots. With the lock held. */
static void look_at_objects(void)
{
    is_waiting = false;
    dl_iterate_phdr(look_at_object, NULL);
}

/* A caller's address, and whether its object tells where its libraries are. */
struct search {
    uintptr_t address;
    bool tells;
};

static int look_for_caller(struct dl_phdr_info *info, size_t size, void *data)
{
    struct search *search = data;
    struct object object = object_of(info);
    bool found = object.from <= search->address && search->address < object.to;
    (void)size;
    search->tells = found
                    && (dynamic_entry(info, DT_RPATH, false) != 0
                        || dynamic_entry(info, DT_RUNPATH, false) != 0);
    return found;
}

static bool depends_on_caller(const char *file, void *caller)
{
    struct search search = {(uintptr_t)caller, false};
    dl_iterate_phdr(look_for_caller, &search);
    return search.tells || strchr(file, '$') != NULL;
}

static int look_at_count(struct dl_phdr_info *info, size_t size, void *data)
{
    unsigned long long *adds = data;
    (void)size;
    *adds = info->dlpi_adds;
    return 1;
}

void slots_turn(bool on)
{
    pthread_mutex_lock(&lock);
    find_calls();
    is_on = on;
    is_due = false;
    tries = 0;
    look_at_objects();
    pthread_mutex_unlock(&lock);
}

void slots_renew(void)
{
    unsigned long long adds = 0;
    bool due = __atomic_exchange_n(&is_due, false, __ATOMIC_RELAXED);
    if (pthread_mutex_trylock(&lock) != 0) {
        is_due = due;
        return;
    }
    dl_iterate_phdr(look_at_count, &adds);
    if (is_on && (due || adds != seen || (is_waiting && tries++ < TRIES))) {
        look_at_objects();
    }
    pthread_mutex_unlock(&lock);
}

void slots_pass(void)
{
    if (__atomic_load_n(&is_due, __ATOMIC_RELAXED)
        || __atomic_add_fetch(&passed, 1, __ATOMIC_RELAXED) % LOOK_EACH == 0) {
        slots_renew();
    }
}

void slots_in_child(void)
{
    pthread_mutex_t fresh = PTHREAD_MUTEX_INITIALIZER;
    lock = fresh;
}
