/* module.c: the program or library that an address is in, and its code of known functions.
 *
 * Modules are found by dl_iterate_phdr, since dladdr waits for a dlopen of another thread.
 */
#define _GNU_SOURCE
#include "trace.h"

#include <fcntl.h>
#include <link.h>
#include <pthread.h>
#include <stdlib.h>
#include <string.h>
#include <sys/syscall.h>
#include <unistd.h>

/* The functions whose frames aren't told. */
static const struct {
    const char *name;
    enum kind kind;
} known[] = {
    {"_Znwm", OPERATOR},
    {"_Znam", OPERATOR},
    {"_ZnwmRKSt9nothrow_t", OPERATOR},
    {"_ZnamRKSt9nothrow_t", OPERATOR},
    {"_ZnwmSt11align_val_t", OPERATOR},
    {"_ZnamSt11align_val_t", OPERATOR},
    {"_ZnwmSt11align_val_tRKSt9nothrow_t", OPERATOR},
    {"_ZnamSt11align_val_tRKSt9nothrow_t", OPERATOR},
    {"_ZdlPv", OPERATOR},
    {"_ZdaPv", OPERATOR},
    {"_ZdlPvm", OPERATOR},
    {"_ZdaPvm", OPERATOR},
    {"_ZdlPvRKSt9nothrow_t", OPERATOR},
    {"_ZdaPvRKSt9nothrow_t", OPERATOR},
    {"_ZdlPvSt11align_val_t", OPERATOR},
    {"_ZdaPvSt11align_val_t", OPERATOR},
    {"_ZdlPvmSt11align_val_t", OPERATOR},
    {"_ZdaPvmSt11align_val_t", OPERATOR},
    {"__libc_start_main", START},
};
_Static_assert(sizeof known / sizeof *known == KNOWN, "each known function has a range");

/* The table of modules, and the text of their paths. The first module is that of code without a
 * file. Where either is full, further modules are that one. */
enum { TEXT_MOST = 1 << 19, ENCODED_MOST = 3 * PATH_MOST };
static struct module modules[MODULES_MOST];
static unsigned module_count = 1;
static char texts[TEXT_MOST];
static size_t text_used;
static char program[PATH_MOST];
static pthread_mutex_t lock = PTHREAD_MUTEX_INITIALIZER;

/* The text of a byte of a path: the number of its bytes. */
static unsigned encode(char *to, unsigned char byte)
{
    static const char digits[] = "0123456789ABCDEF";
    if (byte > ' ' && byte != 0x7F && byte != '%' && byte != '<') {
        to[0] = (char)byte;
        return 1;
    }
    to[0] = '%';
    to[1] = digits[byte >> 4];
    to[2] = digits[byte & 15];
    return 3;
}

/* A path as text: its length. */
static size_t put_path(char *to, const char *path)
{
    size_t length = 0;
    for (const char *from = path; *from != 0 && length + 3 <= ENCODED_MOST; from++) {
        length += encode(to + length, (unsigned char)*from);
    }
    return length;
}

bool next_line(struct reader *reader)
{
    size_t length = 0;
    for (;;) {
        if (reader->at == reader->end) {
            reader->at = 0;
            reader->end = syscall(SYS_read, reader->file, reader->piece, sizeof reader->piece);
            if (reader->end <= 0) {
                return false;
            }
        }
        char byte = reader->piece[reader->at++];
        if (byte == '\n') {
            reader->line[length] = 0;
            return true;
        }
        if (length + 1 < sizeof reader->line) {
            reader->line[length++] = byte;
        }
    }
}

/* The whole path of the file that is mapped at an address, as the kernel tells it, or null. Each
 * line of the kernel's list begins with an address. With the lock held. */
static const char *mapped_path(uintptr_t address)
{
    static struct reader reader;
    const char *path = NULL;
    reader.at = reader.end = 0;
    reader.file = (int)syscall(SYS_openat, AT_FDCWD, "/proc/self/maps", O_RDONLY | O_CLOEXEC);
    while (path == NULL && reader.file >= 0 && next_line(&reader)) {
        path = strtoul(reader.line, NULL, 16) == address ? strchr(reader.line, '/') : NULL;
    }
    if (reader.file >= 0) {
        syscall(SYS_close, reader.file);
    }
    return path;
}

struct names {
    const ElfW(Sym) * symbols;
    const char *strings;
    const uint32_t *hash;
};

/* What an entry of a dynamic section points to. In some modules it isn't relocated. */
static uintptr_t address_of(const struct dl_phdr_info *info, const ElfW(Dyn) * entry)
{
    uintptr_t address = entry->d_un.d_ptr;
    return address < info->dlpi_addr ? info->dlpi_addr + address : address;
}

uintptr_t dynamic_entry(const struct dl_phdr_info *info, long tag, bool is_address)
{
    const ElfW(Dyn) *entry = NULL;
    for (int k = 0; k < info->dlpi_phnum; k++) {
        if (info->dlpi_phdr[k].p_type == PT_DYNAMIC) {
            entry = (const ElfW(Dyn) *)(info->dlpi_addr + info->dlpi_phdr[k].p_vaddr);
        }
    }
    while (entry != NULL && entry->d_tag != DT_NULL && entry->d_tag != tag) {
        entry++;
    }
    if (entry == NULL || entry->d_tag != tag) {
        return 0;
    }
    return is_address ? address_of(info, entry) : entry->d_un.d_val;
}

static struct names names_of(const struct dl_phdr_info *info)
{
    struct names names = {
        (const ElfW(Sym) *)dynamic_entry(info, DT_SYMTAB, true),
        (const char *)dynamic_entry(info, DT_STRTAB, true),
        (const uint32_t *)dynamic_entry(info, DT_GNU_HASH, true),
    };
    return names;
}

/* The symbol of a name, or null. The table has four numbers, a filter, the first symbol of each
 * bucket, and the hashes of the symbols from the lowest in a bucket on. */
static const ElfW(Sym) * find_symbol(const struct names *names, const char *name)
{
    uint32_t hash = 5381;
    for (const char *from = name; *from != 0; from++) {
        hash = hash * 33 + (unsigned char)*from;
    }
    uint32_t buckets = names->hash[0], lowest = names->hash[1], filter = names->hash[2];
    const uint32_t *first = names->hash + 4 + filter * (sizeof(ElfW(Addr)) / 4);
    uint32_t symbol = buckets == 0 ? 0 : first[hash % buckets];
    bool last = symbol < lowest;
    for (; !last; symbol++) {
        uint32_t found = first[buckets + (symbol - lowest)];
        const ElfW(Sym) *entry = &names->symbols[symbol];
        if ((found | 1) == (hash | 1) && strcmp(names->strings + entry->st_name, name) == 0) {
            return entry;
        }
        last = found & 1;
    }
    return NULL;
}

static void find_known(struct module *module, const struct dl_phdr_info *info)
{
    struct names names = names_of(info);
    if (names.hash == NULL || names.symbols == NULL || names.strings == NULL) {
        return;
    }
    for (size_t k = 0; k < KNOWN; k++) {
        const ElfW(Sym) *symbol = find_symbol(&names, known[k].name);
        if (symbol != NULL && symbol->st_shndx != SHN_UNDEF) {
            uintptr_t start = info->dlpi_addr + symbol->st_value;
            struct range code = {start, start + symbol->st_size, known[k].kind};
            module->range[module->ranges++] = code;
        }
    }
}

/* Takes the build id of a part with notes: each has the lengths of its name and of what it tells, a
 * kind, and both of these, at multiples of four bytes. */
static void read_notes(struct module *module, const char *at, size_t left)
{
    ElfW(Nhdr) note;
    while (left >= sizeof note) {
        memcpy(&note, at, sizeof note);
        size_t name = (note.n_namesz + 3u) & ~3u, told = (note.n_descsz + 3u) & ~3u;
        if (left - sizeof note < name + told) {
            return;
        }
        const char *text = at + sizeof note;
        if (note.n_type == NT_GNU_BUILD_ID && note.n_namesz == 4 && memcmp(text, "GNU", 4) == 0
            && note.n_descsz <= BUILD_ID_MOST) {
            memcpy(module->build_id, text + name, note.n_descsz);
            module->build_id_length = note.n_descsz;
        }
        at += sizeof note + name + told;
        left -= sizeof note + name + told;
    }
}

static void find_build_id(struct module *module, const struct dl_phdr_info *info)
{
    for (int k = 0; k < info->dlpi_phnum; k++) {
        const ElfW(Phdr) *part = &info->dlpi_phdr[k];
        if (part->p_type == PT_NOTE) {
            read_notes(module, (const char *)(info->dlpi_addr + part->p_vaddr), part->p_memsz);
        }
    }
}

/* What is asked for the first object that defines a name, and its address there. */
struct definition {
    const char *name;
    uintptr_t address;
};

static int look_for_definition(struct dl_phdr_info *info, size_t size, void *data)
{
    struct definition *wanted = data;
    struct names names = names_of(info);
    (void)size;
    if (names.hash == NULL || names.symbols == NULL || names.strings == NULL) {
        return 0;
    }
    const ElfW(Sym) *symbol = find_symbol(&names, wanted->name);
    if (symbol != NULL && symbol->st_shndx != SHN_UNDEF) {
        wanted->address = info->dlpi_addr + symbol->st_value;
    }
    return wanted->address != 0;
}

uintptr_t first_definition(const char *name)
{
    struct definition wanted = {name, 0};
    dl_iterate_phdr(look_for_definition, &wanted);
    return wanted.address;
}

/* The path of a module: the whole one, where it was loaded by a part of it. With the lock held. */
static const char *path_of(const struct dl_phdr_info *info, uintptr_t base)
{
    const char *name = info->dlpi_name[0] == 0 ? program : info->dlpi_name;
    const char *whole = name[0] != '/' && strchr(name, '/') != NULL ? mapped_path(base) : NULL;
    return whole == NULL ? name : whole;
}

/* The number of a module, which gets one where it is new, and 0 where there is no room. With the
 * lock held. */
static unsigned number_of(const struct dl_phdr_info *info, uintptr_t base)
{
    static char text[ENCODED_MOST];
    size_t length = put_path(text, path_of(info, base));
    for (unsigned k = 1; k < module_count; k++) {
        const struct module *other = &modules[k];
        if (other->base == base && other->length == length
            && memcmp(other->text, text, length) == 0) {
            return k;
        }
    }
    if (module_count == MODULES_MOST || length > TEXT_MOST - text_used) {
        return 0;
    }
    struct module *module = &modules[module_count];
    module->base = base;
    module->text = memcpy(texts + text_used, text, length);
    module->length = length;
    text_used += length;
    find_build_id(module, info);
    find_known(module, info);
    return module_count++;
}

/* What is asked of dl_iterate_phdr, and what it finds. */
struct search {
    uintptr_t address;
    unsigned module;
};

static int look_at_module(struct dl_phdr_info *info, size_t size, void *data)
{
    struct search *search = data;
    uintptr_t lowest = UINTPTR_MAX;
    bool found = false;
    (void)size;
    for (int k = 0; k < info->dlpi_phnum; k++) {
        const ElfW(Phdr) *part = &info->dlpi_phdr[k];
        uintptr_t start = info->dlpi_addr + part->p_vaddr;
        if (part->p_type == PT_LOAD) {
            lowest = start < lowest ? start : lowest;
            found |= start <= search->address && search->address - start < part->p_memsz;
        }
    }
    if (found) {
        pthread_mutex_lock(&lock);
        search->module = number_of(info, lowest & ~(uintptr_t)4095);
        pthread_mutex_unlock(&lock);
    }
    return found;
}

unsigned find_module(uintptr_t address)
{
    struct search search = {address, 0};
    dl_iterate_phdr(look_at_module, &search);
    return search.module;
}

const struct module *module_at(unsigned number) { return &modules[number]; }

enum kind kind_of(const struct module *module, uintptr_t address)
{
    enum kind kind = PROGRAM;
    for (unsigned k = 0; k < module->ranges; k++) {
        const struct range *code = &module->range[k];
        kind = code->after < address && address <= code->last ? code->kind : kind;
    }
    return kind;
}

/* Where there is no /proc the program is told as it was started. */
static void read_program(void)
{
    ssize_t length = readlink("/proc/self/exe", program, sizeof program - 1);
    program[length < 0 ? 0 : length] = 0;
    unsigned long started = getauxval(AT_EXECFN);
    if (length < 0 && started != 0) {
        const char *name;
        memcpy(&name, &started, sizeof name);
        strncat(program, name, sizeof program - 1);
    }
}

void module_begin(void)
{
    read_program();
    modules[0].text = "?";
    modules[0].length = 1;
}

void module_in_child(void)
{
    pthread_mutex_t fresh = PTHREAD_MUTEX_INITIALIZER;
    lock = fresh;
}
