/* What a careful C programmer writes in an afternoon: the report of leaks of a log of mtrace(3), by
 * a parser and a hash table. No heap, no diagnostics: a line that is none of the forms is passed
 * over. tests/benchmark measures it beside `tlsf leaks`, and compares the reports. It isn't proved.
 * An entry has its location in it, or where NUMBERED is defined, the number of that: each location
 * is then kept once, for less memory. */
#include <stdbool.h>
#include <stdint.h>
#include <stdio.h>
#include <stdlib.h>
#include <string.h>

/* What is held at an address. */
struct entry {
    uint64_t address;
    uint64_t size;
    uint64_t line;
    uint32_t next_free;
#ifdef NUMBERED
    uint32_t location;
#else
    uint16_t length;
    char location[256];
#endif
};

/* Places of entries by the hash of their address, 0 for none, with linear probing; and entries from
 * 1 on, those linked that are held no more. */
static uint32_t *places;
static size_t mask;
static struct entry *entries;
static uint32_t used, room, first_free, held;

static void *grown(void *old, size_t bytes)
{
    void *more = realloc(old, bytes);
    if (!more)
        exit(4);
    return more;
}

static size_t home(uint64_t address)
{
    return (size_t)((address * 0x9E3779B97F4A7C15u) >> 20) & mask;
}

/* Where the address stands in the table, or the empty place that ends its search. */
static size_t find(uint64_t address)
{
    size_t at = home(address);
    while (places[at] && entries[places[at]].address != address)
        at = (at + 1) & mask;
    return at;
}

static void rehash(size_t count)
{
    uint32_t *old = places;
    size_t last = old ? mask + 1 : 0;
    places = grown(NULL, count * sizeof *places);
    memset(places, 0, count * sizeof *places);
    mask = count - 1;
    for (size_t at = 0; at < last; at++)
        if (old[at])
            places[find(entries[old[at]].address)] = old[at];
    free(old);
}

#ifdef NUMBERED
/* The locations by number, of which 0 is that of no bytes, and places of numbers by the hash of the
 * bytes, 0 for none. */
struct location {
    uint16_t length;
    char bytes[];
};
static struct location **locations;
static uint32_t *numbers;
static uint32_t known;
static size_t numbers_mask;

static size_t hash_of(const char *bytes, size_t length)
{
    uint64_t sum = length;
    for (; length >= 8; bytes += 8, length -= 8) {
        uint64_t next;
        memcpy(&next, bytes, 8);
        sum = (sum ^ next) * 0x9E3779B97F4A7C15u;
        sum ^= sum >> 32;
    }
    for (; length; length--)
        sum = (sum ^ (unsigned char)*bytes++) * 0x9E3779B97F4A7C15u;
    return (size_t)(sum >> 20);
}

/* The place of the number of these bytes, or the empty place that ends its search. */
static size_t find_number(const char *bytes, size_t length)
{
    size_t at = hash_of(bytes, length) & numbers_mask;
    while (numbers[at]
           && (locations[numbers[at]]->length != length
               || memcmp(locations[numbers[at]]->bytes, bytes, length)))
        at = (at + 1) & numbers_mask;
    return at;
}

/* Twice as many places, and room for half as many locations. */
static void more_numbers(void)
{
    numbers_mask = numbers_mask ? 2 * numbers_mask + 1 : 1023;
    free(numbers);
    numbers = grown(NULL, (numbers_mask + 1) * sizeof *numbers);
    memset(numbers, 0, (numbers_mask + 1) * sizeof *numbers);
    locations = grown(locations, (numbers_mask / 2 + 2) * sizeof *locations);
    for (uint32_t number = 1; number <= known; number++)
        numbers[find_number(locations[number]->bytes, locations[number]->length)] = number;
}

static void keep(struct entry *entry, const char *bytes, size_t length)
{
    entry->location = 0;
    if (!length)
        return;
    if (2 * (size_t)known >= numbers_mask)
        more_numbers();
    size_t at = find_number(bytes, length);
    if (!numbers[at]) {
        numbers[at] = ++known;
        locations[known] = grown(NULL, sizeof **locations + length);
        locations[known]->length = (uint16_t)length;
        memcpy(locations[known]->bytes, bytes, length);
    }
    entry->location = numbers[at];
}

static int length_of(const struct entry *entry)
{
    return entry->location ? locations[entry->location]->length : 0;
}
static const char *location_of(const struct entry *entry)
{
    return entry->location ? locations[entry->location]->bytes : "";
}
#else
static void keep(struct entry *entry, const char *bytes, size_t length)
{
    entry->length = (uint16_t)length;
    memcpy(entry->location, bytes, length);
}

static int length_of(const struct entry *entry) { return entry->length; }
static const char *location_of(const struct entry *entry) { return entry->location; }
#endif

static struct entry *hold(uint64_t address)
{
    if (2 * (size_t)held > mask)
        rehash(2 * (mask + 1));
    size_t at = find(address);
    if (places[at])
        return NULL;
    uint32_t place = first_free;
    if (place) {
        first_free = entries[place].next_free;
    } else {
        if (used + 1 >= room)
            entries = grown(entries, (room *= 2) * sizeof *entries);
        place = ++used;
    }
    places[at] = place;
    entries[place].address = address;
    held++;
    return &entries[place];
}

static void drop(uint64_t address)
{
    size_t at = find(address);
    if (!places[at])
        return;
    entries[places[at]].next_free = first_free;
    entries[places[at]].address = 0;
    first_free = places[at];
    held--;
    for (size_t next = (at + 1) & mask; places[next]; next = (next + 1) & mask) {
        size_t wanted = home(entries[places[next]].address);
        if (((next - wanted) & mask) >= ((next - at) & mask)) {
            places[at] = places[next];
            at = next;
        }
    }
    places[at] = 0;
}

/* One more than the digit that a byte writes, and 0 for any other byte. */
static const signed char digit[256] = {
    ['0'] = 1, ['1'] = 2,  ['2'] = 3,  ['3'] = 4,  ['4'] = 5,  ['5'] = 6,  ['6'] = 7,  ['7'] = 8,
    ['8'] = 9, ['9'] = 10, ['a'] = 11, ['b'] = 12, ['c'] = 13, ['d'] = 14, ['e'] = 15, ['f'] = 16,
};

/* Reads a number, `0x` and digits, or `0`; false where there is none. */
static bool number(const char **text, uint64_t *value)
{
    const char *at = *text;
    *value = 0;
    if (*at++ != '0')
        return false;
    if (*at == 'x')
        for (at++; digit[(unsigned char)*at]; at++)
            *value = *value * 16 + (uint64_t)(digit[(unsigned char)*at] - 1);
    *text = at;
    return true;
}

/* One line, which ends with a newline. */
static void read_line(const char *at, uint64_t line)
{
    const char *location = at;
    size_t length = 0;
    uint64_t address, size = 0;
    if (at[0] == '@' && at[1] == ' ') {
        const char *end = location = at + 2;
        while (*end != ' ' && *end != '\n')
            end++;
        length = (size_t)(end - location);
        if (*end != ' ' || length > 255)
            return;
        at = end + 1;
    }
    char mark = *at++;
    if (mark == '\n' || *at++ != ' ' || !number(&at, &address))
        return;
    if (mark == '-' || mark == '<') {
        drop(address);
    } else if ((mark == '+' || mark == '>') && *at++ == ' ' && number(&at, &size)) {
        struct entry *entry = hold(address);
        if (entry) {
            entry->size = size;
            entry->line = line;
            keep(entry, location, length);
        }
    }
}

static int by_address(const void *one, const void *other)
{
    uint64_t a = (*(struct entry *const *)one)->address,
             b = (*(struct entry *const *)other)->address;
    return (a > b) - (a < b);
}
static void report(void)
{
    uint64_t sum = 0;
    size_t count = 0;
    struct entry **all = grown(NULL, (held + 1) * sizeof *all);
    for (uint32_t place = 1; place <= used; place++)
        if (entries[place].address)
            all[count++] = &entries[place];
    qsort(all, count, sizeof *all, by_address);
    puts(count ? "Memory not freed:" : "No memory leaks.");
    for (size_t k = 0; k < count; k++) {
        sum += all[k]->size;
        printf("0x%llx %llu line %llu%s%.*s\n", (unsigned long long)all[k]->address,
               (unsigned long long)all[k]->size, (unsigned long long)all[k]->line,
               length_of(all[k]) ? " at " : "", length_of(all[k]), location_of(all[k]));
    }
    if (count)
        printf("Total: %zu blocks, %llu bytes.\n", count, (unsigned long long)sum);
}

int main(int words, char **word)
{
    static char buffer[1 << 16];
    size_t kept = 0, got;
    uint64_t line = 0;
    FILE *log = words == 2 ? fopen(word[1], "r") : NULL;
    if (!log)
        return 2;
    entries = grown(NULL, (room = 1024) * sizeof *entries);
    rehash(1024);
    while ((got = fread(buffer + kept, 1, sizeof buffer - 1 - kept, log)) > 0) {
        char *at = buffer, *end = buffer + kept + got, *newline;
        while ((newline = memchr(at, '\n', (size_t)(end - at)))) {
            read_line(at, ++line);
            at = newline + 1;
        }
        kept = (size_t)(end - at);
        memmove(buffer, at, kept);
    }
    buffer[kept] = '\n';
    if (kept)
        read_line(buffer, ++line);
    report();
    return held ? 1 : 0;
}
