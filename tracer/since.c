/* since.c: the blocks that are held since a running program is traced: a set of addresses. What
 * isn't in it is from before: to free it is counted, and is no line of the log. All calls have the
 * lock of the log held. Memory is taken as for the search of held.c, which passes over it.
 */
#include "trace.h"

enum { FIRST_PLACES = 1 << 14 };

/* Each address stands at its place, or in one of those behind it up to an empty one. */
static uintptr_t *table;
static size_t places, count, before;
static bool is_on;

bool since_is_on(void) { return is_on; }

size_t since_before(void) { return before; }

static size_t place_of(uintptr_t address) { return (size_t)mix(address) & (places - 1); }

/* The place of an address, or the empty one where it would stand. */
static size_t find_place(uintptr_t address)
{
    size_t place = place_of(address);
    while (table[place] != 0 && table[place] != address) {
        place = (place + 1) & (places - 1);
    }
    return place;
}

static bool grow(void)
{
    uintptr_t *old = table, *fresh = take_pages(2 * places * sizeof *table);
    size_t had = places;
    if (fresh == NULL) {
        return false;
    }
    table = fresh;
    places = 2 * had;
    for (size_t k = 0; k < had; k++) {
        if (old[k] != 0) {
            table[find_place(old[k])] = old[k];
        }
    }
    give_pages(old);
    return true;
}

/* Empties a place: the addresses behind it move up to where they are looked for. */
static void empty(size_t hole)
{
    size_t last = places - 1;
    for (size_t at = (hole + 1) & last; table[at] != 0; at = (at + 1) & last) {
        if (((at - place_of(table[at])) & last) >= ((at - hole) & last)) {
            table[hole] = table[at];
            hole = at;
        }
    }
    table[hole] = 0;
    count--;
}

bool since_begin(void)
{
    since_end();
    table = take_pages(FIRST_PLACES * sizeof *table);
    places = table == NULL ? 0 : FIRST_PLACES;
    before = 0;
    is_on = table != NULL;
    return is_on;
}

void since_end(void)
{
    give_pages(table);
    table = NULL;
    places = count = 0;
    is_on = false;
}

enum since since_add(uintptr_t address)
{
    if (2 * count >= places && !grow()) {
        return NO_MEMORY;
    }
    size_t place = find_place(address);
    if (table[place] != 0) {
        return HELD;
    }
    table[place] = address;
    count++;
    return ADDED;
}

bool since_has(uintptr_t address) { return table[find_place(address)] != 0; }

bool since_take(uintptr_t address)
{
    size_t place = find_place(address);
    bool is_held = table[place] != 0;
    if (is_held) {
        empty(place);
    } else {
        before++;
    }
    return is_held;
}
