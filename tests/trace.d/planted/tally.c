// A library that Python loads: what it hands out is never given back.
#include <stdlib.h>
#include <string.h>

struct tally {
    long counts[12];
    char *name;
};

static void name_it(struct tally *tally, const char *name)
{
    tally->name = strdup(name); // planted 18 in 3: name_it
}

struct tally *tally_open(const char *name)
{
    struct tally *tally = calloc(1, sizeof *tally); // planted 312 in 3: tally_open
    if (tally != NULL)
        name_it(tally, name);
    return tally;
}

long tally_add(struct tally *tally, int (*number)(int))
{
    char *scratch = malloc(55); // planted 55 in 1: tally_add
    if (scratch == NULL)
        return -1;
    memset(scratch, 0, 55);
    tally->counts[0] += number(scratch[7]);
    return tally->counts[0];
}
