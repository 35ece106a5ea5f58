/* settings.c: what the environment tells libtlsf_malloc.so, and lines for standard error. */
#include "heaps.h"

#include <stdarg.h>
#include <stdio.h>
#include <string.h>
#include <unistd.h>

enum { POOL = 1 << 29, PARTS_MOST = 256, LARGEST = 1056964600 };

struct settings settings;

/* A stream of the C library would ask for memory. */
void say(int to, const char *format, ...)
{
    char line[200] = "libtlsf_malloc: ";
    size_t length = strlen(line);
    va_list values;
    va_start(values, format);
    length += (size_t)vsnprintf(line + length, sizeof line - length, format, values);
    va_end(values);
    (void)!write(to, line, length);
}

/* The number that a variable of the environment is, in digits, from 1 to most; else the default. */
static size_t setting(const char *name, unsigned most, unsigned usual)
{
    const char *text = getenv(name);
    size_t digits = text == NULL ? 0 : strspn(text, "0123456789");
    size_t number = digits > 0 && digits <= 18 && text[digits] == 0 ? strtoul(text, NULL, 10) : 0;
    bool good = number >= 1 && number <= most;
    if (text != NULL && !good) {
        say(STDERR_FILENO, "%s is no number from 1 to %u: it is taken as %u\n", name, most, usual);
    }
    return good ? number : usual;
}

/* The number below 2^32 that the text begins with. The text is then what is behind it. */
static bool take_number(const char **text, uint32_t *number)
{
    size_t digits = strspn(*text, "0123456789");
    uint64_t told = digits <= 10 ? strtoul(*text, NULL, 10) : UINT64_MAX;
    *number = (uint32_t)told;
    *text += digits;
    return digits >= 1 && told <= UINT32_MAX;
}

/* The ranges that a text as 64:2130,2048:41 tells, and how many there are: none for another
 * text. */
static uint32_t take_ranges(const char *text, struct range *told)
{
    uint32_t count = 0;
    bool good = true;
    do {
        good = count < TLSF_PARTS_MOST && take_number(&text, &told[count].largest) && *text++ == ':'
               && take_number(&text, &told[count].blocks);
        count++;
    } while (good && *text++ == ',');
    return good && text[-1] == 0 ? count : 0;
}

uint32_t most_blocks_of_part(uint32_t largest)
{
    uint64_t block = TLSF_CLASS_SIZE(TLSF_WITH_FRONT(largest));
    uint64_t most = TLSF_HEAP_GREATEST / block;
    return (uint32_t)(most < TLSF_HEAP_RECORDS_MOST ? most : TLSF_HEAP_RECORDS_MOST);
}

/* How many parts each range takes. Answers whether all can be made. */
static bool split_ranges(struct range *ranges, uint32_t count)
{
    uint64_t parts = 0;
    for (uint32_t k = 0; k < count; k++) {
        uint32_t before = k == 0 ? 0 : ranges[k - 1].largest;
        if (ranges[k].largest <= before || ranges[k].largest > LARGEST || ranges[k].blocks == 0) {
            return false;
        }
        uint32_t most = most_blocks_of_part(ranges[k].largest);
        ranges[k].parts = ranges[k].blocks / most + (ranges[k].blocks % most != 0);
        parts += ranges[k].parts;
    }
    return parts <= PARTS_MOST;
}

void read_settings(void)
{
    const char *list = getenv("TLSF_PARTS");
    uint32_t count = list == NULL ? 0 : take_ranges(list, settings.ranges);
    settings.is_one_heap = getenv("TLSF_POOL") != NULL || getenv("TLSF_RECORDS") != NULL;
    settings.records =
        (uint32_t)setting("TLSF_RECORDS", TLSF_HEAP_RECORDS_MOST, TLSF_HEAP_RECORDS_MOST);
    settings.pool = (setting("TLSF_POOL", TLSF_HEAP_GREATEST, POOL) + UNIT - 1) / UNIT * UNIT;
    if (list != NULL && count == 0) {
        say(STDERR_FILENO, "TLSF_PARTS tells no parts, as 64:2130,2048:41: there are none\n");
    } else if (!split_ranges(settings.ranges, count)) {
        say(STDERR_FILENO,
            "TLSF_PARTS has to tell larger and larger parts of 1 to %d bytes, each of 1 block at "
            "least, "
            "in at most %d heaps: there are none\n",
            LARGEST, PARTS_MOST);
        count = 0;
    }
    settings.count = count;
}
