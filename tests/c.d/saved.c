/* Writes the image of a heap of two pools with live blocks and free ones to standard output, by
 * tlsf_save. With the word `spoiled` its last byte is another: that of a link of the last record,
 * which a block has. So the link is none of a record. With the word `dump` it writes the memory in
 * which the heap lies. Built with -DBOARD it writes the three to the board's console, each as a
 * line in hex. */
#include <stdbool.h>
#include <stdio.h>
#include <string.h>

#include "tlsf.h"

enum { RECORDS = 40, BYTES = 4096, HEAD = 280 };
static _Alignas(16) unsigned char memory[BYTES], image[BYTES], more[512];

/* How long the image is, or 0. Two blocks of 200 bytes were in one list, and one of them is live
 * again. */
static size_t save(void)
{
    tlsf_t heap = tlsf_create_records(memory, sizeof memory, RECORDS);
    void *one = tlsf_malloc(heap, 100), *two = tlsf_malloc(heap, 200),
         *three = tlsf_malloc(heap, 20);
    void *four = tlsf_malloc(heap, 200), *five = tlsf_malloc(heap, 300);
    pool_t other = tlsf_add_pool(heap, more, sizeof more);
    tlsf_free(heap, two);
    tlsf_free(heap, four);
    four = tlsf_malloc(heap, 200);
    size_t length = tlsf_save(heap, image, sizeof image);
    bool good = one != NULL && three != NULL && four != NULL && five != NULL && other != NULL;
    return good && length > HEAD ? length : 0;
}

static void spoil(size_t length) { image[length - 1] ^= 1; }

#ifdef BOARD
#include "console.h"

static void write_out(const unsigned char *bytes, size_t length)
{
    for (size_t k = 0; k < length; k++) {
        console_put("0123456789abcdef"[bytes[k] >> 4]);
        console_put("0123456789abcdef"[bytes[k] & 15]);
    }
    console_put('\n');
}

int main(void)
{
    size_t length = save();
    if (length == 0) {
        return 1;
    }
    write_out(image, length);
    spoil(length);
    write_out(image, length);
    write_out(memory, sizeof memory);
    return 0;
}
#else
int main(int count, char **words)
{
    size_t length = save();
    if (length == 0) {
        return 1;
    }
    if (count > 1 && strcmp(words[1], "spoiled") == 0) {
        spoil(length);
    }
    if (count > 1 && strcmp(words[1], "dump") == 0) {
        return fwrite(memory, 1, sizeof memory, stdout) != sizeof memory;
    }
    return fwrite(image, 1, length, stdout) != length;
}
#endif
