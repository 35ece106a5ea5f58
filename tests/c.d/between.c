/* What tests/c compares between targets: a million random calls over ten heaps. `between make FILE`
 * writes a line for each heap, with a number made of all that its calls and walks answered, and
 * puts an image of each into FILE. `between load FILE` makes the heaps of these images, and goes
 * on. A program for a board gets these two words as it is built, as MODE and IMAGES. */
#include <stdio.h>
#include <stdlib.h>
#include <string.h>

#include "tlsf_heap.h"

#ifndef CALLS
#define CALLS 100000
#endif
enum { HEAPS = 10, RECORDS = 700, BLOCKS = 300, IMAGE = TLSF_HEAP_IMAGE_BYTES(RECORDS) };

static unsigned char image[IMAGE];
static tlsf_heap_row rows[RECORDS];
static tlsf_heap_block blocks[BLOCKS];
static uint64_t state, seen;

static uint64_t below(uint64_t bound)
{
    state ^= state << 13;
    state ^= state >> 7;
    state ^= state << 17;
    return state % bound;
}

/* Puts a number into what was seen, so that another order gives another. */
static void see(uint64_t number)
{
    for (int k = 0; k < 8; k++) {
        seen = (seen ^ (number >> (8 * k) & 255)) * 0x100000001b3u;
    }
}

/* Sizes of all classes, most of them small; alignments and wrong words among them. */
static uint64_t some_bytes(void) { return below(8) == 0 ? below(1ull << below(32)) : below(2000); }

/* One word a statement, for a compiler may take a call's words in any order. */
static void call(tlsf_heap *heap)
{
    uint64_t kind = below(100), k = below(BLOCKS), bytes = some_bytes();
    uint64_t align = below(9) == 0 ? below(100) : 1ull << below(31), base = 16 * below(1ull << 28);
    enum tlsf_status status;
    uint32_t size = 0;
    if (kind < 30) {
        status = tlsf_heap_malloc(heap, bytes, &blocks[k]);
    } else if (kind < 40) {
        status = tlsf_heap_memalign(heap, align, bytes, &blocks[k]);
    } else if (kind < 75) {
        status = tlsf_heap_free(heap, blocks[k]);
    } else if (kind < 90) {
        status = tlsf_heap_realloc(heap, blocks[k], bytes, &blocks[k]);
    } else if (kind < 97) {
        status = tlsf_heap_block_size(heap, blocks[k], &size);
    } else if (kind < 99) {
        status = tlsf_heap_add_pool(heap, base, bytes / 16 * 16);
    } else {
        status = tlsf_heap_remove_pool(heap, base);
    }
    see(status);
    see((uint64_t)blocks[k].place << 16 | blocks[k].slot);
    see(size);
}

/* The rows of the pool at 0, and the heap's image. Gives the bytes of the image. */
static uint64_t see_all(tlsf_heap *heap)
{
    uint64_t count = 0, bytes = 0;
    see(tlsf_heap_walk(heap, 0, 0, rows, RECORDS, &count));
    for (uint64_t k = 0; k < count && k < RECORDS; k++) {
        see((uint64_t)rows[k].place << 32 | rows[k].size);
        see(rows[k].used);
    }
    see(tlsf_heap_check(heap));
    see(tlsf_heap_save(heap, image, sizeof image, &bytes));
    for (uint64_t k = 0; k < bytes; k++) {
        see(image[k]);
    }
    return bytes;
}

/* Calls on a heap from this seed on, with a walk and an image now and then. Gives the bytes of the
 * last image. */
static uint64_t run(tlsf_heap *heap, int number, uint64_t seed)
{
    state = seed * 0x9e3779b97f4a7c15u + 1;
    seen = 0xcbf29ce484222325u;
    for (int k = 0; k < CALLS; k++) {
        call(heap);
        if (k % 5000 == 0) {
            see_all(heap);
        }
    }
    uint64_t bytes = see_all(heap);
    printf("heap %d: %016llx\n", number, (unsigned long long)seen);
    return bytes;
}

static int make(FILE *file)
{
    for (int number = 1; number <= HEAPS; number++) {
        tlsf_heap heap = {0};
        memset(blocks, 0, sizeof blocks);
        if (tlsf_heap_create(RECORDS, &heap) != TLSF_OK
            || tlsf_heap_add_pool(&heap, 0, 1u << (15 + number)) != TLSF_OK) {
            return 1;
        }
        uint64_t bytes = run(&heap, number, (uint64_t)number);
        tlsf_heap_destroy(&heap);
        if (bytes != IMAGE || fwrite(image, 1, IMAGE, file) != IMAGE) {
            return 1;
        }
    }
    return 0;
}

static int load(FILE *file)
{
    for (int number = 1; number <= HEAPS; number++) {
        tlsf_heap heap = {0};
        if (fread(image, 1, IMAGE, file) != IMAGE
            || tlsf_heap_load(image, IMAGE, &heap) != TLSF_OK) {
            return 1;
        }
        memset(blocks, 0, sizeof blocks);
        run(&heap, number, (uint64_t)number + HEAPS);
        tlsf_heap_destroy(&heap);
    }
    return 0;
}

static int between(const char *mode, const char *images)
{
    bool makes = strcmp(mode, "make") == 0;
    FILE *file = fopen(images, makes ? "wb" : "rb");
    int status = file == NULL ? 2 : makes ? make(file) : load(file);
    return file != NULL && fclose(file) != 0 ? 2 : status;
}

#ifdef MODE
#ifdef __arm__
/* Files by way of QEMU, of newlib's own. An exception ends the program. */
void initialise_monitor_handles(void);
void trapped(uint64_t kind, uint64_t instruction);
void trapped(uint64_t kind, uint64_t instruction) { (void)kind, (void)instruction; }
#else
static void initialise_monitor_handles(void) {}
#endif

int main(void)
{
    initialise_monitor_handles();
    int status = between(MODE, IMAGES);
    return fflush(stdout) != 0 ? 2 : status;
}
#else
int main(int argc, char **argv) { return argc != 3 ? 2 : between(argv[1], argv[2]); }
#endif
