/* Images through tlsf_heap.h: the bytes of one, byte by byte; rooms that are too small; bytes that
 * are no image; and heaps that go on alike once one is saved and loaded. */
#include <stdlib.h>
#include <string.h>

#include "cases.h"
#include "tlsf_heap.h"

enum { SMALL = 1536, LARGE = 1520 + 16 * 300, MOST_LIVE = 200, REQUESTS = 20000 };

/* The image of a heap of one record whose one pool, 64 bytes from place 0 on, is free. */
static void vector(unsigned char *image)
{
    static const unsigned char record[16] = {0,    0,    0,    0,    0x41, 0,    0,    0,
                                             0xff, 0xff, 0xff, 0xff, 0xff, 0xff, 0xff, 0xff};
    memset(image, 0, SMALL);
    memcpy(image, "TLSFIMG1", 8);
    image[8] = 1;
    image[10] = 1;
    image[20] = 0x40;
    memset(image + 112, 0xff, 1408);
    image[112 + 2 * 4] = image[112 + 2 * 4 + 1] = 0;
    memcpy(image + 1520, record, sizeof record);
}

static bool are_all(const unsigned char *bytes, size_t count, unsigned char value)
{
    for (size_t k = 0; k < count; k++) {
        if (bytes[k] != value) {
            return false;
        }
    }
    return true;
}

static void the_bytes(void)
{
    unsigned char wanted[SMALL], bytes[SMALL + 16];
    tlsf_heap heap = {0};
    uint64_t count = 0;
    vector(wanted);
    expect(TLSF_HEAP_IMAGE_BYTES(1) == SMALL && TLSF_HEAP_IMAGE_BYTES(65535) == 1050080,
           "how many bytes an image has");
    expect(tlsf_heap_create(1, &heap) == TLSF_OK && tlsf_heap_add_pool(&heap, 0, 64) == TLSF_OK,
           "a heap of one record");
    memset(bytes, 0xa5, sizeof bytes);
    expect(tlsf_heap_save(&heap, bytes, sizeof bytes, &count) == TLSF_OK && count == SMALL,
           "its image is put");
    expect(memcmp(bytes, wanted, SMALL) == 0, "the bytes of the image");
    expect(are_all(bytes + SMALL, 16, 0xa5), "the bytes behind it stay");
    bool told = true, put = true, stay = true;
    for (size_t room = 0; room < SMALL; room++) {
        memset(bytes, 0xa5, sizeof bytes);
        count = 4711;
        told = told && tlsf_heap_save(&heap, bytes, room, &count) == TLSF_NO_ROOM && count == room;
        put = put && memcmp(bytes, wanted, room) == 0;
        stay = stay && are_all(bytes + room, sizeof bytes - room, 0xa5);
    }
    expect(told, "each smaller room: no room, and how many bytes are put");
    expect(put, "each smaller room: a beginning of the image");
    expect(stay, "each smaller room: no byte behind it");
    memset(bytes, 0xa5, sizeof bytes);
    expect(tlsf_heap_save(&heap, bytes, SMALL, &count) == TLSF_OK && count == SMALL
               && memcmp(bytes, wanted, SMALL) == 0,
           "a room of just its length");
    tlsf_heap_block block;
    expect(tlsf_heap_malloc(&heap, 64, &block) == TLSF_OK && block.place == 0, "the heap goes on");
    tlsf_heap_destroy(&heap);
}

/* No heap comes of these bytes, over memory of malloc or handed in, and what out points to
 * stays. */
static bool refused(const unsigned char *bytes, size_t length, uint32_t status)
{
    static _Alignas(16) unsigned char table[TLSF_HEAP_TABLE_BYTES(2)];
    tlsf_heap none = {0};
    return tlsf_heap_load(bytes, length, &none) == status && none.at == NULL
           && tlsf_heap_load_in(table, sizeof table, bytes, length, &none) == status
           && none.at == NULL;
}

/* The image of a heap of two records: the pool of the first is free, and the second is vacant. */
static void two_records(unsigned char *image)
{
    vector(image);
    image[8] = 2;
    memset(image + SMALL, 0, 16);
}

/* What two records can break, and one can't. */
static void broken_chains(void)
{
    static const unsigned char block[16] = {32, 0, 0,    0,    0x21, 0,    0,    0,
                                            0,  0, 0xff, 0xff, 0xff, 0xff, 0xff, 0xff};
    unsigned char bytes[SMALL + 16];
    tlsf_heap heap = {0};
    two_records(bytes);
    expect(tlsf_heap_load(bytes, sizeof bytes, &heap) == TLSF_OK, "an image of two records");
    tlsf_heap_destroy(&heap);
    memcpy(bytes + SMALL, block, sizeof block);
    expect(refused(bytes, sizeof bytes, TLSF_BROKEN_ON_CHAINS),
           "a block on no pool's chain breaks rule 9");
    bytes[1524] = 0x21;
    bytes[1530] = 1;
    bytes[1531] = 0;
    expect(refused(bytes, sizeof bytes, TLSF_BROKEN_MERGED),
           "free blocks side by side break rule 10");
    memset(bytes + SMALL + 8, 0xff, 2);
    expect(refused(bytes, sizeof bytes, TLSF_BROKEN_CHAINS),
           "a block that isn't linked back breaks rule 7");
}

/* Each status has its name, and no other number has one. */
static void names(void)
{
    static const struct {
        uint32_t status;
        const char *name;
    } named[] = {
        {0, "served"},
        {1, "zero size"},
        {2, "no fit"},
        {3, "table full"},
        {4, "bad pointer"},
        {5, "bad alignment"},
        {6, "bad pool"},
        {7, "pools full"},
        {8, "pool in use"},
        {9, "out of memory"},
        {10, "no pool"},
        {11, "bad count"},
        {14, "no room"},
        {15, "bad memory"},
        {101, "broken image: magic"},
        {102, "broken image: length"},
        {103, "broken image: pools"},
        {104, "broken image: unused pools"},
        {105, "broken image: states"},
        {106, "broken image: links"},
        {107, "broken image: chains"},
        {108, "broken image: cover"},
        {109, "broken image: block on no chain"},
        {110, "broken image: free blocks side by side"},
        {111, "broken image: lists"},
        {112, "broken image: free block on no list"},
    };
    enum { COUNT = sizeof named / sizeof named[0] };
    unsigned unknown = 0;
    for (size_t k = 0; k < COUNT; k++) {
        expect(strcmp(tlsf_heap_status_name(named[k].status), named[k].name) == 0, named[k].name);
    }
    for (uint32_t status = 0; status < 1000; status++) {
        unknown += strcmp(tlsf_heap_status_name(status), "unknown") == 0;
    }
    expect(unknown == 1000 - COUNT, "no other number has a name");
}

static void broken_bytes(void)
{
    unsigned char bytes[SMALL + 1] = {0};
    vector(bytes);
    bytes[0] = 0x55;
    expect(refused(bytes, SMALL, TLSF_BROKEN_MAGIC), "another first byte breaks rule 1");
    expect(TLSF_BROKEN_MAGIC == 101 && TLSF_BROKEN_LENGTH == 102 && TLSF_BROKEN_ON_LISTS == 112,
           "the numbers of rules 1, 2 and 12");
    vector(bytes);
    expect(refused(bytes, SMALL + 1, TLSF_BROKEN_LENGTH), "a byte behind the record breaks rule 2");
    bytes[112 + 2 * 4] = bytes[112 + 2 * 4 + 1] = 0xff;
    expect(refused(bytes, SMALL, TLSF_BROKEN_ON_LISTS), "a free block in no list breaks rule 12");
    bool cut = true;
    vector(bytes);
    for (size_t length = 0; length < SMALL; length++) {
        cut = cut && refused(bytes, length, length < 1520 ? TLSF_BROKEN_MAGIC : TLSF_BROKEN_LENGTH);
    }
    expect(cut, "cut at each length it breaks rule 1 or 2");
    static const struct {
        size_t at;
        unsigned char byte;
        uint32_t status;
    } changes[] = {
        {16, 1, TLSF_BROKEN_POOLS},        /* the base of the pool is 1 */
        {28, 1, TLSF_BROKEN_UNUSED_POOLS}, /* the second entry isn't zero */
        {1524, 0x43, TLSF_BROKEN_STATES},  /* the record has the state 3 */
        {1528, 1, TLSF_BROKEN_LINKS},      /* the record in front of it is record 65,281 */
        {1520, 16, TLSF_BROKEN_COVER},     /* the block begins behind its pool's base */
        {1524, 0x42, TLSF_BROKEN_LISTS},   /* the block in a list is live */
    };
    for (size_t k = 0; k < sizeof changes / sizeof changes[0]; k++) {
        vector(bytes);
        bytes[changes[k].at] = changes[k].byte;
        expect(refused(bytes, SMALL, changes[k].status), tlsf_heap_status_name(changes[k].status));
    }
}

static void loaded_vector(void)
{
    unsigned char bytes[SMALL];
    tlsf_heap heap = {0};
    tlsf_heap_row row;
    tlsf_heap_block block;
    uint64_t count = 0;
    vector(bytes);
    expect(tlsf_heap_load(bytes, SMALL, &heap) == TLSF_OK, "the image is loaded");
    memset(bytes, 0, sizeof bytes);
    expect(tlsf_heap_check(&heap), "its table is whole");
    expect(tlsf_heap_walk(&heap, 0, 0, &row, 1, &count) == TLSF_OK && count == 1 && row.place == 0
               && row.size == 64 && !row.used,
           "it has the row of the image");
    expect(tlsf_heap_malloc(&heap, 60, &block) == TLSF_OK && block.place == 0
               && tlsf_heap_malloc(&heap, 1, &block) == TLSF_NO_FIT,
           "it serves and refuses");
    tlsf_heap_destroy(&heap);
}

/* ---- a heap, and the one that its image is ---- */

static uint64_t state = 88172645463325252u;

static uint64_t below(uint64_t bound)
{
    state ^= state << 13;
    state ^= state >> 7;
    state ^= state << 17;
    return state % bound;
}

/* The live blocks; new ones may have another slot in the second heap. */
static tlsf_heap heaps[2];
static tlsf_heap_block live[2][MOST_LIVE];
static size_t lives;

/* One random request of both heaps: the answers are equal but for slots. */
static bool both_answer(unsigned heap_count)
{
    uint64_t kind = below(5), bytes = below(6) == 0 ? below(30000) : below(400),
             align = 1ull << below(10), at = lives ? below(lives) : 0;
    uint32_t status[2] = {0, 0};
    tlsf_heap_block given[2] = {{0, 0}, {0, 0}};
    if ((kind >= 3 && lives == 0) || (kind < 3 && lives == MOST_LIVE)) {
        return true;
    }
    for (unsigned h = 0; h < heap_count; h++) {
        status[h] = kind < 2    ? tlsf_heap_malloc(&heaps[h], bytes, &given[h])
                    : kind == 2 ? tlsf_heap_memalign(&heaps[h], align, bytes, &given[h])
                    : kind == 3 ? tlsf_heap_free(&heaps[h], live[h][at])
                                : tlsf_heap_realloc(&heaps[h], live[h][at], bytes, &given[h]);
    }
    bool same = heap_count == 1 || (status[0] == status[1] && given[0].place == given[1].place);
    for (unsigned h = 0; h < heap_count && status[0] == TLSF_OK; h++) {
        if (kind < 3) {
            live[h][lives] = given[h];
        } else if (kind == 3 || bytes == 0) {
            live[h][at] = live[h][lives - 1];
        } else {
            live[h][at] = given[h];
        }
    }
    if (status[0] == TLSF_OK) {
        lives += kind < 3 ? 1 : 0;
        lives -= kind == 3 || (kind == 4 && bytes == 0) ? 1 : 0;
    }
    return same;
}

static bool same_rows(void)
{
    static tlsf_heap_row rows[2][300];
    bool same = true;
    for (uint64_t base = 0; base <= 65536; base += 32768) {
        uint64_t count[2] = {0, 1};
        memset(rows, 0, sizeof rows);
        for (unsigned h = 0; h < 2; h++) {
            same = tlsf_heap_walk(&heaps[h], base, 0, rows[h], 300, &count[h]) == TLSF_OK && same;
        }
        same = same && count[0] == count[1] && memcmp(rows[0], rows[1], sizeof rows[0]) == 0;
    }
    return same;
}

static void saved_and_loaded(void)
{
    static unsigned char image[LARGE], again[LARGE];
    tlsf_heap none = {0};
    uint64_t count = 0;
    expect(tlsf_heap_create(300, &heaps[0]) == TLSF_OK, "a heap of 300 records");
    for (uint64_t base = 0; base <= 65536; base += 32768) {
        tlsf_heap_add_pool(&heaps[0], base, 16384);
    }
    for (unsigned k = 0; k < REQUESTS; k++) {
        both_answer(1);
    }
    expect(lives > 20, "blocks are live");
    for (unsigned round = 0; round < 10; round++) {
        heaps[1] = none;
        expect(tlsf_heap_save(&heaps[0], image, LARGE, &count) == TLSF_OK && count == LARGE,
               "it is saved");
        expect(tlsf_heap_load(image, LARGE, &heaps[1]) == TLSF_OK, "and loaded");
        expect(tlsf_heap_save(&heaps[1], again, LARGE, &count) == TLSF_OK
                   && memcmp(image, again, LARGE) == 0,
               "the image of what is loaded is the same");
        memcpy(live[1], live[0], sizeof live[0]);
        bool same = same_rows();
        for (unsigned k = 0; k < REQUESTS; k++) {
            same = both_answer(2) && same;
        }
        expect(same && same_rows(), "both heaps answer alike");
        expect(tlsf_heap_check(&heaps[0]) && tlsf_heap_check(&heaps[1]), "both tables are whole");
        tlsf_heap_destroy(&heaps[0]);
        heaps[0] = heaps[1];
        memcpy(live[0], live[1], sizeof live[0]);
    }
    tlsf_heap_destroy(&heaps[0]);
}

int main(void)
{
    the_bytes();
    broken_bytes();
    broken_chains();
    names();
    loaded_vector();
    saved_and_loaded();
    return cases_end();
}
