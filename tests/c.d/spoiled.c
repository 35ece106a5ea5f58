/* Tables with one byte spoiled. tlsf_heap_check is false exactly where that byte changed what a
 * record means, or where the record can be no table's: its place is no multiple of 16, or one of
 * its links is no slot. Where it changed no meaning, every later call answers as without it. The
 * table is the first memory that tlsf_heap_create takes. A record has sixteen bytes: place, size
 * with the state in its low four bits, previous, next, previous free and next free. */
#include <string.h>

#include "cases.h"
#include "tlsf_heap.h"

enum { RECORDS = 80, RECORD = 16, CALLS = 200, MOST_HELD = 32 };

static _Alignas(16) unsigned char memory[8192], kept[8192];
static size_t taken;

struct rattle_tried rattle_alloc(size_t bytes, size_t align)
{
    struct rattle_tried some = {true, memory + taken};
    (void)align;
    taken += (bytes + 15) / 16 * 16;
    return some;
}

void rattle_dealloc(unsigned char *p) { (void)p; }

static uint32_t seed;

static uint32_t below(uint32_t most)
{
    seed = seed * 1664525u + 1013904223u;
    return (uint32_t)((uint64_t)(seed >> 8) * most >> 24);
}

/* What a program holds, and a number over all that its calls answered. */
struct run {
    tlsf_heap_block held[MOST_HELD];
    uint32_t count;
    uint64_t answers;
};

static void tell(struct run *run, uint32_t status, uint32_t place)
{
    run->answers = run->answers * 1099511628211u + status * 65537u + place;
}

/* Random calls from this seed on: blocks are asked for and freed. */
static void calls(tlsf_heap *heap, struct run *run, uint32_t from, unsigned many)
{
    seed = from;
    for (unsigned k = 0; k < many; k++) {
        if (run->count < MOST_HELD && below(3) > 0) {
            tlsf_heap_block given = {0, 0};
            uint32_t status = tlsf_heap_malloc(heap, 1 + below(300), &given);
            tell(run, status, given.place);
            if (status == TLSF_OK) {
                run->held[run->count++] = given;
            }
        } else if (run->count > 0) {
            uint32_t at = below(run->count);
            tell(run, tlsf_heap_free(heap, run->held[at]), run->held[at].place);
            run->held[at] = run->held[--run->count];
        }
    }
}

/* The bytes of a record that mean something, the others as zeros: of a vacant one the next, of a
 * live one no links of lists. Each state but vacant and live means something of its own. */
static void meaning(const unsigned char *record, unsigned char told[RECORD])
{
    enum { VACANT = 0, LIVE = 2 };
    unsigned state = record[4] & 15u;
    memcpy(told, record, RECORD);
    if (state == LIVE) {
        memset(told + 12, 0, 4);
    } else if (state == VACANT) {
        memset(told, 0, RECORD);
        memcpy(told + 10, record + 10, 2);
    }
}

/* Whether a table can have the record, whatever it means: its place is a multiple of 16, and each
 * link is none or a slot. */
static bool is_kept(const unsigned char *record)
{
    uint16_t links[4];
    bool kept = record[0] % 16 == 0;
    memcpy(links, record + 8, sizeof links);
    for (unsigned k = 0; k < 4; k++) {
        kept = kept && (links[k] == 65535 || links[k] < RECORDS);
    }
    return kept;
}

/* Spoils a byte in each of nine ways: whether check tells each that means something, and each with
 * which the record can be no table's, and no other, and calls go on alike. */
static bool byte_is_told(tlsf_heap *heap, const struct run *before, uint64_t wanted, size_t at)
{
    for (unsigned way = 0; way <= 8; way++) {
        unsigned char was[RECORD], is[RECORD];
        memcpy(memory, kept, sizeof memory);
        meaning(memory + at / RECORD * RECORD, was);
        memory[at] ^= way < 8 ? 1u << way : 255u;
        meaning(memory + at / RECORD * RECORD, is);
        bool same = memcmp(was, is, RECORD) == 0;
        bool whole = same && is_kept(memory + at / RECORD * RECORD);
        if (tlsf_heap_check(heap) != whole) {
            return false;
        }
        struct run after = *before;
        if (same) {
            calls(heap, &after, 4711, CALLS);
            if (after.answers != wanted || (whole && !tlsf_heap_check(heap))) {
                return false;
            }
        }
    }
    return true;
}

int main(void)
{
    for (uint32_t round = 1; round <= 3; round++) {
        tlsf_heap heap = {0};
        struct run before = {0}, after;
        taken = 0;
        bool made = tlsf_heap_create(RECORDS, &heap) == TLSF_OK
                    && tlsf_heap_add_pool(&heap, 0, 4096) == TLSF_OK
                    && tlsf_heap_add_pool(&heap, 8192, 1024) == TLSF_OK;
        calls(&heap, &before, round, CALLS);
        expect(made && tlsf_heap_check(&heap), "a heap that was in use is whole");
        memcpy(kept, memory, sizeof memory);
        after = before;
        calls(&heap, &after, 4711, CALLS);
        bool told = true;
        for (size_t at = 0; at < (size_t)RECORDS * RECORD; at++) {
            told = byte_is_told(&heap, &before, after.answers, at) && told;
        }
        expect(told, "check tells each spoiled byte that means something, and later calls don't "
                     "see the others");
    }
    return cases_end();
}
