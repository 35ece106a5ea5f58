/* tlsf_fault.h: what tlsf_check_at tells, and which record of a table is the first that is wrong.
 * It is a part of tlsf_check.c, and for no program. Not proved: that a table is wrong the proved
 * check says. */
#ifndef TLSF_FAULT_H
#define TLSF_FAULT_H

#include "tlsf_front.h"

/* Tells what is wrong, of no block. */
static void tell(tlsf_fault *out, enum tlsf_fault_kind what, uint32_t entry)
{
    static const char *const texts[10] = {
        [TLSF_FAULT_NONE] = "nothing is wrong",
        [TLSF_FAULT_NO_HEAP] = "there is no heap",
        [TLSF_FAULT_CONTROL] = "the heap's start was changed",
        [TLSF_FAULT_TABLE] = "the table was changed",
        [TLSF_FAULT_RECORD] = "a block's record was changed",
        [TLSF_FAULT_CHAIN] = "a block's record leads to other neighbours",
        [TLSF_FAULT_LIST] = "a free block's record leads to other free blocks",
        [TLSF_FAULT_FIGURES] = "the figures of live blocks were changed",
        [TLSF_FAULT_POOL] = "the table has no such pool",
        [TLSF_FAULT_FRONT] = "the 8 bytes in front of a live block were changed"};
    if (out != NULL) {
        *out = (tlsf_fault){.what = what, .text = texts[what], .pool = entry};
    }
}

/* The same of a block, with the bytes behind its front. */
RARE static void tell_block(tlsf_fault *out, enum tlsf_fault_kind what,
                            const struct control *control, uint32_t entry, const struct row *row)
{
    tell(out, what, entry);
    if (out != NULL) {
        out->block = (void *)(uintptr_t)row->address;
        out->offset = (size_t)(row->address - control->at.pools[entry].first);
        out->size = row->bytes;
    }
}

/* Whether the table leads to its records: it begins with their address and their number, and they
 * lie 16 bytes in front of it. No call changes that, and the proved check follows it. */
static bool leads_to_records(const struct control *control)
{
    const unsigned char *table = (const unsigned char *)control->at.heap.at;
    uintptr_t records = 0;
    uint64_t count = 0;
    (void)__builtin_memcpy(&records, table, sizeof records);
    (void)__builtin_memcpy(&count, &table[8], sizeof count);
    return count == control->records
           && records == (uintptr_t)table - UNIT - UNIT * control->records;
}

/* What is wrong with a heap's start, and with where its table leads. */
static enum tlsf_fault_kind start_fault(const struct control *control)
{
    if (control == NULL) {
        return TLSF_FAULT_NO_HEAP;
    }
    if (control->mark != mark_of(control)) {
        return TLSF_FAULT_CONTROL;
    }
    return leads_to_records(control) ? TLSF_FAULT_NONE : TLSF_FAULT_TABLE;
}

/* A record as the table keeps it: docs/FORMATS.md has its fields. The size has the state in its low
 * bits. */
struct record {
    uint32_t place;
    uint32_t size;
    uint16_t before;
    uint16_t behind;
    uint16_t before_in_list;
    uint16_t behind_in_list;
};
typedef char record_is_told[sizeof(struct record) == UNIT ? 1 : -1];
#define NO_SLOT 65535u
#define FREE 1u
#define LIVE 2u

/* The record at a slot, or one of no block where there is none. */
static struct record record_at(const struct control *control, uint32_t slot)
{
    struct record record = {.before = NO_SLOT};
    if (slot < control->records) {
        size_t behind = UNIT * (control->records - slot) + UNIT;
        (void)__builtin_memcpy(&record, (const unsigned char *)control->at.heap.at - behind,
                               sizeof record);
    }
    return record;
}

/* Where the record's block ends; its place, where it is no block's. */
static uint64_t end_of(struct record record)
{
    uint32_t state = record.size % UNIT;
    return (uint64_t)record.place + (state == FREE || state == LIVE ? record.size - state : 0u);
}

/* Whether a free block's record and those that it leads to in its list lead to each other. */
static bool is_listed(const struct control *control, uint32_t slot, struct record record)
{
    struct record before = record_at(control, record.before_in_list);
    struct record behind = record_at(control, record.behind_in_list);
    return (record.before_in_list == NO_SLOT
            || (before.size % UNIT == FREE && before.behind_in_list == slot))
           && (record.behind_in_list == NO_SLOT
               || (behind.size % UNIT == FREE && behind.before_in_list == slot));
}

/* A slot, and the place where its block begins. */
struct found {
    uint32_t slot;
    uint64_t place;
};

/* What is wrong with the record that was found, in a pool that ends at a place. Where it is the
 * record behind that is wrong, *at gets that. */
static enum tlsf_fault_kind fault_at(const struct control *control, struct found *at, uint64_t last)
{
    struct record record = record_at(control, at->slot);
    struct record behind = record_at(control, record.behind);
    struct found next = {record.behind, end_of(record)};
    bool is_last = record.behind == NO_SLOT;
    bool is_met = is_last ? next.place == last : behind.place == next.place;
    enum tlsf_fault_kind what = TLSF_FAULT_NONE;
    if (record.place != at->place || next.place <= at->place || next.place > last
        || (is_last && !is_met)) {
        what = TLSF_FAULT_RECORD;
    } else if (!is_last
               && (behind.before != at->slot || (!is_met && end_of(behind) == behind.place))) {
        what = TLSF_FAULT_CHAIN;
        *at = is_met ? next : *at;
    } else if (!is_met) {
        bool meets = end_of(behind)
                     == (behind.behind == NO_SLOT ? last : record_at(control, behind.behind).place);
        what = TLSF_FAULT_RECORD;
        *at = meets ? *at : next;
    } else {
        what = TLSF_FAULT_NONE;
    }
    return what;
}

/* The slot of the block with which a pool begins, or NO_SLOT. */
static uint32_t first_slot(const struct control *control, const struct pool *pool)
{
    uint32_t slot = 0;
    struct record record = record_at(control, slot);
    while (slot < control->records
           && (record.place != pool->place || end_of(record) <= pool->place
               || record.before != NO_SLOT)) {
        slot++;
        record = record_at(control, slot);
    }
    return slot < control->records ? slot : NO_SLOT;
}

/* Whether the records of an entry's pool are whole, and with `lists` what they lead to in these;
 * else the first that isn't is told. What is live is added up. */
static bool has_records(const struct control *control, uint32_t entry, bool lists,
                        struct live *live, tlsf_fault *out)
{
    const struct pool *pool = &control->at.pools[entry];
    uint64_t last = pool->reach == 0u ? pool->place : pool->place + pool->reach + FRONT;
    struct found at = {first_slot(control, pool), pool->place};
    enum tlsf_fault_kind what = TLSF_FAULT_NONE;
    while (what == TLSF_FAULT_NONE && at.place < last) {
        what = fault_at(control, &at, last);
        struct record record = record_at(control, at.slot);
        struct row row = {pool->first + (at.place - pool->place), 0, record.size % UNIT == LIVE};
        row.bytes = record.size < UNIT ? 0u : record.size / UNIT * UNIT - FRONT;
        if (what == TLSF_FAULT_NONE && lists && !row.used && !is_listed(control, at.slot, record)) {
            what = TLSF_FAULT_LIST;
        }
        if (what != TLSF_FAULT_NONE) {
            tell_block(out, what, control, entry, &row);
        }
        live->blocks += row.used ? 1u : 0u;
        live->bytes += row.used ? row.bytes : 0u;
        at = (struct found){record.behind, end_of(record)};
    }
    return what == TLSF_FAULT_NONE;
}

/* What is wrong with a table that the proved check doesn't take, or with the figures beside it. */
RARE static void find_fault(const struct control *control, tlsf_fault *out)
{
    struct live live = {0};
    bool whole = true;
    for (uint32_t k = 0; k < 2u * POOLS && whole; k++) {
        struct live none = {0};
        whole = has_records(control, k % POOLS, k >= POOLS, k < POOLS ? &live : &none, out);
    }
    if (whole) {
        bool same = live.blocks == control->at.live.blocks && live.bytes == control->at.live.bytes
                    && control->at.live.most_again == control->at.live.most_bytes;
        tell(out, same ? TLSF_FAULT_TABLE : TLSF_FAULT_FIGURES, POOLS);
    }
}

#endif
