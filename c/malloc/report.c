/* report.c: what is told at the end of a program. */
#include "blocks.h"
#include "report.h"

/* What all heaps and parts hold. */
struct held {
    size_t blocks, bytes, most_bytes;
    bool is_broken;
};

static void add_general(struct heap *heap, struct held *held)
{
    tlsf_figures told;
    size_t most = heap->most_before;
    if (heap->use == GENERAL && tlsf_stats(heap->general, &told) == 0) {
        held->blocks += told.blocks_live;
        held->bytes += told.bytes_live;
        most = told.most_bytes_live > most ? told.most_bytes_live : most;
    }
    held->most_bytes += most;
    held->is_broken = held->is_broken || (heap->use == GENERAL && tlsf_check(heap->general) != 0);
}

static struct held add_all(void)
{
    struct held held = {blocks_of_pages, bytes_of_pages, most_bytes_of_pages, was_broken};
    for (unsigned k = 0; k < heaps_used; k++) {
        struct seat *seat = lock_it(&heaps[k].lock);
        add_general(&heaps[k], &held);
        if (heaps[k].use == PART) {
            held.blocks += heaps[k].live;
            held.is_broken = held.is_broken || tlsf_parts_check(heaps[k].part) != 0;
        }
        unlock_it(&heaps[k].lock, seat);
    }
    return held;
}

static void report_ranges(int to)
{
    for (uint32_t k = 0; k < settings.count; k++) {
        const struct range *range = &settings.ranges[k];
        say(to, "up to %u: %zu of %u blocks at most, %zu spilled\n", range->largest,
            range->most_live, range->blocks, range->spilled);
    }
    if (spilled_above > 0) {
        say(to, "above %u: %zu spilled\n", settings.ranges[settings.count - 1].largest,
            spilled_above);
    }
}

void report(int to, size_t refused)
{
    struct held held = add_all();
    const char *table = held.is_broken ? "broken" : "whole";
    if (most_general_heaps > 1) {
        say(to, "%u heaps at most\n", most_general_heaps);
    }
    report_ranges(to);
    if (settings.count > 0) {
        say(to, "%zu blocks held, %zu refused, table %s\n", held.blocks, refused, table);
    } else {
        say(to, "%zu blocks held, %zu bytes held, %zu bytes at most, %zu refused, table %s\n",
            held.blocks, held.bytes, held.most_bytes, refused, table);
    }
}
