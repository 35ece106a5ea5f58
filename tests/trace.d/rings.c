/* Blocks that are all lost, in rings and chains of pointers. Behind each call stands what it is:
 * the first of others, or one that others lead to. With a word there are those of lead_in. */
#include <stdlib.h>

struct node {
    struct node *next, *other;
};

static __attribute__((noinline)) struct node *get(size_t bytes) { return calloc(1, bytes); }

/* A ring leads to a block that stands below it. */
static void lead_below(void)
{
    struct node *leaf = get(40); /* led */
    struct node *ring = get(48); /* first */
    ring->next = get(56);        /* led */
    ring->next->next = ring;
    ring->next->other = leaf;
}

/* A ring leads to another one that stands below it, and that leads on. */
static void lead_to_ring(void)
{
    struct node *below = get(64); /* led */
    below->next = get(72);        /* led */
    below->next->next = below;
    below->next->other = get(80); /* led */
    struct node *ring = get(88);  /* first */
    ring->next = get(96);         /* led */
    ring->next->next = ring;
    ring->other = below;
}

/* A chain leads to a ring below it, and a block to itself. */
static void lead_in(void)
{
    struct node *ring = get(104); /* led */
    ring->next = get(112);        /* led */
    ring->next->next = ring;
    struct node *chain = get(120); /* first */
    chain->next = ring->next;
    struct node *own = get(128); /* first */
    own->next = own;
}

/* Puts zeros where calls that have returned left pointers. */
static __attribute__((noinline)) void wipe(void)
{
    volatile char room[8192];
    for (size_t k = 0; k < sizeof room; k++) {
        room[k] = 0;
    }
}

int main(int argc, char **argv)
{
    (void)argv;
    lead_below();
    lead_to_ring();
    if (argc > 1) {
        lead_in();
    }
    wipe();
    return 0;
}
