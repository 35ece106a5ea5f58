// The allocator of ZynAddSubFX at work, which its authors wrote for Conte's library. tests/c builds
// it over both libraries, and both write equal lines. How many large pieces fit differs between
// them, and isn't written.
#include <cstdio>
#include <cstdlib>
#include <cstring>
#include <new>
#include <vector>

#include "Allocator.h"

enum { LIVE = 500, STEPS = 40000, LARGEST = 2000, VOICES = 16, MEGABYTE = 1024 * 1024 };

static int made, gone;

struct Voice {
    Voice(int note, float volume) : note(note), volume(volume) { made++; }
    ~Voice() { gone++; }
    int note;
    float volume;
};

struct Piece {
    char bytes[MEGABYTE];
};

struct Block {
    unsigned char *start;
    size_t size;
};

static unsigned below(unsigned most)
{
    static unsigned state = 3;
    state = state * 1664525u + 1013904223u;
    return (state >> 8) % most;
}

// Whether each byte of a block is still the one that was put there.
static bool is_kept(const Block &block, unsigned char byte)
{
    const unsigned char *start = block.start;
    return start == nullptr
           || (start[0] == byte && std::memcmp(start, start + 1, block.size - 1) == 0);
}

// Blocks of two allocators come and go. Each keeps its bytes.
static void blocks(zyn::Allocator *const (&memories)[2])
{
    std::vector<Block> live(LIVE, Block{nullptr, 0});
    unsigned served = 0, spoiled = 0;
    unsigned long long before[] = {memories[0]->totalAlloced(), memories[1]->totalAlloced()};
    for (unsigned step = 0; step < STEPS; step++) {
        unsigned k = below(LIVE);
        Block &block = live[k];
        unsigned char byte = static_cast<unsigned char>(k % 251);
        spoiled += !is_kept(block, byte);
        memories[k % 2]->devalloc(block.start);
        block.size = 1 + below(LARGEST);
        block.start = static_cast<unsigned char *>(memories[k % 2]->alloc_mem(block.size));
        served += block.start != nullptr;
        if (block.start != nullptr) {
            std::memset(block.start, byte, block.size);
        }
    }
    for (unsigned k = 0; k < LIVE; k++) {
        spoiled += !is_kept(live[k], static_cast<unsigned char>(k % 251));
        memories[k % 2]->devalloc(live[k].start);
    }
    std::printf("served %u, spoiled %u, asked for %llu and %llu\n", served, spoiled,
                memories[0]->totalAlloced() - before[0], memories[1]->totalAlloced() - before[1]);
}

// A pool that is added makes room for what the first one has none for.
static void pools(zyn::Allocator &memory)
{
    std::printf("low %d, pools %d\n", memory.lowMemory(5, 5 * MEGABYTE), memory.memPools());
    memory.addMemory(std::malloc(50 * MEGABYTE), 50 * MEGABYTE);
    std::printf("low %d, pools %d\n", memory.lowMemory(5, 5 * MEGABYTE), memory.memPools());
    void *gigabyte = memory.alloc_mem(1024 * MEGABYTE);
    std::printf("a gigabyte: %s\n", gigabyte == nullptr ? "refused" : "served");
}

// Objects are made and ended, alone and in an array. A transaction that fails gives all its memory
// back: so the next one gets as far.
static void objects(zyn::Allocator &memory)
{
    Voice *voice = memory.alloc<Voice>(60, 0.5f);
    Voice *voices = memory.valloc<Voice>(VOICES, 61, 0.25f);
    for (int time = 0; time < 10; time++) {
        int pieces = 0;
        memory.beginTransaction();
        try {
            while (memory.alloc<Piece>() != nullptr) {
                pieces++;
            }
        } catch (const std::bad_alloc &) {
            std::printf("%s ", pieces > 50 ? "many pieces" : "few pieces");
        }
        memory.endTransaction();
    }
    std::printf("\nnotes %d and %d, volumes %.2f and %.2f\n", voice->note, voices[VOICES - 1].note,
                static_cast<double>(voice->volume), static_cast<double>(voices[0].volume));
    memory.dealloc(voice);
    memory.devalloc(VOICES, voices);
    std::printf("made %d, gone %d, null %d\n", made, gone, voice == nullptr && voices == nullptr);
}

int main()
{
    zyn::AllocatorClass first, second;
    zyn::Allocator *const memories[] = {&first, &second};
    blocks(memories);
    pools(first);
    objects(first);
    blocks(memories);
    return 0;
}
