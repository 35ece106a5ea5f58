// The memory resource of c/tlsf.hpp under std::pmr's containers, beside containers over new.
#include <cstdint>
#include <cstdio>
#include <map>
#include <string>
#include <type_traits>
#include <utility>
#include <vector>

#include "tlsf.hpp"

using Word = std::pmr::string;
using Counts = std::pmr::map<Word, unsigned>;

static_assert(noexcept(tlsf_resource(tlsf_t())), "over a heap that there is");
static_assert(!noexcept(tlsf_resource(nullptr, std::size_t())), "a heap that can't be made");
static_assert(noexcept(std::declval<const tlsf_resource &>().heap()), "the heap");
static_assert(std::is_nothrow_destructible<tlsf_resource>::value, "the end");
static_assert(!std::is_copy_constructible<tlsf_resource>::value, "no copy");
static_assert(!std::is_copy_assignable<tlsf_resource>::value, "nor by assignment");

struct alignas(64) Line {
    unsigned char bytes[64];
};

struct alignas(4096) Page {
    unsigned char bytes[4096];
};

alignas(16) static unsigned char memory[4 << 20], more[1 << 20], little[16384];
static unsigned passed, failed;

static void expect(bool holds, const char *what)
{
    (holds ? passed : failed)++;
    std::printf("%s: %s\n", holds ? "ok" : "FAILED", what);
}

static unsigned below(unsigned most)
{
    static unsigned state = 7;
    state = state * 1664525u + 1013904223u;
    return (state >> 8) % most;
}

static void count_live(void *, std::size_t, int used, void *user)
{
    *static_cast<std::size_t *>(user) += used != 0;
}

// How many blocks of its first pool are live.
static std::size_t live(const tlsf_resource &resource)
{
    std::size_t count = 0;
    tlsf_walk_pool(tlsf_get_pool(resource.heap()), count_live, &count);
    return count;
}

static void words(tlsf_resource &resource)
{
    Counts counts(&resource);
    std::map<std::string, unsigned> model;
    for (unsigned k = 0; k < 20000; k++) {
        std::string word(1 + below(60), static_cast<char>('a' + below(26)));
        counts[Word(word, &resource)]++;
        model[word]++;
        if (k % 3 == 0) {
            counts.erase(Word(model.begin()->first, &resource));
            model.erase(model.begin());
        }
    }
    bool same = counts.size() == model.size() && model.size() > 500;
    auto at = counts.begin();
    for (const auto &entry : model) {
        same = same && std::string(at->first) == entry.first && at->second == entry.second;
        ++at;
    }
    expect(same, "a map of strings is that over new");
    expect(live(resource) > counts.size() && tlsf_check(resource.heap()) == 0,
           "its blocks are the heap's, and the heap is whole");
}

static void rows(tlsf_resource &resource)
{
    std::pmr::vector<std::pmr::vector<unsigned>> table(&resource);
    std::vector<std::vector<unsigned>> model;
    for (unsigned k = 0; k < 60; k++) {
        table.emplace_back();
        model.emplace_back();
        for (unsigned count = below(3000); count > 0; count--) {
            table.back().push_back(k * count);
            model.back().push_back(k * count);
        }
    }
    bool same = true;
    for (unsigned k = 0; k < 60; k++) {
        same = same && std::vector<unsigned>(table[k].begin(), table[k].end()) == model[k]
               && table[k].get_allocator().resource() == &resource;
    }
    expect(same, "vectors in a vector are those over new");
}

template <class T> static bool are_aligned(tlsf_resource &resource)
{
    std::pmr::vector<T> items(&resource);
    bool aligned = true;
    for (unsigned k = 0; k < 50; k++) {
        items.emplace_back();
        items.back().bytes[k] = static_cast<unsigned char>(k);
        aligned = aligned && reinterpret_cast<std::uintptr_t>(items.data()) % alignof(T) == 0;
    }
    for (unsigned k = 0; k < 50; k++) {
        aligned = aligned && items[k].bytes[k] == k;
    }
    return aligned;
}

static void alignments(tlsf_resource &resource)
{
    expect(are_aligned<Line>(resource) && are_aligned<Page>(resource),
           "elements at multiples of 64 and of 4,096");
    bool each = true;
    for (std::size_t align = 1; align <= std::size_t(1) << 21; align *= 2) {
        void *block = resource.allocate(100, align);
        each = each && reinterpret_cast<std::uintptr_t>(block) % align == 0;
        resource.deallocate(block, 100, align);
    }
    expect(each && live(resource) == 0, "each alignment up to 2^21");
}

static bool is_refused(tlsf_resource &resource, std::size_t bytes, std::size_t align)
{
    std::size_t before = live(resource);
    try {
        static_cast<void>(resource.allocate(bytes, align));
    } catch (const std::bad_alloc &) {
        return live(resource) == before && tlsf_check(resource.heap()) == 0;
    }
    return false;
}

static void refusals(tlsf_resource &resource)
{
    tlsf_resource none(nullptr);
    expect(is_refused(resource, sizeof memory, 16) && is_refused(resource, SIZE_MAX, 16),
           "more bytes than there are: bad_alloc");
    expect(is_refused(resource, 1, std::size_t(1) << 22), "an alignment above 2^21");
    bool thrown = false;
    try {
        static_cast<void>(none.allocate(1, 16));
    } catch (const std::bad_alloc &) {
        thrown = true;
    }
    expect(thrown, "where there is no heap");
    void *one = resource.allocate(0, 1), *other = resource.allocate(0, 1);
    expect(one != nullptr && other != nullptr && one != other, "no bytes: a block of its own");
    resource.deallocate(one, 0, 1);
    resource.deallocate(one, 0, 1);
    resource.deallocate(little + 64, 16, 16);
    expect(live(resource) == 1 && tlsf_check(resource.heap()) == 0,
           "a second free and a foreign pointer do nothing");
    resource.deallocate(other, 0, 1);
    thrown = false;
    try {
        tlsf_resource small(little, 1000);
    } catch (const std::bad_alloc &) {
        thrown = true;
    }
    expect(thrown, "too little memory for a heap: bad_alloc");
}

// A heap of the program's, with a pool added, stays where the resource goes.
static void over_a_heap()
{
    tlsf_t heap = tlsf_create_with_pool(little, sizeof little);
    {
        tlsf_resource resource(heap), other(heap);
        expect(is_refused(resource, 20000, 1), "more than the pool has: bad_alloc");
        tlsf_add_pool(resource.heap(), more, sizeof more);
        std::pmr::vector<char> large(20000, 'x', &resource);
        unsigned char *at = reinterpret_cast<unsigned char *>(large.data());
        expect(at > more && at < more + sizeof more, "a pool that was added serves it");
        expect(resource.is_equal(resource) && !resource.is_equal(other), "equal to itself alone");
    }
    expect(tlsf_check(heap) == 0 && tlsf_malloc(heap, 1) != nullptr,
           "a heap of the program's stays when the resource ends");
    tlsf_destroy(heap);
}

int main()
{
    {
        tlsf_resource resource(memory, sizeof memory);
        words(resource);
        rows(resource);
        alignments(resource);
        refusals(resource);
        expect(live(resource) == 0, "all is given back");
    }
    expect(tlsf_malloc(memory, 1) == nullptr, "a heap of the resource's own ends with it");
    over_a_heap();
    std::printf("%u passed, %u failed\n", passed, failed);
    return failed == 0 ? 0 : 1;
}
