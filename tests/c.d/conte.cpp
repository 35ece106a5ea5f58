// The calls of tlsf.h as the allocator of C++ containers: a map, strings and vectors over one heap,
// beside containers over new.
#include <cstdint>
#include <cstdio>
#include <functional>
#include <map>
#include <new>
#include <scoped_allocator>
#include <string>
#include <vector>

#include "tlsf.h"

template <class T> struct Allocator {
    using value_type = T;
    tlsf_t heap;

    explicit Allocator(tlsf_t heap) : heap(heap) {}
    template <class U> Allocator(const Allocator<U> &other) : heap(other.heap) {}

    T *allocate(std::size_t count)
    {
        void *block = count > SIZE_MAX / sizeof(T)
                          ? nullptr
                          : tlsf_memalign(heap, alignof(T), count * sizeof(T));
        if (block == nullptr) {
            throw std::bad_alloc();
        }
        return static_cast<T *>(block);
    }

    void deallocate(T *block, std::size_t) { tlsf_free(heap, block); }

    template <class U> bool operator==(const Allocator<U> &other) const
    {
        return heap == other.heap;
    }
    template <class U> bool operator!=(const Allocator<U> &other) const
    {
        return heap != other.heap;
    }
};

using Text = std::basic_string<char, std::char_traits<char>, Allocator<char>>;
using Entry = std::pair<const std::uint32_t, Text>;
using Map = std::map<std::uint32_t, Text, std::less<std::uint32_t>,
                     std::scoped_allocator_adaptor<Allocator<Entry>>>;

struct alignas(64) Line {
    unsigned char bytes[64];
};

alignas(16) static unsigned char memory[8 << 20];

static unsigned passed, failed;

static void expect(bool holds, const char *what)
{
    (holds ? passed : failed)++;
    std::printf("%s: %s\n", holds ? "ok" : "FAILED", what);
}

static void count_live(void *, std::size_t, int used, void *user)
{
    *static_cast<std::size_t *>(user) += used != 0;
}

static std::size_t live(tlsf_t heap)
{
    std::size_t count = 0;
    tlsf_walk_pool(tlsf_get_pool(heap), count_live, &count);
    return count;
}

static bool maps_agree(tlsf_t heap)
{
    Map map{Allocator<Entry>(heap)};
    std::map<std::uint32_t, std::string> other;
    std::uint32_t state = 1;
    for (int k = 0; k < 60000; k++) {
        state = state * 1664525u + 1013904223u;
        std::uint32_t key = state >> 19;
        if (state >> 10 & 1) {
            map.erase(key);
            other.erase(key);
        } else {
            std::string text((state >> 11) % 90, static_cast<char>('a' + key % 26));
            map[key].assign(text.c_str());
            other[key] = text;
        }
    }
    bool same = map.size() == other.size() && other.size() > 1000;
    auto at = other.begin();
    for (const auto &entry : map) {
        same = same && entry.first == at->first && at->second == entry.second.c_str();
        ++at;
    }
    return same && live(heap) > map.size() && tlsf_check(heap) == 0;
}

static bool vectors_agree(tlsf_t heap)
{
    std::vector<Line, Allocator<Line>> lines{Allocator<Line>(heap)};
    bool aligned = true, same = true;
    for (unsigned k = 0; k < 5000; k++) {
        Line line = {};
        line.bytes[k % 64] = static_cast<unsigned char>(k);
        lines.push_back(line);
        aligned = aligned && reinterpret_cast<std::uintptr_t>(lines.data()) % 64 == 0;
    }
    for (unsigned k = 0; k < 5000; k++) {
        same = same && lines[k].bytes[k % 64] == static_cast<unsigned char>(k);
    }
    return aligned && same;
}

int main()
{
    tlsf_t heap = tlsf_create_with_pool(memory, sizeof memory);
    expect(heap != nullptr, "a heap");
    expect(maps_agree(heap), "a map with strings");
    expect(vectors_agree(heap), "a vector of aligned elements");
    expect(live(heap) == 0 && tlsf_check(heap) == 0, "no block is left");
    bool refused = false;
    try {
        Allocator<Line>(heap).allocate(sizeof memory / sizeof(Line));
    } catch (const std::bad_alloc &) {
        refused = true;
    }
    expect(refused, "more than there is: bad_alloc");
    tlsf_destroy(heap);
    std::printf("%u passed, %u failed\n", passed, failed);
    return failed > 0;
}
