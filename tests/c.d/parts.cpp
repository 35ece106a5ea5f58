// The memory resource of c/tlsf_parts.hpp under std::pmr's containers, beside containers over new.
#include <cstdint>
#include <cstdio>
#include <list>
#include <map>
#include <string>
#include <type_traits>
#include <utility>
#include <vector>

#include "tlsf_parts.hpp"

static_assert(noexcept(tlsf_parts_resource(nullptr)), "over parts that there are");
static_assert(!std::is_copy_constructible<tlsf_parts_resource>::value, "no copy");
static_assert(!std::is_copy_assignable<tlsf_parts_resource>::value, "nor by assignment");

#define PARTS(part) part(96, 5000) part(1024, 40) part(20000, 3)
alignas(8) static unsigned char memory[TLSF_PARTS_BYTES(PARTS)];
static const tlsf_part told[] = {PARTS(TLSF_PART)};

struct alignas(256) Line {
    unsigned char bytes[256];
};

static unsigned passed, failed;

static void expect(bool holds, const char *what)
{
    (holds ? passed : failed)++;
    std::printf("%s: %s\n", holds ? "ok" : "FAILED", what);
}

static std::size_t live(const tlsf_parts_resource &resource, std::uint32_t part)
{
    tlsf_part_figures figures = {};
    return tlsf_parts_stats(resource.parts(), part, &figures) == 0 ? figures.blocks_live : SIZE_MAX;
}

static void words(tlsf_parts_resource &resource)
{
    std::pmr::map<std::pmr::string, unsigned> counts(&resource);
    std::map<std::string, unsigned> wanted;
    for (unsigned k = 0; k < 3000; k++) {
        std::string word(1 + k * 7919 % 90, static_cast<char>('a' + k % 26));
        counts[std::pmr::string(word, &resource)]++;
        wanted[word]++;
        if (k % 5 == 0) {
            counts.erase(counts.begin());
            wanted.erase(wanted.begin());
        }
    }
    bool same = counts.size() == wanted.size();
    for (const auto &[word, count] : wanted) {
        auto found = counts.find(std::pmr::string(word, &resource));
        same = same && found != counts.end() && found->second == count;
    }
    expect(same && counts.size() > 50, "a map of words");
    expect(live(resource, 0) >= counts.size(), "its blocks are the first part's");
}

static void others(tlsf_parts_resource &resource)
{
    std::pmr::vector<unsigned> numbers(&resource);
    for (unsigned k = 0; k < 4000; k++) {
        numbers.push_back(k);
    }
    bool same = true;
    for (unsigned k = 0; k < 4000; k++) {
        same = same && numbers[k] == k;
    }
    expect(same && live(resource, 2) == 1, "a vector that grew into the last part");
    std::pmr::list<Line> lines(20, &resource);
    bool aligned = true;
    for (const Line &line : lines) {
        aligned = aligned && reinterpret_cast<std::uintptr_t>(&line) % 256 == 0;
    }
    expect(aligned && live(resource, 1) == 20, "lines at multiples of 256");
    void *page = resource.allocate(100, 8192);
    expect(reinterpret_cast<std::uintptr_t>(page) % 8192 == 0 && live(resource, 2) == 2,
           "a block at a multiple of 8,192");
    resource.deallocate(page, 100, 8192);
}

static void refusals(tlsf_parts_resource &resource)
{
    bool thrown = false;
    try {
        std::pmr::vector<char> large(20001, &resource);
    } catch (const std::bad_alloc &) {
        thrown = true;
    }
    expect(thrown, "above the last part's size: bad_alloc");
    std::pmr::vector<void *> held;
    for (int k = 0; k < 3; k++) {
        held.push_back(resource.allocate(20000));
    }
    thrown = false;
    try {
        (void)resource.allocate(20000);
    } catch (const std::bad_alloc &) {
        thrown = true;
    }
    expect(thrown, "a part that is full: bad_alloc");
    for (void *block : held) {
        resource.deallocate(block, 20000);
    }
    tlsf_parts_resource other(resource.parts());
    expect(resource.is_equal(resource) && !resource.is_equal(other), "equal to itself alone");
}

int main()
{
    tlsf_parts_resource resource(tlsf_parts_create(memory, sizeof memory, told, 3));
    words(resource);
    others(resource);
    refusals(resource);
    expect(live(resource, 0) == 0 && live(resource, 1) == 0 && live(resource, 2) == 0
               && tlsf_parts_check(resource.parts()) == 0,
           "no block is left");
    std::printf("%u passed, %u failed\n", passed, failed);
    return failed != 0;
}
