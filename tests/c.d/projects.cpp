// tests/c.d/projects/resource.hpp under containers of C++17, beside containers over new.
#include <cstdio>
#include <map>
#include <string>
#include <unordered_map>
#include <utility>

#include "projects/resource.hpp"

static unsigned passed, failed;

static void expect(bool holds, const char *what)
{
    (holds ? passed : failed)++;
    std::printf("%s: %s\n", holds ? "ok" : "FAILED", what);
}

static unsigned below(unsigned most)
{
    static unsigned state = 7;
    state = state * 1664525u + 1013904223u;
    return (state >> 8) % most;
}

static void words(TlsfResource &resource)
{
    std::pmr::map<std::pmr::string, unsigned> counts(&resource);
    std::map<std::string, unsigned> model;
    for (unsigned k = 0; k < 20000; k++) {
        std::string word(1 + below(40), static_cast<char>('a' + below(26)));
        counts[std::pmr::string(word, &resource)]++;
        model[word]++;
        if (k % 3 == 0) {
            auto first = model.begin();
            counts.erase(std::pmr::string(first->first, &resource));
            model.erase(first);
        }
    }
    bool same = counts.size() == model.size();
    auto at = counts.begin();
    for (const auto &entry : model) {
        same = same && std::string(at->first) == entry.first && at->second == entry.second;
        ++at;
    }
    expect(same && !model.empty(), "a map of words");
    expect(resource.intact(), "the heap is whole");
}

static void rows(TlsfResource &resource)
{
    std::pmr::vector<std::pmr::vector<unsigned>> table(&resource);
    std::vector<std::vector<unsigned>> model;
    for (unsigned k = 0; k < 60; k++) {
        table.emplace_back();
        model.emplace_back();
        for (unsigned count = below(3000); count > 0; count--) {
            table.back().push_back(k * count);
            model.back().push_back(k * count);
        }
    }
    bool same = true;
    for (unsigned k = 0; k < 60; k++) {
        same = same && std::vector<unsigned>(table[k].begin(), table[k].end()) == model[k];
    }
    expect(same, "vectors in a vector");
}

static void too_much(TlsfResource &resource)
{
    bool thrown = false;
    std::size_t before = resource.used();
    try {
        std::pmr::vector<char> none(std::size_t(1) << 31, &resource);
    } catch (const std::bad_alloc &) {
        thrown = true;
    }
    expect(thrown && resource.used() == before && resource.intact(), "more than a pool may have");
}

int main()
{
    TlsfResource resource(640 * 1024);
    words(resource);
    rows(resource);
    expect(resource.pools() > 1, "it has grown");
    too_much(resource);
    expect(resource.used() == 0, "all is given back");
    std::printf("%u passed, %u failed\n", passed, failed);
    return failed == 0 ? 0 : 1;
}
