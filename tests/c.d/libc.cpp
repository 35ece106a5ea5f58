// What of C++'s library takes memory, over c/rtos/libc_malloc.c: each block is the heap's, and all
// are given back.
#include <cstdint>
#include <cstdio>
#include <map>
#include <memory>
#include <memory_resource>
#include <new>
#include <string>
#include <vector>

#include "cases.h"
#include "libc.h"

// The board's program has no end at which what is static is destroyed.
extern "C" {
void *__dso_handle = nullptr;
}

struct alignas(64) Wide {
    char bytes[64];
};

static void by_new()
{
    std::unique_ptr<int> one(new int(7));
    std::unique_ptr<Wide> wide(new Wide);
    std::unique_ptr<char[]> most(new (std::nothrow) char[SIZE_MAX / 4]);
    expect(is_of_heap(one.get()) && *one == 7, "new takes a block of the heap");
    expect(is_of_heap(wide.get()) && reinterpret_cast<std::uintptr_t>(wide.get()) % 64 == 0,
           "also one that is aligned");
    expect(most == nullptr, "what isn't there is refused");
}

static void by_containers()
{
    std::map<std::string, std::vector<int>> readings;
    std::size_t sum = 0;
    bool of_heap = true;
    for (int k = 0; k < 300; k++) {
        readings["a sensor whose name is long " + std::to_string(k % 30)].push_back(k);
    }
    for (const auto &[name, values] : readings) {
        of_heap = of_heap && is_of_heap(name.data()) && is_of_heap(values.data());
        for (int value : values) {
            sum += static_cast<std::size_t>(value);
        }
    }
    expect(of_heap && readings.size() == 30 && sum == 299 * 300 / 2,
           "so do a map, its strings and its vectors");
}

static void by_resource()
{
    std::pmr::unsynchronized_pool_resource pool(std::pmr::new_delete_resource());
    std::pmr::vector<std::pmr::string> names(&pool);
    for (int k = 0; k < 100; k++) {
        names.emplace_back("a name that is longer than a string has room for");
    }
    std::pmr::vector<int> numbers(1000, 5, std::pmr::new_delete_resource());
    expect(names.size() == 100 && names[99] == names[0] && is_of_heap(numbers.data())
               && numbers[999] == 5,
           "so do the resources of std::pmr");
}

int main()
{
    std::printf("over the heap\n");
    std::size_t before = live_blocks();
    by_new();
    by_containers();
    by_resource();
    expect(live_blocks() == before, "all are given back");
    expect(tlsf_check(tlsf_libc_heap()) == 0, "the heap is whole at the end");
    return cases_end();
}
