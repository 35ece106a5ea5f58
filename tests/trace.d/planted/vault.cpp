// Containers, templates and pointers of C++ that keep their memory. A node of std::list has 16
// bytes before its value, one of std::map 32, and what std::make_shared gives 16.
#include <array>
#include <functional>
#include <list>
#include <map>
#include <memory>
#include <string>
#include <vector>

namespace vault {

using Box = std::array<char, 48>;

template <typename Value, int Count> struct Shelf {
    Value *values = nullptr;
    void fill()
    {
        values = new Value[Count]; // planted 120 in 1: vault::Shelf::fill
    }
};

class Ring {
public:
    static void join()
    {
        auto first = std::make_shared<Ring>(); // planted 80 in 1: vault::Ring::join
        first->next = first;
    }

private:
    std::shared_ptr<Ring> next;
    Box box;
};

struct Shape {
    virtual ~Shape() = default;
};

struct Square : Shape {
    char side[33];
};

template <typename Made, typename... Words> Shape *make(Words... words)
{
    return new Made(words...); // planted 48 in 1: vault::make
}

void keep_list(std::list<Box> &boxes)
{
    for (int k = 0; k < 3; k++)
        boxes.push_back(Box()); // planted 192 in 3: vault::keep_list
}

void keep_map(std::map<long, Box> &boxes)
{
    for (long k = 0; k < 4; k++)
        boxes[k] = Box(); // planted 352 in 4: vault::keep_map
}

} // namespace vault

static std::vector<int> *numbers()
{
    auto *all = new std::vector<int>; // planted 24 in 1: numbers
    all->reserve(250);                // planted 1000 in 1: numbers
    return all;
}

static void *volatile last;

int main()
{
    vault::Shelf<double, 15> shelf;
    shelf.fill();
    vault::Ring::join();
    last = vault::make<vault::Square>();
    auto *boxes = new std::list<vault::Box>; // planted 24 in 1: main
    vault::keep_list(*boxes);
    auto *named = new std::map<long, vault::Box>; // planted 48 in 1: main
    vault::keep_map(*named);
    last = numbers();
    std::function<void(int)> keep = [](int count) {
        // planted 32 in 1: main::{lambda#1}::operator() or operator()
        // planted 301 in 1: main::{lambda#1}::operator() or operator()
        last = new std::string(count, 'x');
    };
    keep(300);
    last = shelf.values;
    last = nullptr;
    return 0;
}
