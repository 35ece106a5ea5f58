// Names of C++: each kind of call leaks. tests/trace knows how it is told.
#include <algorithm>
#include <functional>
#include <memory>
#include <string>
#include <thread>
#include <vector>
namespace {
int *hidden(std::size_t count) { return new int[count]; }
}
namespace shop {
template <typename T> struct Shelf {
    T *add(const T &item) const { return new T(item); }
    Shelf operator+(int count) const { return new int[size_t(count)], *this; }
    bool operator<(const Shelf &) const { return new char != nullptr; }
    operator bool() const { return new short != nullptr; }
    int *operator()(int n) const { return new int(n); }
};
}
static std::vector<int *> *grow(std::vector<int *> *all)
{
    all->push_back(nullptr);
    return all;
}
static void visit(const std::function<void(int)> &call) { call(3); }
int main()
{
    shop::Shelf<std::string> shelf;
    shelf.add("a text that is far too long for a short string");
    (void)(shelf + 3);
    (void)(shelf < shelf);
    (void)static_cast<bool>(shelf);
    shelf(4);
    hidden(3);
    grow(new std::vector<int *>);
    std::vector<int> order = {3, 1, 2};
    std::sort(order.begin(), order.end(), [](int a, int b) { return new long(a), a < b; });
    visit([](int n) { new double(n); });
    std::thread worker([] { new std::string("another text that is too long for it"); });
    worker.join();
}
