// A program with leaks of C++: each marked line leaks what `new` gave.
#include <map>
#include <memory>
#include <stdexcept>
#include <string>
#include <vector>

struct Item {
    std::string name;
    double price = 0;
};

struct alignas(128) Wide {
    double numbers[16] = {};
};

static Item *make_item(const std::string &name)
{
    Item *item = new Item; // leak
    item->name = name;
    return item;
}

static int *make_numbers(std::size_t count)
{
    return new int[count](); // leak
}

static Wide *make_wide()
{
    return new Wide; // leak
}

static void fill(std::map<int, std::string> &shelf)
{
    for (int k = 0; k < 5; k++)
        shelf[k] = "short"; // leak
}

static void fail(int number)
{
    std::unique_ptr<Item> kept(new Item);
    Item *lost = new Item; // leak
    if (number > 0)
        throw std::runtime_error("a text that is far too long for a short string"
                                 + std::to_string(number));
    delete lost;
}

int main()
{
    make_item("apple");
    make_numbers(10);
    make_wide();
    fill(*new std::map<int, std::string>); // leak
    std::vector<int> numbers;
    for (int k = 0; k < 100; k++)
        numbers.push_back(k);
    try {
        fail(1);
    } catch (const std::exception &) {
        return numbers.size() == 100 ? 0 : 1;
    }
    return 1;
}
