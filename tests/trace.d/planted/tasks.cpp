// Threads, exceptions and inlined functions of C++.
#include <future>
#include <stdexcept>
#include <string>
#include <thread>
#include <vector>

static void *volatile last;

struct Task {
    char room[72];
};

static inline Task *make_task()
{
    return new Task; // planted 720 in 10: make_task
}

template <typename Step> static void each(int count, Step step)
{
    for (int k = 0; k < count; k++)
        step(k);
}

class Failing {
public:
    explicit Failing(int number) : kept(new char[444]) // planted 444 in 1: Failing::Failing
    {
        last = kept;
        if (number > 0)
            throw std::runtime_error("failing");
    }
    ~Failing() { delete[] kept; }

private:
    char *kept;
};

static int fails(int number)
{
    try {
        Failing failing(number);
    } catch (const std::exception &) {
        return 1;
    }
    return 0;
}

int main(int count, char **)
{
    std::vector<std::thread> threads;
    for (int k = 0; k < 2; k++)
        threads.emplace_back([] { each(5, [](int) { last = make_task(); }); });
    for (std::thread &thread : threads)
        thread.join();
    auto length = std::async(std::launch::async, [] {
        // planted 24 in 1: main::{lambda#2}::operator() or operator()
        // planted 64 in 1: main::{lambda#2}::operator() or operator()
        auto *words = new std::vector<std::string>(2);
        // planted 201 in 1: main::{lambda#2}::operator() or operator()
        (*words)[1].assign(200, 'y');
        last = words;
        return words->size();
    });
    return length.get() == 2 && fails(count) ? 0 : 1;
}
