// Threads that take and free memory all the time, until a line on standard input ends them. Another
// line plants sixteen blocks of 4,004 bytes.
#include <atomic>
#include <cstdio>
#include <cstring>
#include <map>
#include <memory>
#include <string>
#include <thread>
#include <vector>

static std::atomic<bool> ends{false};
static std::atomic<unsigned> wanted{0}, done{0};
static int *kept[16];

static void plant()
{
    for (int *&block : kept) {
        block = new int[1001];
    }
}

static void work(int number)
{
    std::map<unsigned, std::string> words;
    for (unsigned turn = 0; !ends; turn++) {
        words[turn % 100] = std::string(turn % 200, 'x');
        std::unique_ptr<char[]> room(new char[1 + turn % 3000]);
        if (number == 0 && done < wanted) {
            plant();
            done++;
        }
    }
}

int main()
{
    std::vector<std::thread> threads;
    for (int k = 0; k < 3; k++) {
        threads.emplace_back(work, k);
    }
    std::puts("ready");
    std::fflush(stdout);
    // Nothing waits here: each thread computes.
    threads.emplace_back([] {
        char line[100];
        while (std::fgets(line, sizeof line, stdin) != nullptr && std::strcmp(line, "end\n") != 0) {
            for (unsigned was = done, order = wanted = was + 1; done < order;) {
                std::this_thread::yield();
            }
            std::printf("done %s", line);
            std::fflush(stdout);
        }
        ends = true;
    });
    for (std::thread &thread : threads) {
        thread.join();
    }
    std::puts("ended");
    return 3;
}
