// Paths in C++ with threads: eight threads ask one image for paths while a ninth bakes another and swaps it in. Prints
// what `./path_server path MAP SX SY GX GY` prints, from the image that was swapped in.
//
//   c++ -std=c++17 -pthread -Iinclude examples/threads.cpp release/pathdb/libpathdb.a -o threads
//   ./threads maps/tutorial.map 2 2 37 17
#include "pathdb.hpp"

#include <atomic>
#include <cstdio>
#include <cstdlib>
#include <fstream>
#include <iostream>
#include <iterator>
#include <memory>
#include <mutex>
#include <thread>

namespace {

// The image that all threads ask. A thread that has taken it may go on reading it after another was swapped in.
class shelf {
public:
    std::shared_ptr<const pathdb::image> take() const
    {
        const std::lock_guard<std::mutex> turn(mutex_);
        return image_;
    }

    void put(std::shared_ptr<const pathdb::image> image)
    {
        const std::lock_guard<std::mutex> turn(mutex_);
        image_.swap(image);
    }

private:
    mutable std::mutex mutex_;
    std::shared_ptr<const pathdb::image> image_;
};

std::shared_ptr<const pathdb::image> baked(const std::string &map, pathdb::order by)
{
    auto image = std::make_shared<pathdb::image>();
    pathdb::baked told;
    const pathdb::status ended = image->bake(map, by, told, 1 << 12);
    if (ended == pathdb::status::done) return image;
    std::cerr << "threads: " << pathdb::text(ended) << ", line " << told.line << '\n';
    std::exit(1);
}

// Asks for paths until it is told to stop, and counts those whose moves are not as many as their cost says.
void ask(const shelf &images, const std::atomic<bool> &stop, unsigned seed, std::atomic<unsigned> &wrong)
{
    std::vector<std::uint8_t> moves;
    while (!stop) {
        const auto image = images.take();
        const pathdb::view view = image->view();
        const pathdb::facts facts = view.facts();
        for (int turn = 0; turn < 64; turn++) {
            const auto below = [&seed](std::uint32_t limit) {
                seed = seed * 1664525u + 1013904223u;
                return static_cast<std::uint16_t>((seed >> 16) % limit);
            };
            const pathdb::cell start = {below(facts.width), below(facts.height)};
            const pathdb::cell goal = {below(facts.width), below(facts.height)};
            pathdb::cost cost = {0, 0};
            const pathdb::status told = view.cost(start, goal, cost);
            if (view.path(start, goal, moves) != told || moves.size() != cost.straight + cost.diagonal) wrong++;
        }
    }
}

int print_path(const pathdb::view &view, pathdb::cell start, pathdb::cell goal)
{
    static const char *const names[8] = {"N", "NE", "E", "SE", "S", "SW", "W", "NW"};
    pathdb::cost cost = {0, 0};
    std::vector<std::uint8_t> moves;
    const pathdb::status told = view.cost(start, goal, cost);
    if (told == pathdb::status::unreachable) {
        std::puts("unreachable");
        return 0;
    }
    if (told != pathdb::status::done || view.path(start, goal, moves) != told) {
        std::cerr << "threads: " << pathdb::text(told) << '\n';
        return 1;
    }
    const auto micro = static_cast<unsigned long long>((cost.straight + 1.4142135623730951 * cost.diagonal) * 1e6);
    std::printf("cost %u %u\nlength %llu.%06llu\nmoves", cost.straight, cost.diagonal, micro / 1000000,
                micro % 1000000);
    for (const std::uint8_t move : moves) std::printf(" %s", names[move]);
    std::putchar('\n');
    return 0;
}

std::uint16_t number(const char *word) { return static_cast<std::uint16_t>(std::atoi(word)); }

} // namespace

int main(int argc, char **argv)
{
    if (argc != 6) {
        std::cerr << "usage: threads MAP SX SY GX GY\n";
        return 1;
    }
    std::ifstream file(argv[1], std::ios::binary);
    const std::string map((std::istreambuf_iterator<char>(file)), std::istreambuf_iterator<char>());
    shelf images;
    images.put(baked(map, pathdb::order::dfs));
    std::atomic<bool> stop(false);
    std::atomic<unsigned> wrong(0);
    std::vector<std::thread> threads;
    for (unsigned seed = 1; seed <= 8; seed++)
        threads.emplace_back([&, seed] { ask(images, stop, seed, wrong); });
    std::thread([&] { images.put(baked(map, pathdb::order::rows)); }).join();
    stop = true;
    for (std::thread &thread : threads) thread.join();
    if (wrong != 0) {
        std::cerr << "threads: " << wrong << " paths are not as long as their cost\n";
        return 1;
    }
    return print_path(images.take()->view(), {number(argv[2]), number(argv[3])}, {number(argv[4]), number(argv[5])});
}
