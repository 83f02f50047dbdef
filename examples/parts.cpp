// An image that is baked in parts, in C++: by four threads, in one part and in several, beside the image of one call.
// Prints what `./path_server path MAP SX SY GX GY` prints, from the image of the parts.
//
//   c++ -std=c++17 -pthread -Iinclude examples/parts.cpp release/pathdb/libpathdb.a -o parts
//   ./parts maps/tutorial.map 2 2 37 17
#include "pathdb.hpp"

#include <atomic>
#include <cstdio>
#include <cstdlib>
#include <fstream>
#include <iostream>
#include <string>
#include <thread>

namespace {

struct map {
    std::uint32_t width = 0;
    std::uint32_t height = 0;
    std::vector<std::uint8_t> cells;
};

// Reads a map in the format of MovingAI, of whose header only the sides are looked at.
map read_map(const char *name)
{
    map found;
    std::ifstream file(name);
    std::string line;
    while (std::getline(file, line) && line != "map") {
        if (line.rfind("width ", 0) == 0) found.width = static_cast<std::uint32_t>(std::atoi(line.c_str() + 6));
        if (line.rfind("height ", 0) == 0) found.height = static_cast<std::uint32_t>(std::atoi(line.c_str() + 7));
    }
    const std::string land = ".GS";
    while (std::getline(file, line))
        for (const char letter : line)
            found.cells.push_back(letter == 'W' ? 2 : land.find(letter) != std::string::npos ? 1 : 0);
    return found;
}

// The jobs of a game are done by its own threads; here four take the one that is next.
struct four_threads {
    template <typename Job> void operator()(std::size_t count, Job job) const
    {
        std::atomic<std::size_t> next(0);
        std::vector<std::thread> threads;
        for (int k = 0; k < 4; k++)
            threads.emplace_back([&] {
                for (std::size_t number = next++; number < count; number = next++) job(number);
            });
        for (std::thread &thread : threads) thread.join();
    }
};

int fail(const std::string &why)
{
    std::cerr << "parts: " << why << '\n';
    return 1;
}

int print_path(const pathdb::view &view, pathdb::cell start, pathdb::cell goal)
{
    static const char *const names[8] = {"N", "NE", "E", "SE", "S", "SW", "W", "NW"};
    pathdb::cost cost = {0, 0};
    std::vector<std::uint8_t> moves;
    const pathdb::status told = view.cost(start, goal, cost);
    if (told == pathdb::status::unreachable) {
        std::puts("unreachable");
        return 0;
    }
    if (told != pathdb::status::done || view.path(start, goal, moves) != told) return fail(pathdb::text(told));
    const auto micro = static_cast<unsigned long long>((cost.straight + 1.4142135623730951 * cost.diagonal) * 1e6);
    std::printf("cost %u %u\nlength %llu.%06llu\nmoves", cost.straight, cost.diagonal, micro / 1000000,
                micro % 1000000);
    for (const std::uint8_t move : moves) std::printf(" %s", names[move]);
    std::putchar('\n');
    return 0;
}

std::uint16_t number(const char *word) { return static_cast<std::uint16_t>(std::atoi(word)); }

} // namespace

int main(int argc, char **argv)
{
    if (argc != 6) return fail("usage: parts MAP SX SY GX GY");
    const map given = read_map(argv[1]);
    pathdb::image whole, parts;
    pathdb::baked told;
    for (const pathdb::order by : {pathdb::order::dfs, pathdb::order::rows}) {
        const pathdb::status ended = whole.bake(given.width, given.height, given.cells, by, told);
        if (ended != pathdb::status::done) return fail(pathdb::text(ended));
        // all sources of the map, and so few that there are several parts
        for (const std::uint32_t most : {32768u, 200u}) {
            const pathdb::status joined =
                parts.bake_parts(given.width, given.height, given.cells, by, told, most, four_threads());
            if (joined != pathdb::status::done) return fail(pathdb::text(joined));
            if (parts.words() != whole.words()) return fail("the parts make another image");
        }
    }
    return print_path(parts.view(), {number(argv[2]), number(argv[3])}, {number(argv[4]), number(argv[5])});
}
