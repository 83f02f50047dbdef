// The interface of the Grid-Based Path Planning Competition, for C++: a map is preprocessed into a file, the file is
// prepared for search, and paths are asked for. Prints what `./path_server path MAP SX SY GX GY` prints.
//
//   c++ -std=c++17 -Iinclude examples/competition.cpp release/pathdb/libpathdb.a -o competition
//   ./competition maps/tutorial.map 2 2 37 17
//
// For an entry put the competition's Entry.h in place of the declarations, and leave out what follows GetName.
#include "pathdb.hpp"

#include <cstdint>
#include <cstdio>
#include <cstdlib>
#include <fstream>
#include <iostream>
#include <string>
#include <unistd.h>
#include <vector>

struct xyLoc {
    std::int16_t x;
    std::int16_t y;
};
void PreprocessMap(std::vector<bool> &bits, int width, int height, const char *filename);
void *PrepareForSearch(std::vector<bool> &bits, int width, int height, const char *filename);
bool GetPath(void *data, xyLoc s, xyLoc g, std::vector<xyLoc> &path);
const char *GetName();

namespace {

// What GetPath is handed: the image, and room for the moves of a path.
struct prepared {
    pathdb::image image;
    std::vector<std::uint8_t> moves;
};

pathdb::cell cell_of(xyLoc place)
{
    return {static_cast<std::uint16_t>(place.x), static_cast<std::uint16_t>(place.y)};
}

[[noreturn]] void fail(const std::string &why)
{
    std::cerr << "competition: " << why << '\n';
    std::exit(1);
}

} // namespace

// Bakes the image of a map, of which `bits` has the passable cells row by row, and writes it to a file.
void PreprocessMap(std::vector<bool> &bits, int width, int height, const char *filename)
{
    const std::vector<std::uint8_t> cells(bits.begin(), bits.end());
    pathdb::image image;
    pathdb::baked told;
    const pathdb::status ended = image.bake(static_cast<std::uint32_t>(width), static_cast<std::uint32_t>(height),
                                            cells, pathdb::order::rows, told);
    if (ended != pathdb::status::done) fail(pathdb::text(ended));
    std::ofstream file(filename, std::ios::binary);
    file.write(reinterpret_cast<const char *>(image.words().data()),
               static_cast<std::streamsize>(4 * image.words().size()));
    if (!file.flush()) fail(std::string(filename) + " cannot be written");
}

// Reads the image from the file and checks it.
void *PrepareForSearch(std::vector<bool> &, int, int, const char *filename)
{
    std::ifstream file(filename, std::ios::binary | std::ios::ate);
    const std::streamoff bytes = file ? static_cast<std::streamoff>(file.tellg()) : 0;
    std::vector<std::uint32_t> words(static_cast<std::size_t>(bytes) / 4);
    file.seekg(0);
    if (!file.read(reinterpret_cast<char *>(words.data()), bytes / 4 * 4)) {
        fail(std::string(filename) + " cannot be read");
    }
    auto *made = new prepared;
    std::uint32_t part = 0;
    const pathdb::status ended = made->image.take(std::move(words), part);
    if (ended != pathdb::status::done) fail(pathdb::text(ended));
    made->moves.reserve(PATHDB_LONGEST);
    return made;
}

// Writes the cells of a shortest path, both ends among them; none where there is no path. The path is whole after one
// call, and so this is always true.
bool GetPath(void *data, xyLoc s, xyLoc g, std::vector<xyLoc> &path)
{
    static const int right[8] = {0, 1, 1, 1, 0, -1, -1, -1};
    static const int down[8] = {-1, -1, 0, 1, 1, 1, 0, -1};
    auto *from = static_cast<prepared *>(data);
    path.clear();
    if (from->image.view().path(cell_of(s), cell_of(g), from->moves) != pathdb::status::done) return true;
    path.push_back(s);
    for (const std::uint8_t move : from->moves) {
        s.x = static_cast<std::int16_t>(s.x + right[move]);
        s.y = static_cast<std::int16_t>(s.y + down[move]);
        path.push_back(s);
    }
    return true;
}

const char *GetName() { return "pathdb"; }

namespace {

// Reads the passable cells of a map in the format of MovingAI as the competition does: water is blocked.
std::vector<bool> read_map(const char *name, int &width, int &height)
{
    std::ifstream file(name);
    std::string word, type;
    std::vector<bool> bits;
    if (!(file >> word >> type >> word >> height >> word >> width >> word)) fail(std::string(name) + " is no map");
    while (file >> word)
        for (const char letter : word) bits.push_back(letter == '.' || letter == 'G' || letter == 'S');
    return bits;
}

void print_path(const std::vector<xyLoc> &path)
{
    static const char *const names[3][3] = {{"NW", "N", "NE"}, {"W", "", "E"}, {"SW", "S", "SE"}};
    unsigned cost[2] = {0, 0};
    std::string moves = "moves";
    for (std::size_t at = 1; at < path.size(); at++) {
        const int across = path[at].x - path[at - 1].x, along = path[at].y - path[at - 1].y;
        cost[across != 0 && along != 0]++;
        moves += std::string(" ") + names[along + 1][across + 1];
    }
    const auto micro = static_cast<unsigned long long>((cost[0] + 1.4142135623730951 * cost[1]) * 1e6);
    std::printf("cost %u %u\nlength %llu.%06llu\n%s\n", cost[0], cost[1], micro / 1000000, micro % 1000000,
                moves.c_str());
}

std::int16_t number(const char *word) { return static_cast<std::int16_t>(std::atoi(word)); }

} // namespace

int main(int argc, char **argv)
{
    if (argc != 6) fail("usage: competition MAP SX SY GX GY");
    int width = 0, height = 0;
    std::vector<bool> bits = read_map(argv[1], width, height);
    char name[] = "/tmp/competition.XXXXXX";
    const int made = mkstemp(name);
    if (made < 0) fail("no file in /tmp");
    close(made);
    PreprocessMap(bits, width, height, name);
    void *data = PrepareForSearch(bits, width, height, name);
    std::remove(name);
    std::vector<xyLoc> path;
    while (!GetPath(data, {number(argv[2]), number(argv[3])}, {number(argv[4]), number(argv[5])}, path)) {
    }
    if (path.empty()) std::puts("unreachable");
    else print_path(path);
    delete static_cast<prepared *>(data);
}
