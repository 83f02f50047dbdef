// The judge of tests/load.py: a plain model of maps, optimal paths and rows of runs, which shares nothing with the
// program.
// Build: g++ -O2 -pthread -o judge tests/load.cpp
// Run: judge < LOG
// LOG has `map WIDTH HEIGHT` and the rows, `edits N` and the edits `X Y FREE` by their numbers, and then a line a reply:
//      query VERSION SX SY GX GY path STRAIGHT DIAGONAL MOVES | unreachable | refused BLOCKED GOAL
//      status VERSION CELLS COMPONENTS RUNS
//      published SEEN VERSION BUILT KEPT
// MOVES are the moves' digits behind a point. SEEN is the newest version that the client had seen before it asked.
// Prints the first replies that are wrong, and how many versions and searches it took. Status: 0 all are right; 1 not.
#include <algorithm>
#include <atomic>
#include <cstdint>
#include <cstdio>
#include <iostream>
#include <map>
#include <mutex>
#include <set>
#include <sstream>
#include <string>
#include <thread>
#include <vector>

// the moves, clockwise from north; the odd ones are diagonal
const int DX[8] = {0, 1, 1, 1, 0, -1, -1, -1};
const int DY[8] = {-1, -1, 0, 1, 1, 1, 0, -1};

// A cost as one number. 47,321 to 33,461 is a convergent of √2, so of two paths of fewer than 33,461 moves the shorter
// one has the lower number, and numbers are equal only where both counts are.
const uint32_t STRAIGHT = 33461, DIAGONAL = 47321, FAR = UINT32_MAX;

struct Edit {
    int x, y;
    bool free;
};

struct Map {
    int width, height;
    std::vector<uint8_t> free;
    bool inside(int x, int y) const { return 0 <= x && x < width && 0 <= y && y < height; }
    bool passable(int x, int y) const { return inside(x, y) && free[y * width + x]; }
    // Both ends are passable and, of a diagonal move, both cells beside it.
    bool legal(int x, int y, int m) const {
        if (!passable(x, y) || !passable(x + DX[m], y + DY[m])) return false;
        return m % 2 == 0 || (passable(x + DX[m], y) && passable(x, y + DY[m]));
    }
};

// For each cell the mask of its legal moves.
static std::vector<uint8_t> masks_of(const Map& map) {
    std::vector<uint8_t> masks(map.free.size(), 0);
    for (int at = 0; at < int(masks.size()); at++)
        for (int m = 0; m < 8; m++)
            if (map.legal(at % map.width, at / map.width, m)) masks[at] |= 1 << m;
    return masks;
}

// The least costs from a cell, and for each cell the moves that begin an optimal path to it.
struct Search {
    std::vector<uint32_t> cost;
    std::vector<uint8_t> first;

    Search(const Map& map, const std::vector<uint8_t>& masks, int start)
        : cost(masks.size(), FAR), first(masks.size(), 0) {
        int steps[8];
        for (int m = 0; m < 8; m++) steps[m] = DY[m] * map.width + DX[m];
        // the cells that a straight step reached, and those that a diagonal one did, each with its cost: in both the costs
        // rise, and the lower one of the two fronts is next
        std::vector<std::pair<uint32_t, int>> reached[2];
        size_t front[2] = {0, 0};
        for (auto& queue : reached) queue.reserve(masks.size());
        auto next_cost = [&](int queue) { return front[queue] < reached[queue].size() ? reached[queue][front[queue]].first : FAR; };
        cost[start] = 0;
        first[start] = 255;
        reached[0].push_back({0, start});
        for (;;) {
            int queue = next_cost(1) < next_cost(0);
            if (next_cost(queue) == FAR) return;
            auto [least, at] = reached[queue][front[queue]++];
            if (least != cost[at]) continue;
            for (int left = masks[at]; left; left &= left - 1) {
                int m = __builtin_ctz(left), to = at + steps[m];
                uint32_t next = least + (m % 2 ? DIAGONAL : STRAIGHT);
                uint8_t begins = at == start ? 1 << m : first[at];
                if (next == cost[to]) first[to] |= begins;
                if (next >= cost[to]) continue;
                cost[to] = next;
                first[to] = begins;
                reached[m % 2].push_back({next, to});
            }
        }
    }
};

// The components, each a list of cells row by row.
static std::set<std::vector<int>> components_of(const Map& map) {
    std::set<std::vector<int>> components;
    std::vector<uint8_t> found(map.free.size(), 0);
    for (int least = 0; least < int(map.free.size()); least++) {
        if (!map.free[least] || found[least]) continue;
        std::vector<int> cells{least};
        found[least] = 1;
        for (size_t i = 0; i < cells.size(); i++)
            for (int m = 0; m < 8; m += 2) {
                int at = cells[i], to = at + DY[m] * map.width + DX[m];
                if (!map.legal(at % map.width, at / map.width, m) || found[to]) continue;
                found[to] = 1;
                cells.push_back(to);
            }
        std::sort(cells.begin(), cells.end());
        components.insert(cells);
    }
    return components;
}

// How many runs the rows of a map have: a run ends where the next cell's moves have none in common with those before.
static uint64_t runs_of(const Map& map, const std::vector<uint8_t>& masks) {
    uint64_t runs = 0;
    for (const std::vector<int>& cells : components_of(map))
        for (int source : cells) {
            Search search(map, masks, source);
            uint8_t common = 0;
            for (int cell : cells) {
                common &= search.first[cell];
                if (common) continue;
                runs++;
                common = search.first[cell];
            }
        }
    return runs;
}

struct Log {
    Map start;
    std::vector<Edit> edits;
    std::map<int, std::vector<std::string>> replies;  // by version

    Map map_at(int version) const {
        Map map = start;
        for (int i = 0; i < version; i++) map.free[edits[i].y * map.width + edits[i].x] = edits[i].free;
        return map;
    }
};

// Judges the replies of one version.
struct Judge {
    const Log& log;
    const int version;
    const Map map;
    const std::vector<uint8_t> masks;
    std::map<int, Search> searches;
    uint64_t runs = 0;

    Judge(const Log& log, int version) : log(log), version(version), map(log.map_at(version)), masks(masks_of(map)) {}

    const Search& from(int start) {
        auto found = searches.find(start);
        return found != searches.end() ? found->second : searches.emplace(start, Search(map, masks, start)).first->second;
    }

    bool is_right(const std::string& reply) {
        std::istringstream words(reply);
        std::string kind;
        int named;
        words >> kind;
        if (kind == "published") return is_published(words);
        words >> named;
        return kind == "query" ? is_answer(words) : is_status(words);
    }

    bool is_answer(std::istream& words) {
        int sx, sy, gx, gy;
        std::string answer;
        words >> sx >> sy >> gx >> gy >> answer;
        bool start = map.passable(sx, sy), goal = map.passable(gx, gy);
        if (answer == "refused") {
            bool blocked, of_goal;
            words >> blocked >> of_goal;
            bool inside = of_goal ? map.inside(gx, gy) : map.inside(sx, sy);
            return of_goal == start && !(of_goal ? goal : start) && blocked == inside;
        }
        if (!start || !goal) return false;
        uint32_t least = from(sy * map.width + sx).cost[gy * map.width + gx];
        if (answer == "unreachable") return least == FAR;
        uint32_t straight, diagonal, counted[2] = {0, 0};
        std::string moves;
        words >> straight >> diagonal >> moves;
        int x = sx, y = sy;
        for (char digit : moves.substr(1)) {
            int m = digit - '0';
            if (m < 0 || m > 7 || !map.legal(x, y, m)) return false;
            counted[m % 2]++;
            x += DX[m];
            y += DY[m];
        }
        return x == gx && y == gy && counted[0] == straight && counted[1] == diagonal &&
               straight * STRAIGHT + diagonal * DIAGONAL == least;
    }

    bool is_status(std::istream& words) {
        uint64_t cells, components, told;
        words >> cells >> components >> told;
        if (!runs) runs = runs_of(map, masks);
        return cells == size_t(std::count(map.free.begin(), map.free.end(), 1)) &&
               components == components_of(map).size() && told == runs;
    }

    // The components that were kept are those of a version between what the client had seen and this one.
    bool is_published(std::istream& words) {
        int seen, named;
        size_t built, kept;
        words >> seen >> named >> built >> kept;
        std::set<std::vector<int>> components = components_of(map);
        if (built + kept != size_t(std::count(map.free.begin(), map.free.end(), 1))) return false;
        for (int former = version - 1; former >= seen; former--) {
            std::set<std::vector<int>> before = components_of(log.map_at(former));
            size_t common = 0;
            for (const std::vector<int>& cells : components)
                if (before.count(cells)) common += cells.size();
            if (common == kept) return true;
        }
        return false;
    }
};

static Log read_log(std::istream& in) {
    Log log;
    std::string word, line;
    size_t edits;
    in >> word >> log.start.width >> log.start.height;
    for (int y = 0; y < log.start.height; y++) {
        in >> line;
        for (char cell : line) log.start.free.push_back(cell == '.');
    }
    in >> word >> edits;
    for (size_t i = 0; i < edits; i++) {
        Edit edit;
        in >> edit.x >> edit.y >> edit.free;
        log.edits.push_back(edit);
    }
    std::getline(in, line);
    while (std::getline(in, line)) {
        std::istringstream words(line);
        int version;
        words >> word >> version;
        if (word == "published") words >> version;
        log.replies[version].push_back(line);
    }
    return log;
}

int main() {
    std::ios::sync_with_stdio(false);
    Log log = read_log(std::cin);
    std::vector<int> versions;
    for (const auto& entry : log.replies) versions.push_back(entry.first);
    std::atomic<size_t> next{0}, judged{0}, wrong{0}, searches{0};
    std::mutex printing;
    auto work = [&] {
        for (size_t i; (i = next++) < versions.size();) {
            bool known = 0 <= versions[i] && size_t(versions[i]) <= log.edits.size();
            Judge judge(log, known ? versions[i] : 0);
            for (const std::string& reply : log.replies.at(versions[i])) {
                judged++;
                if (known && judge.is_right(reply)) continue;
                std::lock_guard<std::mutex> lock(printing);
                if (wrong++ < 5) printf("wrong: %s\n", reply.c_str());
            }
            searches += judge.searches.size();
        }
    };
    std::vector<std::thread> threads;
    for (unsigned i = 0; i < std::max(1u, std::thread::hardware_concurrency()); i++) threads.emplace_back(work);
    for (std::thread& thread : threads) thread.join();
    printf("%zu replies of %zu versions judged by %zu searches, %zu wrong\n", judged.load(), versions.size(),
           searches.load(), wrong.load());
    return wrong ? 1 : 0;
}
