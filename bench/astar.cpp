// A path by A*: octile distances, a binary heap, and all memory taken before the search.
// Run: astar FILE COUNT          prints the moves and the ends of the paths between COUNT pairs of random cells
//      astar FILE SX SY GX GY    searches one path, inside the function find_path
#include "rows.hpp"

#include <algorithm>

struct Open {
    uint64_t least;
    uint16_t place;
    bool operator<(const Open& other) const { return other.least < least; }
};

class Search {
public:
    explicit Search(const Drawn& map)
        : cells_(map.cells), near_(near_of(cells_)), costs_(cells_.size()), met_(cells_.size()), moves_(cells_.size()) {
        open_.reserve(8 * cells_.size());
    }

    // How many moves the path has. The cells are one component, so there is one.
    size_t moves_to(uint16_t start, uint16_t goal) {
        search_++;
        open_.clear();
        reach(start, 0, 0, goal);
        for (;;) {
            const Open next = open_.front();
            std::pop_heap(open_.begin(), open_.end());
            open_.pop_back();
            const uint16_t at = next.place;
            if (at == goal) return moves_[at];
            if (next.least != costs_[at] + ahead(at, goal)) continue;
            for (int m = 0; m < 8; m++) {
                const uint16_t to = near_[at][m];
                if (to == cells_.size()) continue;
                const uint64_t cost = costs_[at] + (m % 2 ? DIAGONAL : STRAIGHT);
                if (met_[to] != search_ || cost < costs_[to]) reach(to, cost, moves_[at] + 1, goal);
            }
        }
    }

    const std::vector<Cell>& cells() const { return cells_; }

private:
    uint64_t ahead(uint16_t from, uint16_t goal) const {
        const uint64_t across = std::abs(cells_[from].x - cells_[goal].x);
        const uint64_t down = std::abs(cells_[from].y - cells_[goal].y);
        return STRAIGHT * std::max(across, down) + (DIAGONAL - STRAIGHT) * std::min(across, down);
    }

    void reach(uint16_t place, uint64_t cost, uint32_t moves, uint16_t goal) {
        met_[place] = search_;
        costs_[place] = cost;
        moves_[place] = moves;
        open_.push_back(Open{cost + ahead(place, goal), place});
        std::push_heap(open_.begin(), open_.end());
    }

    const std::vector<Cell>& cells_;
    std::vector<Edges> near_;
    std::vector<uint64_t> costs_;
    std::vector<uint32_t> met_, moves_;
    std::vector<Open> open_;
    uint32_t search_ = 0;
};

extern "C" __attribute__((noinline)) size_t find_path(Search& search, uint16_t start, uint16_t goal) {
    return search.moves_to(start, goal);
}

static void print_some(Search& search, int count) {
    const std::vector<Cell>& cells = search.cells();
    uint64_t state = 1;
    auto draw = [&] {
        state = state * 6364136223846793005u + 1442695040888963407u;
        return uint16_t((state >> 33) % cells.size());
    };
    for (int number = 0; number < count; number++) {
        const uint16_t start = draw(), goal = draw();
        const Cell from = cells[start], to = cells[goal];
        printf("%zu %d %d %d %d\n", find_path(search, start, goal), from.x, from.y, to.x, to.y);
    }
}

static uint16_t place_of(const std::vector<Cell>& cells, const char* x, const char* y) {
    for (size_t i = 0; i < cells.size(); i++)
        if (cells[i].x == atoi(x) && cells[i].y == atoi(y)) return uint16_t(i);
    exit(2);
}

int main(int argc, char** argv) {
    if (argc != 3 && argc != 6) return 2;
    Drawn map(argv[1]);
    Search search(map);
    if (argc == 3) {
        print_some(search, atoi(argv[2]));
    } else {
        const uint16_t start = place_of(map.cells, argv[2], argv[3]), goal = place_of(map.cells, argv[4], argv[5]);
        printf("%zu\n", find_path(search, start, goal));
    }
}
