// A game loop on a map with doors that close and open: each path is asked of the library, told or searched, and of two
// searches without a database: jump points and A*.
// Run: doors FILE TICKS CLOSED    FILE is a map of `.` and `@`, with `D` for a door, and so many doors in a hundred are
// closed when it begins; prints how many paths were asked and told
// Counted are the functions told, searched, baked (pathdb_path of the same two cells), jump_points and a_star.
// (Harabor and Grastien 2011, jump points; here for moves that cut no corner)
#include "../include/pathdb.hpp"
#include "grid.hpp"

#include <algorithm>
#include <cstdio>
#include <cstdlib>
#include <fstream>
#include <string>

struct Board {
    int width = 0, height = 0;
    std::vector<uint8_t> free; // now
    std::vector<pathdb_cell> doors;

    explicit Board(const char *name) {
        std::ifstream file(name);
        std::string line;
        for (int header = 0; header < 4; header++) std::getline(file, line);
        while (std::getline(file, line)) {
            width = int(line.size());
            for (int x = 0; x < width; x++) {
                if (line[size_t(x)] == 'D') doors.push_back({uint16_t(x), uint16_t(height)});
                free.push_back(line[size_t(x)] != '@');
            }
            height++;
        }
    }
    bool at(int x, int y) const { return x >= 0 && y >= 0 && x < width && y < height && free[size_t(y * width + x)]; }
    int place(pathdb_cell cell) const { return cell.y * width + cell.x; }
};

// A best-first search over the places of a board, with a heap whose keys are never lowered.
class Search {
public:
    explicit Search(const Board &board)
        : board_(board), costs_(board.free.size()), parents_(board.free.size()), met_(board.free.size()) {
        open_.reserve(8 * board.free.size());
    }

    // what a shortest path costs, as a key; NO_KEY where there is none
    uint32_t a_star(int start, int goal) {
        begin(start, goal);
        for (int at; (at = next()) >= 0;) {
            if (at == goal) return costs_[size_t(at)];
            const int x = at % board_.width, y = at / board_.width;
            for (int move = 0; move < 8; move++)
                if (is_legal(x, y, DX[move], DY[move])) reach(at, x + DX[move], y + DY[move]);
        }
        return NO_KEY;
    }

    uint32_t jump_points(int start, int goal) {
        begin(start, goal);
        for (int at; (at = next()) >= 0;) {
            if (at == goal) return costs_[size_t(at)];
            const int x = at % board_.width, y = at / board_.width, from = parents_[size_t(at)];
            for (int move = 0; move < 8; move++) {
                if (from >= 0 && !is_natural(x - from % board_.width, y - from / board_.width, DX[move], DY[move]))
                    continue;
                const int to = jump(x, y, DX[move], DY[move]);
                if (to >= 0) reach(at, to % board_.width, to / board_.width);
            }
        }
        return NO_KEY;
    }

private:
    struct Open {
        uint32_t least;
        int place;
        bool operator<(const Open &other) const { return other.least < least; }
    };

    static uint32_t apart(int across, int down) {
        across = std::abs(across), down = std::abs(down);
        return STRAIGHT * uint32_t(std::max(across, down)) + (DIAGONAL - STRAIGHT) * uint32_t(std::min(across, down));
    }

    uint32_t between(int from, int to) const {
        return apart(from % board_.width - to % board_.width, from / board_.width - to / board_.width);
    }

    bool is_legal(int x, int y, int dx, int dy) const {
        return board_.at(x + dx, y + dy) && board_.at(x + dx, y) && board_.at(x, y + dy);
    }

    // whether a move is looked at from where a path came by so many columns and rows
    static bool is_natural(int across, int down, int dx, int dy) {
        const int px = (across > 0) - (across < 0), py = (down > 0) - (down < 0);
        if (px != 0 && py != 0) return (dx == px || dx == 0) && (dy == py || dy == 0);
        if (px != 0) return dx == px || (dx == 0 && dy != 0);
        return dy == py || (dy == 0 && dx != 0);
    }

    // the first jump point that a direction leads to; below 0 where there is none
    int jump(int x, int y, int dx, int dy) const {
        for (;;) {
            if (!is_legal(x, y, dx, dy)) return -1;
            x += dx, y += dy;
            if (y * board_.width + x == goal_) return goal_;
            if (dx != 0 && dy != 0) {
                if (jump(x, y, dx, 0) >= 0 || jump(x, y, 0, dy) >= 0) return y * board_.width + x;
            } else if (dx != 0) {
                for (int side = -1; side <= 1; side += 2)
                    if (board_.at(x, y + side) && !board_.at(x - dx, y + side)) return y * board_.width + x;
            } else {
                for (int side = -1; side <= 1; side += 2)
                    if (board_.at(x + side, y) && !board_.at(x + side, y - dy)) return y * board_.width + x;
            }
        }
    }

    void begin(int start, int goal) {
        search_++;
        open_.clear();
        goal_ = goal;
        met_[size_t(start)] = search_;
        costs_[size_t(start)] = 0;
        parents_[size_t(start)] = -1;
        open_.push_back({between(start, goal), start});
    }

    int next() {
        while (!open_.empty()) {
            const Open least = open_.front();
            std::pop_heap(open_.begin(), open_.end());
            open_.pop_back();
            if (least.least == costs_[size_t(least.place)] + between(least.place, goal_)) return least.place;
        }
        return -1;
    }

    void reach(int from, int x, int y) {
        const int to = y * board_.width + x;
        const uint32_t cost = costs_[size_t(from)] + between(from, to);
        if (met_[size_t(to)] == search_ && costs_[size_t(to)] <= cost) return;
        met_[size_t(to)] = search_;
        costs_[size_t(to)] = cost;
        parents_[size_t(to)] = from;
        open_.push_back({cost + between(to, goal_), to});
        std::push_heap(open_.begin(), open_.end());
    }

    const Board &board_;
    std::vector<uint32_t> costs_;
    std::vector<int> parents_;
    std::vector<uint32_t> met_;
    std::vector<Open> open_;
    uint32_t search_ = 0;
    int goal_ = 0;
};

struct Answer {
    pathdb::status ended;
    uint32_t length;
    std::vector<uint8_t> moves = std::vector<uint8_t>(PATHDB_LONGEST);
};

extern "C" {
__attribute__((noinline)) void told(const pathdb::live &live, pathdb_cell from, pathdb_cell to, Answer &answer) {
    answer.ended = live.path(from, to, answer.moves.data(), answer.moves.size(), answer.length);
}
__attribute__((noinline)) void searched(const pathdb::live &live, std::vector<uint32_t> &scratch, pathdb_cell from,
                                        pathdb_cell to, Answer &answer) {
    const pathdb_search of = {from, to, UINT32_MAX};
    answer.ended = live.search(of, scratch, answer.moves.data(), answer.moves.size(), answer.length);
}
__attribute__((noinline)) void baked(const pathdb::view &view, pathdb_cell from, pathdb_cell to, Answer &answer) {
    answer.ended = view.path(from, to, answer.moves.data(), answer.moves.size(), answer.length);
}
__attribute__((noinline)) uint32_t jump_points(Search &search, int start, int goal) {
    return search.jump_points(start, goal);
}
__attribute__((noinline)) uint32_t a_star(Search &search, int start, int goal) { return search.a_star(start, goal); }
}

static uint32_t below(uint32_t limit) {
    static uint64_t state = 1;
    state = state * 6364136223846793005u + 1442695040888963407u;
    return uint32_t(state >> 33) % limit;
}

struct Unit {
    pathdb_cell at, goal;
    std::vector<uint8_t> moves; // those that are left, the next one last
};

int main(int argc, char **argv) {
    if (argc != 4) return 2;
    Board board(argv[1]);
    pathdb::image image;
    pathdb::baked by;
    const pathdb::status ended =
        image.bake(uint32_t(board.width), uint32_t(board.height), board.free, pathdb::order::dfs, by);
    if (ended != pathdb::status::done) return 1;
    pathdb::live live(image.view());
    std::vector<uint32_t> scratch(live.search_words());
    Search search(board);
    Answer answer, plain;
    auto any_cell = [&] {
        for (;;) {
            const pathdb_cell cell = {uint16_t(below(uint32_t(board.width))), uint16_t(below(uint32_t(board.height)))};
            if (board.at(cell.x, cell.y)) return cell;
        }
    };
    auto turn = [&](pathdb_cell door) {
        const bool close = board.free[size_t(board.place(door))];
        board.free[size_t(board.place(door))] = !close;
        live.set(door, close);
    };
    std::vector<Unit> units(200);
    for (Unit &unit : units) unit.at = any_cell(), unit.goal = any_cell();
    auto is_wanted = [&](pathdb_cell cell) {
        for (const Unit &unit : units)
            if (board.place(unit.at) == board.place(cell) || board.place(unit.goal) == board.place(cell)) return true;
        return false;
    };
    for (const pathdb_cell door : board.doors)
        if (int(below(100)) < atoi(argv[3]) && !is_wanted(door)) turn(door);
    unsigned long asked = 0, free = 0, none = 0;
    for (int tick = 0; tick < atoi(argv[2]); tick++) {
        if (tick % 20 == 0) {
            const pathdb_cell door = board.doors[below(uint32_t(board.doors.size()))];
            if (!is_wanted(door)) turn(door);
            for (Unit &unit : units) unit.moves.clear(); // all ask anew
        }
        for (Unit &unit : units) {
            if (unit.moves.empty()) {
                asked++;
                told(live, unit.at, unit.goal, answer);
                baked(image.view(), unit.at, unit.goal, plain);
                free += answer.ended == pathdb::status::done;
                if (answer.ended == pathdb::status::stale) searched(live, scratch, unit.at, unit.goal, answer);
                const int start = board.place(unit.at), goal = board.place(unit.goal);
                const uint32_t jumped = jump_points(search, start, goal), starred = a_star(search, start, goal);
                uint32_t cost = answer.ended == pathdb::status::done ? 0 : NO_KEY;
                for (uint32_t step = 0; cost != NO_KEY && step < answer.length; step++)
                    cost += answer.moves[step] % 2 ? DIAGONAL : STRAIGHT;
                if (cost != jumped || cost != starred) {
                    printf("wrong: %u, jump points %u, A* %u\n", cost, jumped, starred);
                    return 1;
                }
                none += cost == NO_KEY;
                if (cost == NO_KEY || cost == 0)
                    unit.goal = any_cell();
                else
                    unit.moves.assign(answer.moves.rend() - answer.length, answer.moves.rend());
                continue;
            }
            const uint8_t move = unit.moves.back();
            unit.moves.pop_back();
            unit.at.x = uint16_t(unit.at.x + DX[move]);
            unit.at.y = uint16_t(unit.at.y + DY[move]);
            if (unit.moves.empty()) unit.goal = any_cell();
        }
    }
    printf("asked %lu told %lu unreachable %lu\n", asked, free, none);
}
