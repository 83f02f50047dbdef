// A session of queries over two files: plain twins of ours, which make as many reads and writes, and the client that
// asks. One has the same rows, looks each move up by halving, and walks each path twice, as ours does; the other has a
// table with a byte for each pair of cells, and walks once. talk.cpp times them over pipes, and serve.cpp over connections.
#pragma once
#include "rows.hpp"
#include <algorithm>
#include <cstdio>
#include <cstdlib>
#include <cstring>
#include <fstream>
#include <initializer_list>
#include <memory>
#include <queue>
#include <string>
#include <unistd.h>
#include <utility>
#include <vector>

// ---- maps

inline int print_map(uint32_t side) {
    printf("type octile\nheight %u\nwidth %u\nmap\n", side, side);
    std::vector<uint8_t> cells = made_cells(size_t(side) * side, 1, 7);
    for (uint32_t y = 0; y < side; y++) {
        for (uint32_t x = 0; x < side; x++) putchar(cells[y * side + x] ? '.' : '@');
        putchar('\n');
    }
    return 0;
}

inline Grid read_map(const char *name) {
    std::ifstream file(name);
    std::string word, row;
    Grid grid{};
    file >> word >> word >> word >> grid.height >> word >> grid.width >> word;
    grid.passable.assign(size_t(grid.width) * grid.height, 0);
    for (uint32_t y = 0; y < grid.height; y++) {
        file >> row;
        for (uint32_t x = 0; x < grid.width; x++) grid.passable[y * grid.width + x] = row[x] == '.';
    }
    grid.masks.assign(grid.passable.size(), 0);
    auto free = [&](int x, int y) {
        return 0 <= x && x < int(grid.width) && 0 <= y && y < int(grid.height) && grid.passable[y * grid.width + x];
    };
    for (int y = 0; y < int(grid.height); y++)
        for (int x = 0; x < int(grid.width); x++)
            for (int m = 0; m < 8; m++) {
                bool legal = free(x, y) && free(x + DX[m], y + DY[m]);
                if (m % 2) legal = legal && free(x + DX[m], y) && free(x, y + DY[m]);
                if (legal) grid.masks[y * grid.width + x] |= 1 << m;
            }
    return grid;
}

inline int step(const Grid &grid, uint32_t move) { return DY[move] * int(grid.width) + DX[move]; }

// ---- the table of first moves: a row for each passable cell, with a byte for each goal

struct Table {
    Grid grid;
    std::vector<uint32_t> number, place;
    std::vector<uint8_t> moves;

    explicit Table(Grid map) : grid(std::move(map)), number(grid.passable.size(), NO_KEY) {
        for (uint32_t at = 0; at < grid.passable.size(); at++)
            if (grid.passable[at]) {
                number[at] = place.size();
                place.push_back(at);
            }
        moves.assign(place.size() * place.size(), 8);
        std::vector<uint32_t> cost(grid.passable.size());
        for (uint32_t goal = 0; goal < place.size(); goal++) fill(goal, cost);
    }

    size_t cells() const { return place.size(); }
    uint32_t first_move(uint32_t from, uint32_t to) const { return moves[size_t(number[from]) * place.size() + number[to]]; }

    // the first moves to one goal: costs are the same in both directions
    void fill(uint32_t goal, std::vector<uint32_t> &cost) {
        std::fill(cost.begin(), cost.end(), NO_KEY);
        std::queue<uint32_t> straight, diagonal;
        auto key = [&](std::queue<uint32_t> &cells) { return cells.empty() ? NO_KEY : cost_of[&cells == &diagonal].front(); };
        cost_of[0] = cost_of[1] = {};
        cost[place[goal]] = 0;
        straight.push(place[goal]);
        cost_of[0].push(0);
        while (!straight.empty() || !diagonal.empty()) {
            bool second = key(diagonal) < key(straight);
            std::queue<uint32_t> &cells = second ? diagonal : straight;
            uint32_t at = cells.front(), reached = cost_of[second].front();
            cells.pop();
            cost_of[second].pop();
            if (reached > cost[at]) continue;
            for (int m = 0; m < 8; m++) {
                if (!(grid.masks[at] >> m & 1)) continue;
                uint32_t to = at + step(grid, m), next = reached + (m % 2 ? DIAGONAL : STRAIGHT);
                if (next >= cost[to]) continue;
                cost[to] = next;
                (m % 2 ? diagonal : straight).push(to);
                cost_of[m % 2].push(next);
            }
        }
        for (uint32_t start = 0; start < place.size(); start++) {
            uint32_t at = place[start];
            if (at == place[goal] || cost[at] == NO_KEY) continue;
            for (int m = 0; m < 8; m++)
                if (grid.masks[at] >> m & 1 && cost[at + step(grid, m)] + (m % 2 ? DIAGONAL : STRAIGHT) == cost[at]) {
                    moves[size_t(start) * place.size() + goal] = m;
                    break;
                }
        }
    }

    std::queue<uint32_t> cost_of[2];
};

// ---- the rows of the largest component, as ours

struct Packed {
    Grid grid;
    std::vector<uint32_t> number;
    Rows rows;

    explicit Packed(Grid map) : grid(std::move(map)), number(grid.passable.size(), NO_KEY) {
        rows = build_rows(largest(), false);
        for (uint32_t i = 0; i < rows.cells.size(); i++) number[rows.cells[i].y * grid.width + rows.cells[i].x] = i;
    }

    size_t cells() const { return rows.cells.size(); }

    // the move from one cell to another, and 8 where they are not both of the component
    uint32_t first_move(uint32_t from, uint32_t to) const {
        uint32_t place = number[to];
        if (number[from] == NO_KEY || place == NO_KEY) return 8;
        Span span = rows.spans[number[from]];
        const uint32_t *words = rows.words.data() + span.start;
        size_t low = 0, high = span.len;
        while (low < high) {
            size_t middle = low + (high - low) / 2;
            if (words[middle] / 8 <= place) low = middle + 1;
            else high = middle;
        }
        return words[low - 1] % 8;
    }

    // the cells of the largest component, row by row
    std::vector<Cell> largest() const {
        std::vector<uint8_t> seen(grid.passable.size());
        std::vector<uint32_t> most;
        for (uint32_t first = 0; first < seen.size(); first++) {
            if (!grid.passable[first] || seen[first]) continue;
            std::vector<uint32_t> found{first};
            seen[first] = 1;
            for (size_t i = 0; i < found.size(); i++)
                for (int m = 0; m < 8; m++) {
                    if (!(grid.masks[found[i]] >> m & 1)) continue;
                    uint32_t to = found[i] + step(grid, m);
                    if (!seen[to]) found.push_back(to);
                    seen[to] = 1;
                }
            if (found.size() > most.size()) most = found;
        }
        std::sort(most.begin(), most.end());
        std::vector<Cell> cells;
        for (uint32_t at : most) cells.push_back(Cell{uint16_t(at % grid.width), uint16_t(at / grid.width)});
        return cells;
    }
};

// ---- answers

inline bool read_exactly(int from, uint8_t *room, size_t count) {
    for (size_t have = 0; have < count;) {
        ssize_t got = read(from, room + have, count - have);
        if (got <= 0) return false;
        have += got;
    }
    return true;
}

inline bool write_all(int to, const uint8_t *bytes, size_t count) {
    while (count > 0) {
        ssize_t put = write(to, bytes, count);
        if (put <= 0) return false;
        bytes += put;
        count -= put;
    }
    return true;
}

inline void put32(uint8_t *at, uint32_t value) {
    for (int i = 0; i < 4; i++) at[i] = value >> (24 - 8 * i);
}

// Answers what comes in until a bye, and says with which status that ended. The length of the next frame comes with a
// frame where it is there already, as ours reads it. `twice` walks each path twice.
template <class Moves> inline int answer(const Moves &moves, bool twice, int in, int out) {
    const Grid &grid = moves.grid;
    std::vector<uint8_t> reply(17 + moves.cells());
    uint8_t frame[68];
    size_t have = 0;
    auto fill = [&](size_t want, size_t most) {
        while (have < want) {
            ssize_t got = read(in, frame + have, most - have);
            if (got <= 0) return false;
            have += got;
        }
        return true;
    };
    auto send = [&](std::initializer_list<uint8_t> bytes) { return write_all(out, bytes.begin(), bytes.size()); };
    while (fill(2, 2)) {
        size_t size = frame[0] << 8 | frame[1];
        if (size > 64 || !fill(2 + size, 4 + size)) return 9;
        if (size == 1 && frame[2] == 5) return send({0, 0, 0, 1, 0x8A}) ? 0 : 6;
        if (size == 2 && frame[2] == 7 && frame[3] == 2) {  // a hello, which the client for Python begins with
            memmove(frame, frame + 2 + size, have -= 2 + size);
            if (!send({0, 0, 0, 2, 0x8D, 2})) return 6;
            continue;
        }
        if (size != 9 || frame[2] != 1) return 9;
        uint32_t sx = frame[3] << 8 | frame[4], sy = frame[5] << 8 | frame[6];
        uint32_t gx = frame[7] << 8 | frame[8], gy = frame[9] << 8 | frame[10];
        memmove(frame, frame + 2 + size, have -= 2 + size);
        auto bad = [&](uint32_t x, uint32_t y) {
            return x >= grid.width || y >= grid.height || !grid.passable[y * grid.width + x];
        };
        if (bad(sx, sy) || bad(gx, gy)) {
            if (!send({0, 0, 0, 7, 0x83, 0, 0, 0, 0, 2, 0})) return 6;
            continue;
        }
        uint32_t at = 0, goal = gy * grid.width + gx, count = 0, diagonal = 0;
        for (int round = twice ? 0 : 1; round < 2; round++) {
            at = sy * grid.width + sx;
            count = diagonal = 0;
            while (at != goal) {
                uint32_t m = moves.first_move(at, goal);
                if (m == 8) break;
                reply[17 + count++] = uint8_t(m);
                diagonal += m % 2;
                at += step(grid, m);
            }
        }
        if (at != goal) {
            if (!send({0, 0, 0, 5, 0x82, 0, 0, 0, 0})) return 6;
            continue;
        }
        put32(&reply[0], 13 + count);
        reply[4] = 0x81;
        put32(&reply[5], 0);
        put32(&reply[9], count - diagonal);
        put32(&reply[13], diagonal);
        if (!write_all(out, reply.data(), 17 + count)) return 6;
    }
    return 0;
}

// ---- the client

struct Query { uint8_t frame[11]; };

inline uint32_t get32(const uint8_t *at) { return at[0] << 24 | at[1] << 16 | at[2] << 8 | at[3]; }

struct Client {
    int in, out;
    std::vector<uint8_t> reply;

    // Asks and waits; the reply's frame is in `reply`.
    void ask(const Query &query) {
        uint8_t size[4];
        if (!write_all(out, query.frame, sizeof query.frame)) exit(6);
        if (!read_exactly(in, size, 4)) exit(9);
        reply.resize(get32(size));
        if (!read_exactly(in, reply.data(), reply.size())) exit(9);
    }
};

// Queries whose paths have 30 to 100 moves, as that program answers; the moves of all, and a sum over the replies.
inline std::vector<Query> choose(const Grid &grid, Client &client, uint64_t &moves, uint64_t &sum) {
    std::vector<Query> queries;
    uint64_t state = 7;
    auto below = [&](uint32_t end) {
        state = state * 6364136223846793005ull + 1442695040888963407ull;
        return uint32_t((state >> 33) % end);
    };
    while (queries.size() < 1024) {
        uint32_t ends[4] = {below(grid.width), below(grid.height), below(grid.width), below(grid.height)};
        Query query{{0, 9, 1}};
        for (int i = 0; i < 4; i++) {
            query.frame[3 + 2 * i] = ends[i] >> 8;
            query.frame[4 + 2 * i] = ends[i];
        }
        client.ask(query);
        if (client.reply[0] != 0x81) continue;
        uint32_t straight = get32(&client.reply[5]), diagonal = get32(&client.reply[9]);
        if (straight + diagonal < 30 || straight + diagonal > 100) continue;
        queries.push_back(query);
        moves += straight + diagonal;
        sum = sum * 31 + straight * 1000 + diagonal;
    }
    return queries;
}

inline double median(std::vector<double> figures) {
    std::sort(figures.begin(), figures.end());
    return figures[figures.size() / 2];
}
