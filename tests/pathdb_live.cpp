// The calls on a live map beside a plain search of this file's own, which shares nothing with the library.
//
//   pathdb_live judge MAPS QUERIES SEED   so many made maps in both orders, so many queries in all, with 1 to 200 cells
//                                         blocked; prints what share of the paths were told, by how many were blocked
//   pathdb_live fences ROUNDS SEED        spoilt images, wrong sizes and scratches of any words, all before pages that
//                                         may not be touched
//   pathdb_live threads TICKS             threads that ask one live map, in which cells are blocked between two ticks
//
// The status is 1, and a line says why, where an answer is wrong.
#include "pathdb.hpp"

#include <condition_variable>
#include <cstdio>
#include <cstdlib>
#include <cstring>
#include <map>
#include <mutex>
#include <queue>
#include <sys/mman.h>
#include <thread>
#include <unistd.h>

namespace {

const int EAST[8] = {0, 1, 1, 1, 0, -1, -1, -1}, SOUTH[8] = {-1, -1, 0, 1, 1, 1, 0, -1};

std::uint64_t seed = 1;

std::uint32_t below(std::uint32_t limit)
{
    seed = seed * 6364136223846793005u + 1442695040888963407u;
    return static_cast<std::uint32_t>((seed >> 33) % limit);
}

[[noreturn]] void fail(const std::string &what)
{
    std::fprintf(stderr, "pathdb_live: %s\n", what.c_str());
    std::exit(1);
}

// ---- maps, and what paths on them cost

struct length {
    std::int64_t straight, diagonal;
    bool operator==(const length &other) const { return straight == other.straight && diagonal == other.diagonal; }
    // whether it is shorter, exactly: a < b * sqrt(2) by the squares
    bool operator<(const length &other) const
    {
        const std::int64_t a = straight - other.straight, b = other.diagonal - diagonal;
        if (a < 0) return b >= 0 || a * a > 2 * b * b;
        return b > 0 && a * a < 2 * b * b;
    }
};

const length NONE = {1 << 30, 0};

struct grid {
    int width, height;
    std::vector<std::uint8_t> cells;

    std::uint8_t at(int x, int y) const
    {
        return x >= 0 && y >= 0 && x < width && y < height ? cells[static_cast<std::size_t>(y * width + x)] : 0;
    }

    bool is_legal(int x, int y, int move) const
    {
        const std::uint8_t kind = at(x, y);
        return kind != 0 && at(x + EAST[move], y + SOUTH[move]) == kind && at(x + EAST[move], y) == kind &&
               at(x, y + SOUTH[move]) == kind;
    }

    // the lengths of shortest paths from a cell, by Dijkstra's search
    std::vector<length> lengths_from(int x, int y) const
    {
        typedef std::pair<length, int> open;
        struct later {
            bool operator()(const open &a, const open &b) const { return b.first < a.first; }
        };
        std::vector<length> found(cells.size(), NONE);
        std::priority_queue<open, std::vector<open>, later> queue;
        found[static_cast<std::size_t>(y * width + x)] = {0, 0};
        queue.push({{0, 0}, y * width + x});
        while (!queue.empty()) {
            const open next = queue.top();
            queue.pop();
            if (!(next.first == found[static_cast<std::size_t>(next.second)])) continue;
            const int at_x = next.second % width, at_y = next.second / width;
            for (int move = 0; move < 8; move++) {
                if (!is_legal(at_x, at_y, move)) continue;
                const int to = (at_y + SOUTH[move]) * width + at_x + EAST[move];
                length sum = next.first;
                (move % 2 ? sum.diagonal : sum.straight)++;
                if (sum < found[static_cast<std::size_t>(to)]) {
                    found[static_cast<std::size_t>(to)] = sum;
                    queue.push({sum, to});
                }
            }
        }
        return found;
    }
};

// a map of one of several kinds: scattered cells, land and water, rooms with doors, or long walls with gaps
grid made_map(int kind)
{
    const int width = 4 + static_cast<int>(below(52)), height = 4 + static_cast<int>(below(44));
    const std::uint32_t percent = below(45), pitch = 4 + below(9);
    grid map = {width, height, std::vector<std::uint8_t>(static_cast<std::size_t>(width * height))};
    for (int y = 0; y < height; y++)
        for (int x = 0; x < width; x++) {
            const bool across = x % static_cast<int>(pitch) == 0, down = y % static_cast<int>(pitch) == 0;
            std::uint8_t cell = below(100) >= percent;
            if (kind == 1 && cell && below(4) == 0) cell = 2;
            if (kind == 2) cell = !(across || down) || below(pitch) == 0;
            if (kind == 3) cell = !across || below(12) == 0;
            map.cells[static_cast<std::size_t>(y * width + x)] = cell;
        }
    return map;
}

std::string text_of(const char *what, pathdb_cell start, pathdb_cell goal)
{
    return std::string(what) + ": " + std::to_string(start.x) + " " + std::to_string(start.y) + " to " +
           std::to_string(goal.x) + " " + std::to_string(goal.y);
}

// ---- answers beside the search

struct shares {
    std::uint64_t asked, told, searched, apart;
};

class judge {
public:
    judge(const grid &map, std::uint32_t order) : baked_(map), now_(map), words_(1 << 16)
    {
        pathdb_baked told;
        for (;;) {
            const pathdb_status ended =
                pathdb_bake_cells(static_cast<std::uint32_t>(map.width), static_cast<std::uint32_t>(map.height),
                                  map.cells.data(), map.cells.size(), order, words_.data(), words_.size(), &told);
            words_.resize(told.words);
            if (ended == PATHDB_DONE) break;
            if (ended != PATHDB_TOO_SMALL) fail("a map is not baked");
        }
        pathdb_read_facts(words_.data(), words_.size(), &facts_);
        bits_.resize(PATHDB_BIT_WORDS(facts_.width, facts_.height));
        scratch_.resize(pathdb_search_words(facts_.cells));
        for (std::uint32_t &word : scratch_) word = below(1u << 31);
    }

    // cells are blocked anew
    void block(std::uint32_t count)
    {
        std::fill(bits_.begin(), bits_.end(), 0);
        now_ = baked_;
        for (; count > 0; count--) {
            const pathdb_cell cell = some_cell(0);
            pathdb_blocked_set(bits_.data(), facts_.width, cell, true);
            now_.cells[static_cast<std::size_t>(cell.y * baked_.width + cell.x)] = 0;
        }
    }

    // so many queries from one start
    void ask(std::uint32_t count, shares &sum)
    {
        const pathdb_cell start = some_cell(1);
        const bool inside = start.x < facts_.width && start.y < facts_.height;
        const std::vector<length> now = inside ? now_.lengths_from(start.x, start.y) : std::vector<length>();
        const std::vector<length> baked = inside ? baked_.lengths_from(start.x, start.y) : std::vector<length>();
        std::vector<pathdb_cell> goals(count);
        for (pathdb_cell &goal : goals) goal = some_cell(1);
        judge_costs(start, goals, baked);
        for (const pathdb_cell goal : goals) {
            const pathdb_status refused = refusal(start, goal);
            const auto place = static_cast<std::size_t>(goal.y * baked_.width + goal.x);
            sum.asked++;
            if (refused != PATHDB_DONE)
                judge_refused(start, goal, refused);
            else
                judge_ends(start, goal, now[place], baked[place], sum);
        }
    }

private:
    pathdb_cell some_cell(std::uint32_t beyond)
    {
        return {static_cast<std::uint16_t>(below(facts_.width + (beyond && below(20) == 0))),
                static_cast<std::uint16_t>(below(facts_.height + (beyond && below(20) == 0)))};
    }

    pathdb_status refusal(pathdb_cell start, pathdb_cell goal) const
    {
        if (start.x >= facts_.width || start.y >= facts_.height) return PATHDB_OUTSIDE_START;
        if (now_.at(start.x, start.y) == 0) return PATHDB_BLOCKED_START;
        if (goal.x >= facts_.width || goal.y >= facts_.height) return PATHDB_OUTSIDE_GOAL;
        return now_.at(goal.x, goal.y) == 0 ? PATHDB_BLOCKED_GOAL : PATHDB_DONE;
    }

    pathdb_status told(pathdb_cell start, pathdb_cell goal, std::size_t room)
    {
        length_ = 77;
        std::memset(moves_, 99, sizeof moves_);
        return pathdb_path_live(words_.data(), words_.size(), bits_.data(), bits_.size(), start, goal, moves_, room,
                                &length_);
    }

    // a search that is cut at random
    pathdb_status searched(pathdb_cell start, pathdb_cell goal, std::size_t room)
    {
        pathdb_search of = {start, goal, below(3) == 0 ? below(40) : UINT32_MAX};
        length_ = 77;
        std::memset(moves_, 99, sizeof moves_);
        pathdb_status ended = pathdb_search_live(words_.data(), words_.size(), bits_.data(), bits_.size(), of,
                                                 scratch_.data(), scratch_.size(), moves_, room, &length_);
        while (ended == PATHDB_MORE) {
            if (length_ != 0 || moves_[0] != 99) fail(text_of("a search that waits has written", start, goal));
            of.limit = 1 + below(200);
            ended = pathdb_search_on(words_.data(), words_.size(), bits_.data(), bits_.size(), of, scratch_.data(),
                                     scratch_.size(), moves_, room, &length_);
        }
        return ended;
    }

    // of the map as it was baked: the costs of many goals at once, and which cells are joined
    void judge_costs(pathdb_cell start, const std::vector<pathdb_cell> &goals, const std::vector<length> &baked) const
    {
        std::vector<pathdb_cost> costs(goals.size() + 1, pathdb_cost{7, 7});
        std::uint32_t here = 77, there = 78;
        const bool stands = baked_.at(start.x, start.y) != 0;
        if (pathdb_costs(words_.data(), words_.size(), start, goals.data(), goals.size(), costs.data(), costs.size()) !=
                goals.size() ||
            costs.back().straight != 7)
            fail(text_of("so many costs", start, start));
        if ((pathdb_component(words_.data(), words_.size(), start, &here) == PATHDB_DONE) != stands)
            fail(text_of("a component", start, start));
        for (std::size_t k = 0; k < goals.size(); k++) {
            const pathdb_cell goal = goals[k];
            const auto place = static_cast<std::size_t>(goal.y * baked_.width + goal.x);
            const bool arrives = baked_.at(goal.x, goal.y) != 0, joined = stands && arrives && !(baked[place] == NONE);
            const length wanted = joined ? baked[place] : length{PATHDB_NO_COST, PATHDB_NO_COST};
            if (costs[k].straight != wanted.straight || costs[k].diagonal != wanted.diagonal)
                fail(text_of("another cost", start, goal));
            const pathdb_status ended = pathdb_component(words_.data(), words_.size(), goal, &there);
            const bool outside = goal.x >= facts_.width || goal.y >= facts_.height;
            if (ended != (outside ? PATHDB_OUTSIDE_START : arrives ? PATHDB_DONE : PATHDB_BLOCKED_START))
                fail(text_of("another status of a component", start, goal));
            if (stands && arrives && (here == there) != joined) fail(text_of("another component", start, goal));
        }
    }

    void judge_refused(pathdb_cell start, pathdb_cell goal, pathdb_status refused)
    {
        std::uint8_t move = 99;
        if (told(start, goal, sizeof moves_) != refused || length_ != 0 || moves_[0] != 99 ||
            searched(start, goal, sizeof moves_) != refused || length_ != 0 || moves_[0] != 99 ||
            next(start, goal, move) != refused || move != 99)
            fail(text_of("refused otherwise", start, goal));
    }

    pathdb_status next(pathdb_cell at, pathdb_cell goal, std::uint8_t &move) const
    {
        return pathdb_next_move_live(words_.data(), words_.size(), bits_.data(), bits_.size(), at, goal, &move);
    }

    void judge_ends(pathdb_cell start, pathdb_cell goal, const length &now, const length &baked, shares &sum)
    {
        const pathdb_status ended = told(start, goal, sizeof moves_);
        if ((ended == PATHDB_UNREACHABLE) != (baked == NONE)) fail(text_of("apart", start, goal));
        judge_next(start, goal, baked);
        if (ended == PATHDB_DONE) {
            sum.told++;
            judge_path("told", start, goal, now);
            judge_small(start, goal);
        } else if (ended == PATHDB_STALE) {
            sum.searched++;
            judge_front(start, goal);
        } else if (ended == PATHDB_UNREACHABLE) {
            sum.apart++;
            if (length_ != 0 || moves_[0] != 99) fail(text_of("apart, and written", start, goal));
        } else {
            fail(text_of("a status that no path has", start, goal));
        }
        if (ended == PATHDB_DONE && below(8) > 0) return;
        const pathdb_status found = searched(start, goal, sizeof moves_);
        if (now == NONE) {
            if (found != PATHDB_UNREACHABLE || length_ != 0 || moves_[0] != 99)
                fail(text_of("unreachable, by a search", start, goal));
            return;
        }
        if (found != PATHDB_DONE) fail(text_of("a search ends otherwise", start, goal));
        judge_path("searched", start, goal, now);
        if (length_ > 0 && below(16) == 0) {
            const std::uint32_t whole = length_;
            if (searched(start, goal, below(whole)) != PATHDB_TOO_SMALL) fail(text_of("room enough", start, goal));
        }
    }

    // the moves are legal now, lead to the goal, and cost as little as they can
    void judge_path(const char *what, pathdb_cell start, pathdb_cell goal, const length &wanted) const
    {
        length cost = {0, 0};
        int x = start.x, y = start.y;
        for (std::uint32_t step = 0; step < length_; step++) {
            const int move = moves_[step];
            if (move > 7 || !now_.is_legal(x, y, move)) fail(text_of(what, start, goal) + ": a move is not legal");
            x += EAST[move], y += SOUTH[move];
            (move % 2 ? cost.diagonal : cost.straight)++;
        }
        if (x != goal.x || y != goal.y) fail(text_of(what, start, goal) + ": the path leads elsewhere");
        if (!(cost == wanted)) fail(text_of(what, start, goal) + ": the path is not a shortest one");
    }

    // the front of a told path: as the image has it, legal now, and the next move is not
    void judge_front(pathdb_cell start, pathdb_cell goal)
    {
        std::uint8_t whole[sizeof moves_];
        std::uint32_t long_;
        pathdb_path(words_.data(), words_.size(), start, goal, whole, sizeof whole, &long_);
        if (length_ >= long_ || std::memcmp(whole, moves_, length_) != 0) fail(text_of("another front", start, goal));
        int x = start.x, y = start.y;
        for (std::uint32_t step = 0; step <= length_; step++) {
            if (now_.is_legal(x, y, whole[step]) != (step < length_)) fail(text_of("a front", start, goal));
            x += EAST[whole[step]], y += SOUTH[whole[step]];
        }
    }

    void judge_next(pathdb_cell at, pathdb_cell goal, const length &baked) const
    {
        std::uint8_t move = 99, plain = 99;
        const pathdb_status ended = next(at, goal, move);
        if (baked == NONE || (at.x == goal.x && at.y == goal.y)) {
            if (ended != (baked == NONE ? PATHDB_UNREACHABLE : PATHDB_ARRIVED) || move != 99)
                fail(text_of("no next move", at, goal));
            return;
        }
        if (pathdb_next_move(words_.data(), words_.size(), at, goal, &plain) != PATHDB_DONE || plain != move ||
            ended != (now_.is_legal(at.x, at.y, move) ? PATHDB_DONE : PATHDB_STALE))
            fail(text_of("another next move", at, goal));
    }

    // the same told path in a room that has too few places
    void judge_small(pathdb_cell start, pathdb_cell goal)
    {
        const std::uint32_t whole = length_;
        if (whole == 0 || below(16) > 0) return;
        const std::uint32_t room = below(whole);
        if (told(start, goal, room) != PATHDB_TOO_SMALL || length_ != whole || moves_[room] != 99)
            fail(text_of("a small room", start, goal));
    }

    grid baked_, now_;
    std::vector<std::uint32_t> words_, bits_, scratch_;
    pathdb_facts facts_;
    std::uint8_t moves_[3000];
    std::uint32_t length_;
};

void judge_all(std::uint32_t maps, std::uint64_t queries)
{
    const std::uint32_t counts[8] = {1, 2, 5, 10, 20, 50, 100, 200}, batch = 200;
    std::map<std::uint32_t, shares> sums;
    std::uint32_t turn = 0;
    for (std::uint64_t asked = 0, map = 0; map < maps; map++) {
        const grid made = made_map(static_cast<int>(map % 4));
        for (std::uint32_t order = 0; order < 2; order++) {
            judge both(made, order);
            const std::uint64_t until = queries * (2 * map + order + 1) / (2 * maps);
            for (; asked < until; asked += 4 * batch) {
                const std::uint32_t count = counts[turn++ % 8];
                both.block(count);
                for (int start = 0; start < 4; start++) both.ask(batch, sums[count]);
            }
        }
    }
    for (const auto &each : sums) {
        const shares &sum = each.second;
        const auto joined = static_cast<double>(sum.told + sum.searched);
        std::printf("blocked %u: asked %llu, told %llu, searched %llu: %.1f %% told\n", each.first,
                    static_cast<unsigned long long>(sum.asked), static_cast<unsigned long long>(sum.told),
                    static_cast<unsigned long long>(sum.searched),
                    joined > 0 ? 100 * static_cast<double>(sum.told) / joined : 0.0);
    }
}

// ---- memory between two pages that may not be touched

class fence {
public:
    explicit fence(std::size_t bytes)
    {
        const auto page = static_cast<std::size_t>(sysconf(_SC_PAGESIZE));
        size_ = (bytes + page - 1) / page * page;
        void *at = mmap(nullptr, size_ + 2 * page, PROT_NONE, MAP_PRIVATE | MAP_ANONYMOUS, -1, 0);
        begin_ = static_cast<unsigned char *>(at) + page;
        if (at == MAP_FAILED || mprotect(begin_, size_, PROT_READ | PROT_WRITE) != 0) fail("no memory");
    }

    // so many words that end where the page does, or begin where it begins
    std::uint32_t *words(std::size_t count) const
    {
        return reinterpret_cast<std::uint32_t *>(below(2) ? begin_ : begin_ + size_ - 4 * count);
    }

    std::uint8_t *bytes(std::size_t count) const { return begin_ + size_ - count; }

private:
    unsigned char *begin_;
    std::size_t size_;
};

// any number up to a limit, and mostly one near to it
std::size_t near(std::size_t limit)
{
    return below(3) == 0 ? below(static_cast<std::uint32_t>(limit) + 1) : limit - below(2);
}

pathdb_cell cell_of(std::uint32_t x, std::uint32_t y)
{
    return {static_cast<std::uint16_t>(x), static_cast<std::uint16_t>(y)};
}

void try_fences(std::uint32_t rounds)
{
    const grid map = made_map(2);
    std::vector<std::uint32_t> image(1 << 20);
    pathdb_baked told;
    const auto width = static_cast<std::uint32_t>(map.width), height = static_cast<std::uint32_t>(map.height);
    if (pathdb_bake_cells(width, height, map.cells.data(), map.cells.size(), PATHDB_DFS, image.data(), image.size(),
                          &told) != PATHDB_DONE)
        fail("a map is not baked");
    image.resize(told.words);
    const std::size_t most = 10 * map.cells.size() + 2;
    const fence for_words(4 * image.size()), for_bits(4 * map.cells.size()), for_scratch(4 * most), for_moves(4096);
    std::uint64_t ends[45] = {};
    const bool are_many = rounds > 1000;
    for (; rounds > 0; rounds--) {
        std::uint32_t *const words = for_words.words(image.size());
        std::uint32_t part;
        std::memcpy(words, image.data(), 4 * image.size());
        const bool is_whole = below(4) == 0;
        for (std::uint32_t flips = is_whole ? 0 : 1 + below(3); flips > 0; flips--)
            words[10 + below(told.words - 10)] ^= 1u << below(below(2) ? 32 : 6);
        if (pathdb_check(words, image.size(), &part) != PATHDB_DONE) continue;
        const std::size_t wanted = PATHDB_BIT_WORDS(width, height), bits = below(4) ? wanted : near(wanted + 2);
        std::uint32_t *const blocked = for_bits.words(bits);
        for (std::size_t word = 0; word < bits; word++)
            blocked[word] = below(1u << 31) & below(1u << 31) & below(1u << 31);
        const std::size_t size = near(most), room = below(3) ? near(300) : below(12);
        std::uint32_t *const scratch = for_scratch.words(size);
        for (std::size_t word = 0; word < size; word++) scratch[word] = below(2) ? below(1u << 31) : below(300);
        std::uint8_t *const moves = for_moves.bytes(room), next = 99;
        const pathdb_cell start = cell_of(below(width + 1), below(height));
        const pathdb_cell goal = cell_of(below(width), below(height + 1));
        const pathdb_search of = {start, goal, below(2) ? below(30) : 100000};
        std::uint32_t length;
        pathdb_status ended = pathdb_path_live(words, image.size(), blocked, bits, start, goal, moves, room, &length);
        if ((ended == PATHDB_WRONG_BITS) != (bits != wanted)) fail("bits of a wrong size");
        if (ended > PATHDB_WRONG_BITS || ended == PATHDB_MORE) fail("a status of no told path");
        if (ended == PATHDB_DONE && length > room) fail("more moves than the room has");
        ends[ended]++;
        ended = pathdb_next_move_live(words, image.size(), blocked, bits, start, goal, &next);
        if ((ended == PATHDB_DONE || ended == PATHDB_STALE) && next > 7) fail("a move that is none");
        ended = pathdb_search_live(words, image.size(), blocked, bits, of, scratch, size, moves, room, &length);
        if (ended == PATHDB_MORE && is_whole && of.limit > 30) fail("a search of a small map takes too many cells");
        for (int turn = 0; ended == PATHDB_MORE && turn < 50; turn++) {
            if (size > 0 && below(4) == 0) scratch[below(static_cast<std::uint32_t>(size))] = below(1u << 31);
            ended = pathdb_search_on(words, image.size(), blocked, bits, of, scratch, size, moves, room, &length);
        }
        if (ended > PATHDB_FEW_WORDS || (ended > PATHDB_BROKEN && ended < PATHDB_MORE)) fail("a status of no search");
        if ((ended == PATHDB_WRONG_BITS) != (bits != wanted)) fail("bits of a wrong size, in a search");
        if (ended == PATHDB_FEW_WORDS && size >= most) fail("a scratch that is large enough is refused");
        if (ended == PATHDB_DONE && length > room) fail("more moves than the room has, in a search");
        ends[ended]++;
    }
    for (const int status : {0, 2, 5, 7, 41, 43, 44})
        if (are_many && ends[status] == 0) fail("no answer has status " + std::to_string(status));
}

// ---- threads

void try_threads(int ticks)
{
    const int workers = 4;
    pathdb::image image;
    pathdb_baked told;
    std::vector<std::uint8_t> cells(30 * 30, 1);
    if (image.bake(30, 30, cells, pathdb::order::rows, told) != pathdb::status::done) fail("a map is not baked");
    pathdb::live live(image.view());
    std::mutex lock;
    std::condition_variable turned;
    int tick = 0, asking = workers;
    auto work = [&](int number) {
        std::vector<std::uint32_t> scratch;
        std::vector<std::uint8_t> moves;
        for (int mine = 0; mine < ticks; mine++) {
            {
                std::unique_lock<std::mutex> held(lock);
                turned.wait(held, [&] { return tick > mine; });
            }
            const pathdb_cell start = {static_cast<std::uint16_t>(7 * number), 0}, goal = {20, 29};
            if (live.find(start, goal, scratch, moves) != pathdb::status::done || moves.size() < 29) fail("no path");
            std::lock_guard<std::mutex> held(lock);
            if (--asking == 0) turned.notify_all();
        }
    };
    std::vector<std::thread> threads;
    for (int number = 0; number < workers; number++) threads.emplace_back(work, number);
    for (int turn = 0; turn < ticks; turn++) {
        std::unique_lock<std::mutex> held(lock);
        if (turn > 0) turned.wait(held, [&] { return asking == 0; });
        for (std::uint16_t x = 0; x < 29; x++) live.set({x, 15}, below(4) > 0);
        asking = workers;
        tick++;
        turned.notify_all();
    }
    for (std::thread &each : threads) each.join();
}

} // namespace

int main(int count, char **words)
{
    const std::string mode = count > 1 ? words[1] : "";
    auto number = [&](int at) { return at < count ? std::strtoull(words[at], nullptr, 10) : 1; };
    seed = mode == "threads" ? 1 : number(mode == "judge" ? 4 : 3);
    if (mode == "judge") judge_all(static_cast<std::uint32_t>(number(2)), number(3));
    else if (mode == "fences") try_fences(static_cast<std::uint32_t>(number(2)));
    else if (mode == "threads") try_threads(static_cast<int>(number(2)));
    else return 2;
}
