// pathdb for C++11 and later: pathdb.h with types that own their words. Nothing is copied: an image moves, a view
// points at words of somebody else's, and moves are written into a vector that is used again. Nothing throws but a
// vector that gets no memory. From C++17 on a status that is not looked at is warned of, and from C++20 on lists are
// spans too.
#ifndef PATHDB_HPP
#define PATHDB_HPP

#include "pathdb.h"

#include <algorithm>
#include <cmath>
#include <cstddef>
#include <cstdint>
#include <string>
#include <utility>
#include <vector>

#if __cplusplus >= 201703L || (defined(_MSVC_LANG) && _MSVC_LANG >= 201703L)
#include <string_view>
#define PATHDB_NODISCARD [[nodiscard]]
#else
#define PATHDB_NODISCARD
#endif

#if __cplusplus >= 202002L || (defined(_MSVC_LANG) && _MSVC_LANG >= 202002L)
#if __has_include(<span>)
#include <span>
#endif
#endif

namespace pathdb {

using cell = pathdb_cell;
using cost = pathdb_cost;
using facts = pathdb_facts;
using baked = pathdb_baked;
using sources = pathdb_sources;
using memory = pathdb_memory;

#if __cplusplus >= 201703L || (defined(_MSVC_LANG) && _MSVC_LANG >= 201703L)
using map_text = std::string_view;
#else
using map_text = const std::string &;
#endif

enum class order : std::uint32_t { rows = PATHDB_ROWS, dfs = PATHDB_DFS };

enum class PATHDB_NODISCARD status : std::uint32_t {
    done = PATHDB_DONE,
    arrived = PATHDB_ARRIVED,
    unreachable = PATHDB_UNREACHABLE,
    outside_start = PATHDB_OUTSIDE_START,
    blocked_start = PATHDB_BLOCKED_START,
    outside_goal = PATHDB_OUTSIDE_GOAL,
    blocked_goal = PATHDB_BLOCKED_GOAL,
    too_small = PATHDB_TOO_SMALL,
    broken = PATHDB_BROKEN,
    no_image = PATHDB_NO_IMAGE,
    other_form = PATHDB_OTHER_FORM,
    wrong_length = PATHDB_WRONG_LENGTH,
    wrong_sides = PATHDB_WRONG_SIDES,
    wrong_lists = PATHDB_WRONG_LISTS,
    wrong_table = PATHDB_WRONG_TABLE,
    wrong_home = PATHDB_WRONG_HOME,
    no_order = PATHDB_NO_ORDER,
    text_too_long = PATHDB_TEXT_TOO_LONG,
    bad_header = PATHDB_BAD_HEADER,
    bad_size = PATHDB_BAD_SIZE,
    bad_row = PATHDB_BAD_ROW,
    bad_byte = PATHDB_BAD_BYTE,
    missing_rows = PATHDB_MISSING_ROWS,
    extra_line = PATHDB_EXTRA_LINE,
    too_many_cells = PATHDB_TOO_MANY_CELLS,
    wrong_count = PATHDB_WRONG_COUNT,
    no_memory = PATHDB_NO_MEMORY,
    no_sources = PATHDB_NO_SOURCES,
    broken_part = PATHDB_BROKEN_PART,
    stale = PATHDB_STALE,
    more = PATHDB_MORE,
    wrong_bits = PATHDB_WRONG_BITS,
    few_words = PATHDB_FEW_WORDS
};

// what a status means
inline std::string text(status which)
{
    char room[PATHDB_TEXT_ROOM];
    const std::size_t length = pathdb_status_text(static_cast<std::uint32_t>(which), room, sizeof room);
    return std::string(room, length);
}

// Words of somebody else's that passed the check, or that a bake wrote, and that stay as they are while it is used. It
// is two numbers, and any number of threads may use one. A view of no words answers `no_image` to each call.
class view {
public:
    view() noexcept : words_(nullptr), count_(0) {}
    view(const std::uint32_t *words, std::size_t count) noexcept : words_(words), count_(count) {}
    explicit view(const std::vector<std::uint32_t> &words) noexcept : words_(words.data()), count_(words.size()) {}
    explicit view(std::vector<std::uint32_t> &&) = delete;

    // the check; where it passes, a view of the words may be used
    static status check(const std::uint32_t *words, std::size_t count, std::uint32_t &part) noexcept
    {
        return static_cast<status>(pathdb_check(words, count, &part));
    }

    // whether there are words
    explicit operator bool() const noexcept { return count_ > 0; }

    // what the image says of its map; of no words all are 0
    pathdb::facts facts() const noexcept
    {
        pathdb::facts told = pathdb::facts();
        if (count_ > 0) pathdb_read_facts(words_, count_, &told);
        return told;
    }

    // the component of a cell; two passable cells are joined exactly where theirs is the same
    status component(cell of, std::uint32_t &number) const noexcept
    {
        if (count_ == 0) return status::no_image;
        return static_cast<status>(pathdb_component(words_, count_, of, &number));
    }

    // whether the image has the cell as passable
    bool is_passable(cell of) const noexcept
    {
        std::uint32_t number;
        return component(of, number) == status::done;
    }

    status next(cell at, cell goal, std::uint8_t &move) const noexcept
    {
        if (count_ == 0) return status::no_image;
        return static_cast<status>(pathdb_next_move(words_, count_, at, goal, &move));
    }

    status cost(cell start, cell goal, pathdb::cost &told) const noexcept
    {
        if (count_ == 0) return status::no_image;
        return static_cast<status>(pathdb_path_cost(words_, count_, start, goal, &told));
    }

    // what the paths from a cell to each of these goals cost; both numbers are PATHDB_NO_COST where there is none
    std::vector<pathdb::cost> costs(cell start, const std::vector<cell> &goals) const
    {
        const pathdb::cost none = {PATHDB_NO_COST, PATHDB_NO_COST};
        std::vector<pathdb::cost> told(goals.size(), none);
        if (count_ > 0) pathdb_costs(words_, count_, start, goals.data(), goals.size(), told.data(), told.size());
        return told;
    }

    // the moves of the path in a room of the caller's, as pathdb_path
    status path(cell start, cell goal, std::uint8_t *moves, std::size_t room, std::uint32_t &length) const noexcept
    {
        length = 0;
        if (count_ == 0) return status::no_image;
        return static_cast<status>(pathdb_path(words_, count_, start, goal, moves, room, &length));
    }

    // the moves of the path; the vector grows where it has to, and is empty where there is no path
    status path(cell start, cell goal, std::vector<std::uint8_t> &moves) const
    {
        return fill(moves, 64, [&](std::uint8_t *room, std::size_t places, std::uint32_t &length) {
            return pathdb_path(words_, count_, start, goal, room, places, &length);
        });
    }

#ifdef __cpp_lib_span
    explicit view(std::span<const std::uint32_t> words) noexcept : words_(words.data()), count_(words.size()) {}

    static status check(std::span<const std::uint32_t> words, std::uint32_t &part) noexcept
    {
        return check(words.data(), words.size(), part);
    }

    status path(cell start, cell goal, std::span<std::uint8_t> moves, std::uint32_t &length) const noexcept
    {
        return path(start, goal, moves.data(), moves.size(), length);
    }
#endif

    const std::uint32_t *data() const noexcept { return words_; }
    std::size_t size() const noexcept { return count_; }

private:
    // what a call writes into all the room that a vector has, and again with as many places as it needs
    template <typename Item, typename Call>
    status fill(std::vector<Item> &items, std::size_t least, Call call) const
    {
        items.resize(items.capacity() > 0 ? items.capacity() : least);
        for (;;) {
            std::uint32_t length = 0;
            const pathdb_status ended =
                count_ == 0 ? PATHDB_NO_IMAGE : call(items.data(), items.size(), length);
            items.resize(length);
            if (ended != PATHDB_TOO_SMALL) return static_cast<status>(ended);
        }
    }

    const std::uint32_t *words_;
    std::size_t count_;
};

// A live map: a view of an image, whose words stay as they are while it is used, and a bit for each cell that says
// whether it is blocked now. Any number of threads may ask it while none blocks or frees a cell.
class live {
public:
    // every cell is free that the image has as passable
    explicit live(pathdb::view map) : map_(map), width_(map.facts().width)
    {
        bits_.resize(PATHDB_BIT_WORDS(width_, map.facts().height));
    }

    // blocks a cell inside the map, or frees it
    void set(cell at, bool is_blocked) noexcept { pathdb_blocked_set(bits_.data(), width_, at, is_blocked); }

    // whether the cell is blocked by its bit; one that the image has as blocked stays so either way
    bool is_set(cell at) const noexcept { return pathdb_blocked_at(bits_.data(), width_, at); }

    // where the told path goes on; `stale` where that move is not free
    status next(cell at, cell goal, std::uint8_t &move) const noexcept
    {
        if (!map_) return status::no_image;
        return static_cast<status>(
            pathdb_next_move_live(map_.data(), map_.size(), bits_.data(), bits_.size(), at, goal, &move));
    }

    // the told path by look-ups alone, as pathdb_path_live
    status path(cell start, cell goal, std::uint8_t *moves, std::size_t room, std::uint32_t &length) const noexcept
    {
        length = 0;
        if (!map_) return status::no_image;
        return static_cast<status>(pathdb_path_live(map_.data(), map_.size(), bits_.data(), bits_.size(), start, goal,
                                                    moves, room, &length));
    }

    // how many words of scratch each search has enough of
    std::size_t search_words() const noexcept
    {
        return static_cast<std::size_t>(pathdb_search_words(map_.facts().cells));
    }

    // a shortest path by a search, as pathdb_search_live
    status search(const pathdb_search &of, std::vector<std::uint32_t> &scratch, std::uint8_t *moves, std::size_t room,
                  std::uint32_t &length) const noexcept
    {
        length = 0;
        if (!map_) return status::no_image;
        return static_cast<status>(pathdb_search_live(map_.data(), map_.size(), bits_.data(), bits_.size(), of,
                                                      scratch.data(), scratch.size(), moves, room, &length));
    }

    // goes on with a search that told `more`, as pathdb_search_on
    status go_on(const pathdb_search &of, std::vector<std::uint32_t> &scratch, std::uint8_t *moves, std::size_t room,
                 std::uint32_t &length) const noexcept
    {
        length = 0;
        if (!map_) return status::no_image;
        return static_cast<status>(pathdb_search_on(map_.data(), map_.size(), bits_.data(), bits_.size(), of,
                                                    scratch.data(), scratch.size(), moves, room, &length));
    }

    // A shortest path now: told where that is free, and searched where it is not. Both vectors grow where they have to;
    // `moves` is empty where there is no path.
    status find(cell start, cell goal, std::vector<std::uint32_t> &scratch, std::vector<std::uint8_t> &moves) const
    {
        moves.resize(PATHDB_LONGEST);
        std::uint32_t length = 0;
        status ended = path(start, goal, moves.data(), moves.size(), length);
        if (ended == status::stale) {
            if (scratch.size() < search_words()) scratch.resize(search_words());
            const pathdb_search whole = {start, goal, UINT32_MAX};
            ended = search(whole, scratch, moves.data(), moves.size(), length);
            while (ended == status::more) ended = go_on(whole, scratch, moves.data(), moves.size(), length);
        }
        moves.resize(ended == status::done ? length : 0);
        return ended;
    }

    // the bits, for the calls of pathdb.h
    const std::vector<std::uint32_t> &bits() const noexcept { return bits_; }

private:
    pathdb::view map_;
    std::uint32_t width_;
    std::vector<std::uint32_t> bits_;
};

// The words of an image. It moves and is never copied.
class image {
public:
    image() = default;
    image(image &&) noexcept = default;
    image &operator=(image &&) noexcept = default;
    image(const image &) = delete;
    image &operator=(const image &) = delete;
    ~image() = default;

    // whether there are words: some were baked or taken over
    explicit operator bool() const noexcept { return !words_.empty(); }

    // takes words over that pass the check; else the image is as it was
    status take(std::vector<std::uint32_t> words, std::uint32_t &part)
    {
        const status found = view::check(words.data(), words.size(), part);
        if (found == status::done) words_ = std::move(words);
        return found;
    }

    // Bakes a map that is given as a text; `room` words are tried first, and then as many as are needed. The library
    // takes memory from `from`, or from malloc where it is null.
    status bake(map_text map, order by, baked &told, std::size_t room = 1 << 16, const memory *from = nullptr)
    {
        return bake_with(told, room, [&](std::uint32_t *words, std::size_t count) {
            return pathdb_bake_text_with(from, reinterpret_cast<const std::uint8_t *>(map.data()), map.size(),
                                         static_cast<std::uint32_t>(by), words, count, &told);
        });
    }

    // bakes a map that is given as a byte a cell: 0 blocked, 1 land, 2 water
    status bake(std::uint32_t width, std::uint32_t height, const std::uint8_t *cells, std::size_t count, order by,
                baked &told, std::size_t room = 1 << 16, const memory *from = nullptr)
    {
        return bake_with(told, room, [&](std::uint32_t *words, std::size_t places) {
            return pathdb_bake_cells_with(from, width, height, cells, count, static_cast<std::uint32_t>(by), words,
                                          places, &told);
        });
    }

    status bake(std::uint32_t width, std::uint32_t height, const std::vector<std::uint8_t> &cells, order by,
                baked &told, std::size_t room = 1 << 16, const memory *from = nullptr)
    {
        return bake(width, height, cells.data(), cells.size(), by, told, room, from);
    }

    // The same image, baked in parts of `most` sources at most. `run(count, job)` is the caller's way to have jobs
    // done: it calls job(0) to job(count - 1), from any threads and side by side, and returns once all have ended.
    template <typename Run>
    status bake_parts(std::uint32_t width, std::uint32_t height, const std::vector<std::uint8_t> &cells, order by,
                      baked &told, std::uint32_t most, Run run, const memory *from = nullptr)
    {
        const std::uint8_t *const at = cells.data();
        const auto number = static_cast<std::uint32_t>(by);
        std::vector<std::uint32_t> sizes(64);
        const status counted = fill(sizes, told, [&](std::uint32_t *words, std::size_t count) {
            return pathdb_components_with(from, width, height, at, cells.size(), number, words, count, &told);
        });
        if (counted != status::done) return counted;
        std::vector<block> parts = cut(sizes, most > 0 ? most : 1);
        run(parts.size(), [&](std::size_t which) {
            block &some = parts[which];
            some.words.resize(some.room);
            some.ended = fill(some.words, some.told, [&](std::uint32_t *words, std::size_t count) {
                return pathdb_part_with(from, width, height, at, cells.size(), number, some.of, words, count,
                                        &some.told);
            });
        });
        std::vector<std::uint32_t> all;
        for (const block &some : parts) {
            told = some.told;
            if (some.ended != status::done) return some.ended;
            all.insert(all.end(), some.words.begin(), some.words.end());
        }
        return bake_with(told, 1, [&](std::uint32_t *words, std::size_t count) {
            return pathdb_join_with(from, width, height, at, cells.size(), number, all.data(), all.size(), words, count,
                                    &told);
        });
    }

#ifdef __cpp_lib_span
    status bake(std::uint32_t width, std::uint32_t height, std::span<const std::uint8_t> cells, order by, baked &told,
                std::size_t room = 1 << 16, const memory *from = nullptr)
    {
        return bake(width, height, cells.data(), cells.size(), by, told, room, from);
    }
#endif

    // a view of the words, for as long as the image stands
    pathdb::view view() const noexcept { return pathdb::view(words_.data(), words_.size()); }

    const std::vector<std::uint32_t> &words() const noexcept { return words_; }

private:
    // some sources, how many words are tried first, and what came of them
    struct block {
        sources of;
        std::size_t room;
        std::vector<std::uint32_t> words;
        baked told;
        status ended;
    };

    // the sources of components of these sizes, in blocks of so many at most
    static std::vector<block> cut(const std::vector<std::uint32_t> &sizes, std::uint32_t most)
    {
        std::vector<block> parts;
        for (std::size_t number = 0; number < sizes.size(); number++) {
            const std::uint32_t size = sizes[number];
            // mostly enough for a row
            const auto likely = 64 + 3 * static_cast<std::size_t>(std::sqrt(static_cast<double>(size)));
            const std::size_t row = 1 + (likely < size ? likely : size);
            for (std::uint32_t first = 0; first < size; first += most) {
                const std::uint32_t count = most < size - first ? most : size - first;
                block some = {{static_cast<std::uint32_t>(number), first, count}, 3 + count * row, {}, baked(),
                              status::no_memory};
                parts.push_back(std::move(some));
                if (most >= size - first) break;
            }
        }
        return parts;
    }

    // the words that a call writes, with as many as it needs if there were too few
    template <typename Bake> static status fill(std::vector<std::uint32_t> &words, const baked &told, Bake call)
    {
        for (;;) {
            const pathdb_status ended = call(words.data(), words.size());
            if (ended != PATHDB_DONE && ended != PATHDB_TOO_SMALL) return static_cast<status>(ended);
            words.resize(told.words);
            if (ended == PATHDB_DONE) return status::done;
        }
    }

    template <typename Bake> status bake_with(baked &told, std::size_t room, Bake call)
    {
        std::vector<std::uint32_t> words(room > 0 ? room : 1);
        const status ended = fill(words, told, call);
        if (ended != status::done) return ended;
        words.shrink_to_fit();
        words_ = std::move(words);
        return status::done;
    }

    std::vector<std::uint32_t> words_;
};

} // namespace pathdb

#undef PATHDB_NODISCARD

#endif
