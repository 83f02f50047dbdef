// pathdb.hpp: empty images and views, bakes in each way, a memory of the caller's, and spans where there are some. Ends
// with 1 where something is not as it should be.
#include "pathdb.hpp"

#include <cstdio>
#include <cstdlib>
#include <functional>
#include <type_traits>

namespace {

int failed = 0;

void judge(const char *what, bool is_so)
{
    if (is_so) return;
    failed = 1;
    std::fprintf(stderr, "pathdb_cpp: %s\n", what);
}

void *take(void *user, std::size_t bytes)
{
    ++*static_cast<int *>(user);
    return std::malloc(bytes);
}

void give(void *, void *block) { std::free(block); }

void try_empty()
{
    const pathdb::image none;
    std::vector<std::uint8_t> moves;
    std::uint8_t move = 9;
    std::uint32_t part = 9;
    pathdb::cost cost = {9, 9};
    const pathdb::view view = none.view();
    judge("an image of nothing", !none && !view && !pathdb::view() && view.facts().width == 0);
    judge("its path", view.path({0, 0}, {1, 1}, moves) == pathdb::status::no_image && moves.empty());
    judge("its move", view.next({0, 0}, {1, 1}, move) == pathdb::status::no_image && move == 9);
    judge("its cost", view.cost({0, 0}, {1, 1}, cost) == pathdb::status::no_image && cost.straight == 9);
    judge("its check", pathdb::view::check(view.data(), view.size(), part) == pathdb::status::no_image);
    pathdb::image taken;
    judge("no words", taken.take({}, part) == pathdb::status::no_image && !taken);
}

void try_bakes()
{
    const std::vector<std::uint8_t> cells(12, 1);
    const std::string text = "type octile\nheight 3\nwidth 4\nmap\n....\n....\n....\n";
    pathdb::baked told;
    pathdb::image by_cells, by_text, by_parts;
    int asked = 0;
    const pathdb::memory mine = {take, give, &asked};
    judge("cells", by_cells.bake(4, 3, cells, pathdb::order::dfs, told) == pathdb::status::done && by_cells);
    judge("a text", by_text.bake(text, pathdb::order::dfs, told, 1, &mine) == pathdb::status::done);
    judge("my memory", asked > 0);
    using job = std::function<void(std::size_t)>;
    const auto run = [](std::size_t count, const job &each) {
        for (std::size_t which = 0; which < count; which++) each(which);
    };
    judge("parts", by_parts.bake_parts(4, 3, cells, pathdb::order::dfs, told, 5, run, &mine) == pathdb::status::done);
    judge("one image", by_cells.words() == by_text.words() && by_cells.words() == by_parts.words());
    judge("no cells", by_text.bake(2, 2, std::vector<std::uint8_t>(), pathdb::order::rows, told) ==
                          pathdb::status::wrong_count);
    judge("as it was", by_cells.words() == by_text.words());
    std::vector<std::uint8_t> moves;
    judge("a path", by_cells.view().path({0, 0}, {3, 2}, moves) == pathdb::status::done && moves.size() == 3);
    std::uint8_t room[2];
    std::uint32_t length = 0;
    judge("a room", pathdb::view(by_cells.words()).path({0, 0}, {3, 2}, room, 2, length) == pathdb::status::too_small);
    judge("its length", length == 3);
#ifdef __cpp_lib_span
    std::uint8_t many[8];
    const pathdb::view view(std::span<const std::uint32_t>(by_cells.words()));
    judge("a span", view.path({0, 0}, {3, 2}, std::span<std::uint8_t>(many), length) == pathdb::status::done);
    judge("a span's check", pathdb::view::check(std::span<const std::uint32_t>(by_cells.words()), length) ==
                                pathdb::status::done);
    judge("a span of cells", by_text.bake(4, 3, std::span<const std::uint8_t>(cells), pathdb::order::dfs, told) ==
                                 pathdb::status::done);
#endif
    const pathdb::image moved = std::move(by_text);
    judge("moved", moved && pathdb::text(pathdb::status::unreachable) == "unreachable");
}

void try_live()
{
    const std::vector<std::uint8_t> ring = {1, 1, 1, 1, 0, 1, 1, 1, 1};
    std::vector<std::uint32_t> scratch;
    std::vector<std::uint8_t> moves;
    std::uint8_t move = 9;
    pathdb::baked told;
    pathdb::image image;
    judge("a live map of nothing", pathdb::live(pathdb::view()).next({0, 0}, {1, 0}, move) == pathdb::status::no_image);
    judge("a ring", image.bake(3, 3, ring, pathdb::order::rows, told) == pathdb::status::done);
    pathdb::live live(image.view());
    judge("a free path", live.find({0, 0}, {2, 0}, scratch, moves) == pathdb::status::done && moves.size() == 2);
    judge("without a search", scratch.empty());
    live.set({1, 0}, true);
    judge("a closed door", live.is_set({1, 0}) && live.next({0, 0}, {2, 0}, move) == pathdb::status::stale && move == 2);
    judge("the way round", live.find({0, 0}, {2, 0}, scratch, moves) == pathdb::status::done && moves.size() == 6);
    live.set({1, 2}, true);
    judge("both closed", live.find({0, 0}, {2, 0}, scratch, moves) == pathdb::status::unreachable && moves.empty());
    live.set({1, 0}, false);
    judge("open again", live.find({0, 0}, {2, 0}, scratch, moves) == pathdb::status::done && moves.size() == 2);
    judge("what is closed", live.find({1, 2}, {2, 0}, scratch, moves) == pathdb::status::blocked_start);
    const std::vector<pathdb::cost> costs = image.view().costs({0, 0}, {{2, 0}, {1, 1}, {2, 2}});
    judge("costs", costs.size() == 3 && costs[0].straight == 2 && costs[1].straight == PATHDB_NO_COST &&
                       costs[2].straight == 4 && costs[2].diagonal == 0);
    judge("cells", image.view().is_passable({2, 2}) && !image.view().is_passable({1, 1}));
}

} // namespace

static_assert(!std::is_convertible<pathdb::image, bool>::value, "an image is no number");
static_assert(!std::is_copy_constructible<pathdb::image>::value, "an image is never copied");

int main()
{
    try_empty();
    try_bakes();
    try_live();
    return failed;
}
