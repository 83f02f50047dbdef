/* pathdb_read: paths from an image of pathdb, for systems that libpathdb is not made for: Windows, macOS, consoles,
 * 32-bit processors. One file of C99 (and C++11), to be copied into a game; it needs the headers of the language alone.
 *
 *   uint32_t part;
 *   if (pathdb_read_check(words, count, &part) != PATHDB_READ_DONE) ...            once, after loading
 *   uint8_t moves[512];
 *   uint32_t length;
 *   pathdb_read_cell from = {2, 2}, to = {37, 17};
 *   if (pathdb_read_path(words, count, from, to, moves, sizeof moves, &length) == PATHDB_READ_DONE) ...
 *
 * Each call is the one of pathdb.h that has `pathdb_` where this has `pathdb_read_`, with the same arguments, statuses
 * and answers; pathdb.h says what they mean. Both headers may be included in one file. libpathdb or path_bake makes the
 * image on a machine of yours, and the game ships it as a file. Images of form 1 are read (docs/reference/formats.md, "The
 * image").
 *
 * Byte order. The words are those of the file, each with its lowest byte first, on every processor: load or map the
 * file and turn nothing. They are aligned as a uint32_t is.
 *
 * Trust. Nothing is proved of this file. tests/read.py compares it with the proved library, on a million queries and on
 * 100,000 spoilt images. As in pathdb.h, pathdb_read_check reads any words inside of them alone, and the other calls
 * want words that passed it. No call takes memory or keeps anything, and any number of threads may read one image. */
#ifndef PATHDB_READ_H
#define PATHDB_READ_H

#include <stddef.h>
#include <stdint.h>

#ifdef __cplusplus
extern "C" {
#endif

/* How a call ended, with the numbers of pathdb_status. */
typedef enum pathdb_read_status {
    PATHDB_READ_DONE = 0,
    PATHDB_READ_ARRIVED = 1,
    PATHDB_READ_UNREACHABLE = 2,
    PATHDB_READ_OUTSIDE_START = 3,
    PATHDB_READ_BLOCKED_START = 4,
    PATHDB_READ_OUTSIDE_GOAL = 5,
    PATHDB_READ_BLOCKED_GOAL = 6,
    PATHDB_READ_TOO_SMALL = 7,
    PATHDB_READ_BROKEN = 8,
    PATHDB_READ_NO_IMAGE = 9,
    PATHDB_READ_OTHER_FORM = 10,
    PATHDB_READ_WRONG_LENGTH = 11,
    PATHDB_READ_WRONG_SIDES = 12,
    PATHDB_READ_WRONG_LISTS = 13,
    PATHDB_READ_WRONG_TABLE = 14,
    PATHDB_READ_WRONG_HOME = 15
} pathdb_read_status;

/* A cell: its column and its row, from 0. */
typedef struct pathdb_read_cell {
    uint16_t x;
    uint16_t y;
} pathdb_read_cell;

/* What a path costs: its length is straight + diagonal * sqrt(2). */
typedef struct pathdb_read_cost {
    uint32_t straight;
    uint32_t diagonal;
} pathdb_read_cost;

/* What an image says of its map, as pathdb_facts. */
typedef struct pathdb_read_map_facts {
    uint32_t width;
    uint32_t height;
    uint32_t cells;
    uint32_t components;
    uint32_t prefix;
} pathdb_read_map_facts;

/* ---- the words ---- */

enum {
    PATHDB_READ_HEAD = 10,           /* how many words stand before those of the cells */
    PATHDB_READ_MOST_SIDE = 4096,    /* the longest side */
    PATHDB_READ_MOST_CELLS = 1 << 20,
    PATHDB_READ_MOST_PASSABLE = 1 << 15
};

/* A word of an image. */
static inline uint32_t pathdb_read_word(const uint32_t *words, size_t at)
{
#if defined(_WIN32) || (defined(__BYTE_ORDER__) && __BYTE_ORDER__ == __ORDER_LITTLE_ENDIAN__)
    return words[at];
#else
    const unsigned char *bytes = (const unsigned char *)(words + at);
    return (uint32_t)bytes[0] | (uint32_t)bytes[1] << 8 | (uint32_t)bytes[2] << 16 | (uint32_t)bytes[3] << 24;
#endif
}

/* The word of a cell, which is its component * 65536 + its place there, or 0xFFFFFFFF where it is blocked. */
static inline uint32_t pathdb_read_home(const uint32_t *words, uint32_t x, uint32_t y)
{
    return pathdb_read_word(words, PATHDB_READ_HEAD + (size_t)y * pathdb_read_word(words, 4) + x);
}

/* Where the table of a component begins. */
static inline size_t pathdb_read_table(const uint32_t *words, uint32_t component)
{
    const size_t cells = (size_t)pathdb_read_word(words, 4) * pathdb_read_word(words, 5);
    return pathdb_read_word(words, PATHDB_READ_HEAD + cells + component);
}

/* ---- the check ---- */

/* Whether a table has a row of runs at a place: it has a run at least, ends inside, and its starts rise from 0. The
 * runs begin at `runs`, and the words end at `count`. */
static inline int pathdb_read_is_row(const uint32_t *words, size_t count, size_t border, size_t runs)
{
    const uint32_t from = pathdb_read_word(words, border), upto = pathdb_read_word(words, border + 1);
    uint32_t before = 0, run, at;
    if (from >= upto || runs > count || upto > count - runs || pathdb_read_word(words, runs + from) >= 8) return 0;
    for (at = from + 1; at < upto; at++) {
        run = pathdb_read_word(words, runs + at) / 8;
        if (run <= before) return 0;
        before = run;
    }
    return 1;
}

/* Whether the table of a component begins there: its cells lie inside the sides, and its rows are rows. */
static inline int pathdb_read_is_table(const uint32_t *words, size_t count, size_t start)
{
    const uint32_t width = pathdb_read_word(words, 4), height = pathdb_read_word(words, 5);
    uint32_t size, place;
    size_t borders;
    if (start >= count) return 0;
    size = pathdb_read_word(words, start);
    if (size > PATHDB_READ_MOST_PASSABLE || count - start < 2 * (size_t)size + 2) return 0;
    for (place = 0; place < size; place++) {
        const uint32_t cell = pathdb_read_word(words, start + 1 + place);
        if ((cell & 0xFFFF) >= width || cell >> 16 >= height) return 0;
    }
    borders = start + 1 + size;
    for (place = 0; place < size; place++)
        if (!pathdb_read_is_row(words, count, borders + place, borders + size + 1)) return 0;
    return 1;
}

/* Judges the words of all cells: each is that of a blocked one, or leads to a place of a component. */
static inline pathdb_read_status pathdb_read_check_homes(const uint32_t *words, uint32_t *part)
{
    const uint32_t cells = pathdb_read_word(words, 4) * pathdb_read_word(words, 5);
    uint32_t at;
    for (at = 0; at < cells; at++) {
        const uint32_t home = pathdb_read_word(words, PATHDB_READ_HEAD + at), component = home >> 16;
        if (home != 0xFFFFFFFF && (component >= pathdb_read_word(words, 9) ||
                                   (home & 0xFFFF) >= pathdb_read_word(words, pathdb_read_table(words, component)))) {
            *part = at;
            return PATHDB_READ_WRONG_HOME;
        }
    }
    return PATHDB_READ_DONE;
}

static inline pathdb_read_status pathdb_read_check(const uint32_t *words, size_t count, uint32_t *part)
{
    uint32_t width, height, components, component;
    size_t begin;
    *part = 0;
    if (count < PATHDB_READ_HEAD || pathdb_read_word(words, 0) != 0x68746170 ||
        pathdb_read_word(words, 1) != 0x67616D69)
        return PATHDB_READ_NO_IMAGE;
    if (pathdb_read_word(words, 2) != 1) return PATHDB_READ_OTHER_FORM;
    if (pathdb_read_word(words, 3) != count) return PATHDB_READ_WRONG_LENGTH;
    width = pathdb_read_word(words, 4);
    height = pathdb_read_word(words, 5);
    if (width < 1 || width > PATHDB_READ_MOST_SIDE || height < 1 || height > PATHDB_READ_MOST_SIDE ||
        width * height > PATHDB_READ_MOST_CELLS)
        return PATHDB_READ_WRONG_SIDES;
    components = pathdb_read_word(words, 9);
    begin = PATHDB_READ_HEAD + (size_t)width * height;
    if (begin > count || components > count - begin) return PATHDB_READ_WRONG_LISTS;
    for (component = 0; component < components; component++) {
        if (!pathdb_read_is_table(words, count, pathdb_read_table(words, component))) {
            *part = component;
            return PATHDB_READ_WRONG_TABLE;
        }
    }
    return pathdb_read_check_homes(words, part);
}

/* ---- reading ---- */

static inline void pathdb_read_read_facts(const uint32_t *words, size_t count, pathdb_read_map_facts *facts)
{
    (void)count;
    facts->width = pathdb_read_word(words, 4);
    facts->height = pathdb_read_word(words, 5);
    facts->prefix = pathdb_read_word(words, 6);
    facts->cells = pathdb_read_word(words, 8);
    facts->components = pathdb_read_word(words, 9);
}

/* The move that the row of a place keeps for a goal: that of the last run whose start is not above the goal's place. */
static inline uint32_t pathdb_read_move(const uint32_t *words, size_t start, uint32_t place, uint32_t goal)
{
    const uint32_t size = pathdb_read_word(words, start);
    const size_t borders = start + 1 + size, runs = borders + size + 1;
    size_t low = runs + pathdb_read_word(words, borders + place);
    size_t high = runs + pathdb_read_word(words, borders + place + 1);
    while (high - low > 1) {
        const size_t middle = low + (high - low) / 2;
        if (pathdb_read_word(words, middle) / 8 <= goal)
            low = middle;
        else
            high = middle;
    }
    return pathdb_read_word(words, low) % 8;
}

/* The words of both ends, of which the start is judged first. */
static inline pathdb_read_status pathdb_read_ends(const uint32_t *words, pathdb_read_cell start, pathdb_read_cell goal,
                                                  uint32_t *from, uint32_t *to)
{
    const uint32_t width = pathdb_read_word(words, 4), height = pathdb_read_word(words, 5);
    if (start.x >= width || start.y >= height) return PATHDB_READ_OUTSIDE_START;
    *from = pathdb_read_home(words, start.x, start.y);
    if (*from == 0xFFFFFFFF) return PATHDB_READ_BLOCKED_START;
    if (goal.x >= width || goal.y >= height) return PATHDB_READ_OUTSIDE_GOAL;
    *to = pathdb_read_home(words, goal.x, goal.y);
    if (*to == 0xFFFFFFFF) return PATHDB_READ_BLOCKED_GOAL;
    return PATHDB_READ_DONE;
}

static inline pathdb_read_status pathdb_read_next_move(const uint32_t *words, size_t count, pathdb_read_cell at,
                                                       pathdb_read_cell goal, uint8_t *move)
{
    uint32_t from = 0, to = 0;
    const pathdb_read_status found = pathdb_read_ends(words, at, goal, &from, &to);
    (void)count;
    if (found != PATHDB_READ_DONE) return found;
    if (at.x == goal.x && at.y == goal.y) return PATHDB_READ_ARRIVED;
    if (from >> 16 != to >> 16) return PATHDB_READ_UNREACHABLE;
    *move = (uint8_t)pathdb_read_move(words, pathdb_read_table(words, from >> 16), from & 0xFFFF, to & 0xFFFF);
    return PATHDB_READ_DONE;
}

/* Walks a path. The first moves are written as far as there is room, and all of them counted. */
static inline pathdb_read_status pathdb_read_walk(const uint32_t *words, pathdb_read_cell start, pathdb_read_cell goal,
                                                  uint8_t *moves, size_t room, uint32_t *length,
                                                  pathdb_read_cost *cost)
{
    static const int32_t east[8] = {0, 1, 1, 1, 0, -1, -1, -1}, south[8] = {-1, -1, 0, 1, 1, 1, 0, -1};
    const uint32_t width = pathdb_read_word(words, 4), height = pathdb_read_word(words, 5);
    uint32_t at = 0, to = 0, x = start.x, y = start.y, left;
    size_t table;
    const pathdb_read_status found = pathdb_read_ends(words, start, goal, &at, &to);
    *length = cost->straight = cost->diagonal = 0;
    if (found != PATHDB_READ_DONE) return found;
    if (at >> 16 != to >> 16) return PATHDB_READ_UNREACHABLE;
    table = pathdb_read_table(words, at >> 16);
    for (left = pathdb_read_word(words, table); at != to; left--) {
        const uint32_t move = pathdb_read_move(words, table, at & 0xFFFF, to & 0xFFFF);
        /* a path has fewer moves than its component has cells; a column or row below 0 is not below a side either */
        x = (uint32_t)((int32_t)x + east[move]);
        y = (uint32_t)((int32_t)y + south[move]);
        if (left <= 1 || x >= width || y >= height) return PATHDB_READ_BROKEN;
        at = pathdb_read_home(words, x, y);
        if (at == 0xFFFFFFFF || at >> 16 != to >> 16) return PATHDB_READ_BROKEN;
        if (*length < room) moves[*length] = (uint8_t)move;
        ++*length;
        if (move % 2 == 0)
            cost->straight++;
        else
            cost->diagonal++;
    }
    return PATHDB_READ_DONE;
}

static inline pathdb_read_status pathdb_read_path_cost(const uint32_t *words, size_t count, pathdb_read_cell start,
                                                       pathdb_read_cell goal, pathdb_read_cost *cost)
{
    uint32_t length;
    pathdb_read_cost walked;
    const pathdb_read_status found = pathdb_read_walk(words, start, goal, NULL, 0, &length, &walked);
    (void)count;
    if (found == PATHDB_READ_DONE) *cost = walked;
    return found;
}

static inline pathdb_read_status pathdb_read_path(const uint32_t *words, size_t count, pathdb_read_cell start,
                                                  pathdb_read_cell goal, uint8_t *moves, size_t room, uint32_t *length)
{
    pathdb_read_cost walked;
    const pathdb_read_status found = pathdb_read_walk(words, start, goal, moves, room, length, &walked);
    (void)count;
    if (found != PATHDB_READ_DONE) {
        *length = 0;
        return found;
    }
    return *length > room ? PATHDB_READ_TOO_SMALL : PATHDB_READ_DONE;
}

#ifdef __cplusplus
}
#endif

#endif
