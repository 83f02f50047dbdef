/* pathdb: exact shortest paths on the grid maps of games, from a database that ships with the game.
 *
 * The database of a map is an image: one array of 32-bit words, without pointers, in memory of yours. It may be baked
 * at run time (pathdb_bake_text, pathdb_bake_cells) or before, and be read from a file or mapped: a file of an image
 * has its words one behind the other, the lowest byte first. From the image each path is read by look-ups alone, one
 * a move, and no path is shorter.
 *
 *   uint32_t part;
 *   if (pathdb_check(words, count, &part) != PATHDB_DONE) ...                     once, after loading
 *   uint8_t moves[512];
 *   uint32_t length;
 *   pathdb_cell from = {2, 2}, to = {37, 17};
 *   if (pathdb_path(words, count, from, to, moves, sizeof moves, &length) == PATHDB_DONE) ...
 *
 * Maps. Cells lie on a grid, column x and row y from 0 at the upper left. A move leads to one of the eight cells
 * around, and is a number: 0 north (one row up), 1 north-east, 2 east, 3 south-east, 4 south, 5 south-west, 6 west, 7
 * north-west. A straight move, an even number, has length 1; a diagonal one has length the square root of 2, and is
 * made only where the two cells beside it are passable too. Land and water are passable, and no move leads from the
 * one to the other. A map has sides of 1 to 4096 cells, at most 1048576 cells, and at most 32768 passable ones.
 *
 * Lifetime. The library keeps nothing between two calls, has no global state and wants no set-up. All memory that it
 * reads or writes is the caller's, for the time of the call. An image may lie anywhere, be copied, and be mapped from
 * a file that is read only; it is aligned as a uint32_t is.
 *
 * Threads. Any number of threads may read one image at once: reading writes nothing but what is handed in for the
 * answer. Baking writes the room that it is given, and so nobody may read that until it is done; to change a map
 * under way, bake the new one into other memory and swap the pointer. Any number of threads may bake at once, each
 * into a room of its own: so an image is baked by all of them, each its parts (pathdb_part), and put together by one
 * (pathdb_join). The library starts no thread and takes no lock.
 * It must not be called from a signal handler, nor in the forked child of a process with threads.
 *
 * Pointers. A pointer may be NULL where the length beside it is 0: that is an empty list or a room of no places. No
 * other pointer is NULL. What is handed in to be written overlaps nothing else that is handed in.
 *
 * Processor. The library is for Linux on aarch64 and on x86-64-v2 (SSSE3, SSE4.1, SSE4.2, POPCNT: nearly all x86-64
 * since 2009), and does not test for it: on an older one the process may be ended by an illegal instruction. Who may
 * meet one asks before the first call, as by __builtin_cpu_supports("sse4.2") of gcc and clang. For other systems
 * pathdb_read.h reads images.
 *
 * Trust. pathdb_check reads any words of any source, inside of them alone. The other calls that read an image want
 * words that passed it, or that a bake of this library wrote, and that have not changed since: this is not tested
 * again. Over words that passed and are no image of a map they still read inside alone, and return.
 *
 * What is proved: each answer is right over the image of a map, for every map and every two cells, as the contracts
 * in crates/pathdb say; the code that this header declares is compiled from what was proved. C that calls it is not
 * proved.
 */
#ifndef PATHDB_H
#define PATHDB_H

#include <stdbool.h>
#include <stddef.h>
#include <stdint.h>

#ifdef __cplusplus
extern "C" {
#endif

/* The version that this header is of. pathdb_version is that of the library that is there when the program runs. */
#define PATHDB_VERSION "0.22.0"
#define PATHDB_VERSION_MAJOR 0
#define PATHDB_VERSION_MINOR 22
#define PATHDB_VERSION_PATCH 0
#define PATHDB_VERSION_NUMBER (PATHDB_VERSION_MAJOR * 1000000 + PATHDB_VERSION_MINOR * 1000 + PATHDB_VERSION_PATCH)

/* The version of the library, as PATHDB_VERSION_NUMBER: 22000 is 0.22.0. */
uint32_t pathdb_version(void);

/* How a call ended. The numbers stay as they are; later versions may add to them. */
typedef enum pathdb_status {
    PATHDB_DONE = 0,           /* the work was done */

    /* of a query */
    PATHDB_ARRIVED = 1,        /* the cell is the goal: no move is left */
    PATHDB_UNREACHABLE = 2,    /* both cells are passable, and no path leads from the one to the other */
    PATHDB_OUTSIDE_START = 3,  /* the start, or the cell where the path stands, lies outside the map */
    PATHDB_BLOCKED_START = 4,  /* the start, or the cell where the path stands, is blocked */
    PATHDB_OUTSIDE_GOAL = 5,   /* the goal lies outside the map; the start is judged first */
    PATHDB_BLOCKED_GOAL = 6,   /* the goal is blocked */
    PATHDB_TOO_SMALL = 7,      /* the room has too few places; how many are needed was written */
    PATHDB_BROKEN = 8,         /* the words passed the check and are no image of a map all the same */

    /* of a check */
    PATHDB_NO_IMAGE = 9,       /* too few words for an image, or they do not begin as one does */
    PATHDB_OTHER_FORM = 10,    /* an image of another form than this library reads */
    PATHDB_WRONG_LENGTH = 11,  /* more words or fewer than the image says: part of a file, or bytes behind it */
    PATHDB_WRONG_SIDES = 12,   /* sides that no map has */
    PATHDB_WRONG_LISTS = 13,   /* too few words for the cells of the map */
    PATHDB_WRONG_TABLE = 14,   /* the table of a component is wrong: *part is its number */
    PATHDB_WRONG_HOME = 15,    /* the word of a cell is wrong: *part is its place, y * width + x */

    /* of a bake */
    PATHDB_NO_ORDER = 16,      /* no order has that number */
    PATHDB_TEXT_TOO_LONG = 17, /* the text of a map has more than 2097152 bytes */
    PATHDB_BAD_HEADER = 18,    /* line `line` of a map's text is not that of its header */
    PATHDB_BAD_SIZE = 19,      /* a side is not from 1 to 4096, or there are too many cells: line `line` */
    PATHDB_BAD_ROW = 20,       /* line `line` has `found` cells, and not `expected` */
    PATHDB_BAD_BYTE = 21,      /* `byte`, which stands for no cell, at column `x` and row `y` */
    PATHDB_MISSING_ROWS = 22,  /* the text ends after `found` rows */
    PATHDB_EXTRA_LINE = 23,    /* line `line`, behind the rows, is not blank */
    PATHDB_TOO_MANY_CELLS = 24, /* more than 32768 passable cells; of a text the first too many is at `x` and `y` */
    PATHDB_WRONG_COUNT = 25,   /* there are not width * height cells */
    PATHDB_NO_MEMORY = 26,     /* memory ran out */

    /* of a bake in parts */
    PATHDB_NO_SOURCES = 27,    /* the map has no such sources */
    PATHDB_BROKEN_PART = 28,   /* a part is not the next one, or ends too early: `found` parts have begun there */

    /* of a query on a live map; 29 to 40 are left for later calls */
    PATHDB_STALE = 41,         /* the path that the image tells is not free now; another may be */
    PATHDB_MORE = 42,          /* the search has taken as many cells as it may, and waits in its scratch */
    PATHDB_WRONG_BITS = 43,    /* there is not a bit for each cell of the map, or there are more words */
    PATHDB_FEW_WORDS = 44      /* the search wants a scratch of more words */
} pathdb_status;

/* A cell: its column and its row, from 0. */
typedef struct pathdb_cell {
    uint16_t x;
    uint16_t y;
} pathdb_cell;

/* What a path costs. Its length is straight + diagonal * sqrt(2), in cells; two costs are equal only where both
 * numbers are. */
typedef struct pathdb_cost {
    uint32_t straight;
    uint32_t diagonal;
} pathdb_cost;

/* What an image says of its map. */
typedef struct pathdb_facts {
    uint32_t width;      /* columns, 1 to 4096 */
    uint32_t height;     /* rows, 1 to 4096 */
    uint32_t cells;      /* passable cells, 0 to 32768 */
    uint32_t components; /* into how many parts they fall: a path exists exactly inside one */
    uint32_t prefix;     /* how many edits of its first map it comes after; 0 for a map that was baked */
} pathdb_facts;

/* How many moves the longest path of any map has: one fewer than passable cells. */
#define PATHDB_LONGEST 32767

/* How many bytes are enough for the text of each status, with the byte 0 at its end. */
#define PATHDB_TEXT_ROOM 64

/* ---- reading ---- */

/* Looks once at words of whatever source: whether each number in them leads inside. It takes the time of reading them
 * once.
 *   PATHDB_DONE: they passed, and the calls below may be made with them. Each image that a bake wrote passes.
 *   PATHDB_NO_IMAGE .. PATHDB_WRONG_HOME: they did not; *part is the number that the status speaks of, and else 0. */
pathdb_status pathdb_check(const uint32_t *words, size_t count, uint32_t *part);

/* What an image says of its map. The words passed the check. */
void pathdb_read_facts(const uint32_t *words, size_t count, pathdb_facts *facts);

/* In which component a cell lies. A path leads from one passable cell to another exactly where both lie in the same
 * one. The words passed the check.
 *   PATHDB_DONE: the cell is passable, and *component is its number, from 0.
 *   PATHDB_OUTSIDE_START, PATHDB_BLOCKED_START: *component is as it was. */
pathdb_status pathdb_component(const uint32_t *words, size_t count, pathdb_cell cell, uint32_t *component);

/* Where the path from a cell to a goal goes on: the number of the move, which begins a shortest path. A unit that
 * asks again from each cell it comes to walks the path that pathdb_path tells. The words passed the check.
 *   PATHDB_DONE: *move is written.
 *   PATHDB_ARRIVED, PATHDB_UNREACHABLE, PATHDB_OUTSIDE_START .. PATHDB_BLOCKED_GOAL: *move is as it was. */
pathdb_status pathdb_next_move(const uint32_t *words, size_t count, pathdb_cell at, pathdb_cell goal, uint8_t *move);

/* What a shortest path costs. The words passed the check. From a cell to itself it costs nothing.
 *   PATHDB_DONE: *cost is written.
 *   PATHDB_UNREACHABLE, PATHDB_OUTSIDE_START .. PATHDB_BLOCKED_GOAL, PATHDB_BROKEN: *cost is as it was. */
pathdb_status pathdb_path_cost(const uint32_t *words, size_t count, pathdb_cell start, pathdb_cell goal,
                               pathdb_cost *cost);

/* Both numbers of a cost where there is none. */
#define PATHDB_NO_COST UINT32_MAX

/* What shortest paths from a cell to each of many goals cost. The words passed the check. Answers how many costs it has
 * written: as many as there are goals, or fewer where the room has places for fewer. costs[k] is that of goals[k]; both
 * of its numbers are PATHDB_NO_COST where no path exists, or where an end lies outside the map or is blocked. From the
 * goal to the start a path costs the same. */
size_t pathdb_costs(const uint32_t *words, size_t count, pathdb_cell start, const pathdb_cell *goals,
                    size_t goal_count, pathdb_cost *costs, size_t room);

/* The moves of a shortest path, a byte a move, into a room of so many bytes. The words passed the check.
 *   PATHDB_DONE: *length moves stand in the room, at most `room`. From a cell to itself there are none.
 *   PATHDB_TOO_SMALL: the room has the first moves of the path, and *length is how many there are.
 *   PATHDB_UNREACHABLE, PATHDB_OUTSIDE_START .. PATHDB_BLOCKED_GOAL: the room is as it was, and *length is 0.
 *   PATHDB_BROKEN: the room may have anything, and *length is 0. */
pathdb_status pathdb_path(const uint32_t *words, size_t count, pathdb_cell start, pathdb_cell goal, uint8_t *moves,
                          size_t room, uint32_t *length);

/* ---- live maps ---- */

/* Doors that close while the image stays as it is. Bake the map with every door open and every wall that may fall
 * already down. From then on cells are only blocked, by a bit of yours for each, and freed again:
 *
 *   uint32_t blocked[PATHDB_BIT_WORDS(WIDTH, HEIGHT)] = {0};
 *   pathdb_blocked_set(blocked, WIDTH, door, true);                                    the door closes
 *   ended = pathdb_path_live(words, count, blocked, n, from, to, moves, sizeof moves, &length);
 *   if (ended == PATHDB_STALE) {                                                       the told path is not free
 *       pathdb_search search = {from, to, UINT32_MAX};
 *       ended = pathdb_search_live(words, count, blocked, n, search, scratch, size, moves, sizeof moves, &length);
 *   }
 *
 * The live map has the cells of the baked map whose bits are not set. Each of its paths is a path of the baked map too,
 * so a path that the image tells is a shortest one now wherever it is free, and look-ups alone are enough. Where it is
 * not, a search finds a shortest path; the costs in the image lead it round what is closed. A cell that the image has
 * as blocked stays so, whatever its bit: to free one, bake anew.
 *
 * The calls keep nothing. Bits, scratch and rooms are yours. Any number of threads may read the same bits, each with a
 * scratch of its own, while nobody writes them: change bits between two ticks, say. */

/* How many words have a bit for each cell of a map with these sides. The bit of a cell is bit place % 32 of word
 * place / 32, where place is y * width + x. */
#define PATHDB_BIT_WORDS(width, height) (((size_t)(width) * (height) + 31) / 32)

/* Blocks a cell inside the map, or frees it. Nothing is tested. */
static inline void pathdb_blocked_set(uint32_t *blocked, uint32_t width, pathdb_cell cell, bool is_blocked)
{
    const uint32_t place = cell.y * width + cell.x, bit = (uint32_t)1 << place % 32;
    blocked[place / 32] = is_blocked ? blocked[place / 32] | bit : blocked[place / 32] & ~bit;
}

/* Whether the bit of a cell inside the map is set. */
static inline bool pathdb_blocked_at(const uint32_t *blocked, uint32_t width, pathdb_cell cell)
{
    const uint32_t place = cell.y * width + cell.x;
    return (blocked[place / 32] >> place % 32 & 1) != 0;
}

/* Where the path that the image tells goes on, and whether that one move is free now. `bits` is how many words of bits
 * there are. The words passed the check.
 *   PATHDB_DONE: *move is written, and may be made now.
 *   PATHDB_STALE: *move is written, and may not be made now: where it leads is blocked, or beside it.
 *   PATHDB_UNREACHABLE: no path exists, also where every cell is free.
 *   PATHDB_ARRIVED, PATHDB_OUTSIDE_START .. PATHDB_BLOCKED_GOAL, PATHDB_WRONG_BITS, PATHDB_BROKEN: *move is as it was.
 * A unit that makes moves as they are told may come to a closed door that pathdb_path_live had seen from afar. To get
 * round it, it follows a path of pathdb_search_live to the end, or until a bit changes: told moves lead back there. */
pathdb_status pathdb_next_move_live(const uint32_t *words, size_t count, const uint32_t *blocked, size_t bits,
                                    pathdb_cell at, pathdb_cell goal, uint8_t *move);

/* The moves of the path that the image tells, as far as they are free now. The words passed the check.
 *   PATHDB_DONE: all are free: *length moves stand in the room, and no path of the live map is shorter.
 *   PATHDB_STALE: the first *length moves are free and the next is not. They stand in the room as far as it reaches.
 *   PATHDB_TOO_SMALL: all are free, the room has the first of them, and *length is how many there are.
 *   PATHDB_UNREACHABLE: no path exists, also where every cell is free. The room is as it was, and *length is 0.
 *   PATHDB_OUTSIDE_START .. PATHDB_BLOCKED_GOAL: by the live map. The room is as it was, and *length is 0.
 *   PATHDB_WRONG_BITS: `bits` is not PATHDB_BIT_WORDS of the map. The room is as it was, and *length is 0.
 *   PATHDB_BROKEN: the room may have anything, and *length is 0. */
pathdb_status pathdb_path_live(const uint32_t *words, size_t count, const uint32_t *blocked, size_t bits,
                               pathdb_cell start, pathdb_cell goal, uint8_t *moves, size_t room, uint32_t *length);

/* What a search is for, and how far one call goes with it. */
typedef struct pathdb_search {
    pathdb_cell start;
    pathdb_cell goal;
    uint32_t limit; /* how many cells a call takes at most; UINT32_MAX for a search in one call */
} pathdb_search;

/* How many words of scratch are enough for each search on a map with so many passable cells (pathdb_facts.cells). */
uint64_t pathdb_search_words(uint32_t cells);

/* The moves of a shortest path of the live map, by a search. The words passed the check. The scratch may hold anything,
 * is used again without being cleared, and overlaps nothing else; with pathdb_search_words it is of the right size for
 * each two cells.
 *   PATHDB_DONE: *length moves stand in the room, and no path of the live map is shorter.
 *   PATHDB_UNREACHABLE: no path of the live map. The room is as it was, and *length is 0.
 *   PATHDB_MORE: the limit was reached. The scratch has the search, for pathdb_search_on; *length is 0.
 *   PATHDB_TOO_SMALL: there is a shortest path, which has *length moves. Begin anew with a room for them; one of
 *     PATHDB_LONGEST is always enough.
 *   PATHDB_FEW_WORDS: the scratch has fewer words than 8 for each cell that can be reached, and one. *length is 0.
 *   PATHDB_OUTSIDE_START .. PATHDB_BLOCKED_GOAL, PATHDB_WRONG_BITS: as pathdb_path_live.
 *   PATHDB_BROKEN: the room may have anything, and *length is 0.
 * Over words that are no image of a map a search may take very long. Where players can change your images, set a limit
 * and give up after some calls. */
pathdb_status pathdb_search_live(const uint32_t *words, size_t count, const uint32_t *blocked, size_t bits,
                                 pathdb_search search, uint32_t *scratch, size_t size, uint8_t *moves, size_t room,
                                 uint32_t *length);

/* Goes on with a search that ended with PATHDB_MORE: for the same two cells, in the scratch as it was left, with the
 * bits as they were then. Where a bit has changed, begin anew. The limit may be another. It ends as pathdb_search_live,
 * and with a path of the same length however the search was cut. */
pathdb_status pathdb_search_on(const uint32_t *words, size_t count, const uint32_t *blocked, size_t bits,
                               pathdb_search search, uint32_t *scratch, size_t size, uint8_t *moves, size_t room,
                               uint32_t *length);

/* ---- statuses in words ---- */

/* What a status means, in English and ASCII: writes the text and a byte 0 at its end into a room of so many bytes, as
 * far as it reaches, and answers how long the text is without that byte, fewer than PATHDB_TEXT_ROOM. A number that
 * no status has is "no status". The status is taken as a number, so that any may be asked for. */
size_t pathdb_status_text(uint32_t status, char *text, size_t room);

/* ---- baking ---- */

/* The order of the cells in the database. Which of several shortest paths is told depends on it, and how many words
 * an image has: depth first mostly has fewer. */
typedef enum pathdb_order {
    PATHDB_ROWS = 0, /* row by row */
    PATHDB_DFS = 1   /* depth first */
} pathdb_order;

/* What a bake tells beside its status; a number that the status does not speak of is 0. Lines count from 1. */
typedef struct pathdb_baked {
    uint32_t words;    /* how many words the image or the part has, or how many components there are: with PATHDB_DONE
                          and PATHDB_TOO_SMALL */
    uint32_t line;
    uint32_t x;
    uint32_t y;
    uint32_t byte;
    uint32_t expected;
    uint32_t found;
} pathdb_baked;

/* Bakes the image of a map that is given as a text in the format of MovingAI: `type octile`, `height H`, `width W`,
 * `map`, and a line for each row; `.`, `G` and `S` are land, `W` is water, `@`, `O` and `T` are blocked. `order` is a
 * number of pathdb_order. The image is written to the first words of the room.
 *   PATHDB_DONE: the first baked->words words of the room are the image, and may be read without a check; the others
 *     are as they were. The same map and order give the same words.
 *   PATHDB_TOO_SMALL: the image has baked->words words, and the room is as it was.
 *   PATHDB_NO_ORDER .. PATHDB_NO_MEMORY: why there is none. The room is as it was.
 * How many words an image has is known only once the rows are built: a bake into too small a room takes the time of
 * the whole. In the order row by row an open map of n passable cells has about 2.2 * sqrt(n) words a cell, and other
 * maps mostly have fewer; depth first they have some two thirds of that or less. It takes memory (pathdb_memory, below)
 * for the database and for the image once more, gives it all back, and works with the calling thread alone: a second or
 * so for 10000 passable cells, ten for 30000. */
pathdb_status pathdb_bake_text(const uint8_t *text, size_t length, uint32_t order, uint32_t *words, size_t room,
                               pathdb_baked *baked);

/* The same of a map that is given by its sides and a byte a cell, row by row: 0 is blocked, 1 land and 2 water. */
pathdb_status pathdb_bake_cells(uint32_t width, uint32_t height, const uint8_t *cells, size_t length, uint32_t order,
                                uint32_t *words, size_t room, pathdb_baked *baked);

/* ---- baking in parts ---- */

/* A map may be baked by several threads of the caller's: each writes the words of some parts into memory of its own,
 * and one call puts the image together. It is word for word that of pathdb_bake_cells, however it was cut.
 *
 *   uint32_t sizes[64];
 *   pathdb_components(width, height, cells, length, order, sizes, 64, &baked);         baked.words components
 *   pathdb_sources some = {component, first, how_many};
 *   pathdb_part(width, height, cells, length, order, some, words, room, &baked);       on each thread
 *   pathdb_join(width, height, cells, length, order, parts, count, words, room, &baked);
 *
 * How to cut. The sources of a component are its cells, numbered from 0 in the order; each has one row in the image.
 * Cut those of each component into blocks that stand one behind the other: each source has to be in one part, and in
 * one alone. No call keeps anything for the next: each makes what it has to know of the map anew from all of its
 * cells. That is cheap beside the rows of many sources, and dear beside those of few: take some hundred at least, or
 * all of a small component. For pathdb_join lay the words of all parts one behind the other, by component and then by
 * first source.
 *
 * Memory. A part takes 108 bytes for each cell of its component, and each call some 20 for each passable cell and 12
 * for each cell of the map; all is given back. A part has at most 3 + count * (1 + cells of its component) words, and
 * mostly far fewer.
 *
 * The maps, the orders and the refusals are those of pathdb_bake_cells; what is refused of cells and order is told by
 * the same statuses and numbers. With a status for which nothing else is said, what the room has is of no use. */

/* Sources of one component that stand one behind the other. */
typedef struct pathdb_sources {
    uint32_t component; /* its number, from 0 */
    uint32_t first;     /* the first of its sources, from 0 */
    uint32_t count;     /* how many, one at least */
} pathdb_sources;

/* How many passable cells each component of a map has, a word a component.
 *   PATHDB_DONE: there are baked->words components, and the first words of the room are their sizes; the others are as
 *     they were. A map without passable cells has none.
 *   PATHDB_TOO_SMALL: there are baked->words components, and the room is as it was.
 *   PATHDB_NO_ORDER, PATHDB_BAD_SIZE, PATHDB_BAD_BYTE, PATHDB_TOO_MANY_CELLS .. PATHDB_NO_MEMORY: why not. */
pathdb_status pathdb_components(uint32_t width, uint32_t height, const uint8_t *cells, size_t length, uint32_t order,
                                uint32_t *sizes, size_t room, pathdb_baked *baked);

/* The part of some sources: words for pathdb_join alone, which are no image.
 *   PATHDB_DONE: the first baked->words words of the room are the part; the others are as they were.
 *   PATHDB_TOO_SMALL: the part has baked->words words. It takes the time of the whole part.
 *   PATHDB_NO_SOURCES: the component has no such sources, or there is no such component.
 *   PATHDB_NO_ORDER, PATHDB_BAD_SIZE, PATHDB_BAD_BYTE, PATHDB_TOO_MANY_CELLS .. PATHDB_NO_MEMORY: why not. */
pathdb_status pathdb_part(uint32_t width, uint32_t height, const uint8_t *cells, size_t length, uint32_t order,
                          pathdb_sources sources, uint32_t *words, size_t room, pathdb_baked *baked);

/* Puts the image together from its parts, which are `count` words in all. Any words may be handed in as parts: they are
 * read inside alone.
 *   PATHDB_DONE: the first baked->words words of the room are the image; the others are as they were. Where the parts
 *     are those of this map and this order it may be read without a check. The heads of the parts and how many words
 *     each row has were looked at, and the rows were not: parts of another map or order, or that were changed, may
 *     pass and make words that only pathdb_check can judge.
 *   PATHDB_TOO_SMALL: the image has baked->words words, and the room is as it was.
 *   PATHDB_BROKEN_PART: a part is not the one that is next, or ends too early, or words are left behind the last;
 *     baked->found parts have begun where that shows.
 *   PATHDB_NO_ORDER, PATHDB_BAD_SIZE, PATHDB_BAD_BYTE, PATHDB_TOO_MANY_CELLS .. PATHDB_NO_MEMORY: why not. */
pathdb_status pathdb_join(uint32_t width, uint32_t height, const uint8_t *cells, size_t length, uint32_t order,
                          const uint32_t *parts, size_t count, uint32_t *words, size_t room, pathdb_baked *baked);

/* ---- the memory that baking takes ---- */

/* Baking takes its memory from malloc, or from where a call is told. Reading takes none.
 *
 * Both functions are called while the call runs, on the thread that made it and on no other, so that an arena of that
 * thread will do. `alloc` answers a block of so many bytes, one at least, that is aligned to 16, or NULL where there is
 * none: then the bake ends with PATHDB_NO_MEMORY. `free` takes back a block that `alloc` gave. Each is taken back once,
 * before the call returns. Neither may leave by longjmp or an exception, or call a bake itself. */
typedef struct pathdb_memory {
    void *(*alloc)(void *user, size_t bytes);
    void (*free)(void *user, void *block);
    void *user; /* handed to both */
} pathdb_memory;

/* The calls above with a memory of the caller's; where `memory` is NULL, with that of malloc. */
pathdb_status pathdb_bake_text_with(const pathdb_memory *memory, const uint8_t *text, size_t length, uint32_t order,
                                    uint32_t *words, size_t room, pathdb_baked *baked);
pathdb_status pathdb_bake_cells_with(const pathdb_memory *memory, uint32_t width, uint32_t height, const uint8_t *cells,
                                     size_t length, uint32_t order, uint32_t *words, size_t room, pathdb_baked *baked);
pathdb_status pathdb_components_with(const pathdb_memory *memory, uint32_t width, uint32_t height,
                                     const uint8_t *cells, size_t length, uint32_t order, uint32_t *sizes, size_t room,
                                     pathdb_baked *baked);
pathdb_status pathdb_part_with(const pathdb_memory *memory, uint32_t width, uint32_t height, const uint8_t *cells,
                               size_t length, uint32_t order, pathdb_sources sources, uint32_t *words, size_t room,
                               pathdb_baked *baked);
pathdb_status pathdb_join_with(const pathdb_memory *memory, uint32_t width, uint32_t height, const uint8_t *cells,
                               size_t length, uint32_t order, const uint32_t *parts, size_t count, uint32_t *words,
                               size_t room, pathdb_baked *baked);

#ifdef __cplusplus
}
#endif

#endif
