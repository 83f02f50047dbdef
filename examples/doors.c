/* A game loop with doors: units walk between rooms while doors close and open, and each path is a shortest one now.
 *
 *   cc -O2 -Iinclude examples/doors.c release/pathdb/libpathdb.a -lm -o doors
 *   ./doors
 *   ./doors test
 *
 * The map is baked once, with every door open. A closed door is a bit. Most paths are told by look-ups; where the told
 * path is not free a search finds one. After `test` each answer is judged by a plain search of this file's own, over
 * the cells alone. The status is 1 where one is wrong. */
#include "pathdb.h"

#include <math.h>
#include <stdio.h>
#include <stdlib.h>
#include <string.h>

enum { ROOM = 9, ACROSS = 8, DOWN = 6, WIDTH = ROOM * ACROSS + 1, HEIGHT = ROOM * DOWN + 1, CELLS = WIDTH * HEIGHT };
enum { UNITS = 40, DOORS = ACROSS * DOWN * 2 };

static uint8_t cells[CELLS]; /* 1 where the baked map is passable: rooms and doors */
static pathdb_cell doors[DOORS];
static uint32_t door_count;
static uint32_t blocked[PATHDB_BIT_WORDS(WIDTH, HEIGHT)]; /* the live map: a bit for each cell */
static uint32_t *image, *scratch;
static size_t words, scratch_words;
static struct { pathdb_cell at, goal; } units[UNITS];
static unsigned long told, searched, none, judged;

static uint32_t below(uint32_t limit)
{
    static uint64_t state = 1;
    state = state * 6364136223846793005u + 1442695040888963407u;
    return (uint32_t)(state >> 33) % limit;
}

static int is_free(int x, int y)
{
    const pathdb_cell cell = {(uint16_t)x, (uint16_t)y};
    if (x < 0 || y < 0 || x >= WIDTH || y >= HEIGHT) return 0;
    return cells[y * WIDTH + x] && !pathdb_blocked_at(blocked, WIDTH, cell);
}

static pathdb_cell any_free(void)
{
    for (;;) {
        const pathdb_cell cell = {(uint16_t)below(WIDTH), (uint16_t)below(HEIGHT)};
        if (is_free(cell.x, cell.y)) return cell;
    }
}

/* Rooms of 8 by 8 with a door in the middle of most walls, all open. */
static void draw_map(void)
{
    for (int y = 0; y < HEIGHT; y++)
        for (int x = 0; x < WIDTH; x++) {
            const int wall_x = x % ROOM == 0, wall_y = y % ROOM == 0;
            const int edge = x == 0 || y == 0 || x == WIDTH - 1 || y == HEIGHT - 1;
            const int door = !edge && wall_x != wall_y && (wall_x ? y % ROOM : x % ROOM) == ROOM / 2 && below(8) > 0;
            const pathdb_cell here = {(uint16_t)x, (uint16_t)y};
            cells[y * WIDTH + x] = (uint8_t)((!wall_x && !wall_y) || door);
            if (door) doors[door_count++] = here;
        }
}

static int bake(void)
{
    pathdb_baked baked;
    pathdb_facts facts;
    size_t room = 1 << 16;
    for (;;) {
        image = realloc(image, room * sizeof *image);
        if (image == NULL) return 0;
        const pathdb_status ended = pathdb_bake_cells(WIDTH, HEIGHT, cells, CELLS, PATHDB_DFS, image, room, &baked);
        if (ended == PATHDB_DONE) break;
        if (ended != PATHDB_TOO_SMALL) return 0;
        room = baked.words;
    }
    words = baked.words;
    pathdb_read_facts(image, words, &facts);
    scratch_words = (size_t)pathdb_search_words(facts.cells);
    scratch = malloc(scratch_words * sizeof *scratch);
    return scratch != NULL;
}

/* A shortest path now: by look-ups where that is enough, and else by a search, some cells at a time. */
static pathdb_status find(pathdb_cell from, pathdb_cell to, uint8_t *moves, uint32_t *length)
{
    const size_t bits = PATHDB_BIT_WORDS(WIDTH, HEIGHT), room = PATHDB_LONGEST;
    const pathdb_search of = {from, to, 256};
    pathdb_status ended = pathdb_path_live(image, words, blocked, bits, from, to, moves, room, length);
    if (ended != PATHDB_STALE) {
        told++;
        return ended;
    }
    searched++;
    ended = pathdb_search_live(image, words, blocked, bits, of, scratch, scratch_words, moves, room, length);
    while (ended == PATHDB_MORE) /* a game may do something else first, as long as no bit changes */
        ended = pathdb_search_on(image, words, blocked, bits, of, scratch, scratch_words, moves, room, length);
    return ended;
}

static const int EAST[8] = {0, 1, 1, 1, 0, -1, -1, -1}, SOUTH[8] = {-1, -1, 0, 1, 1, 1, 0, -1};

static int is_legal(int x, int y, int move)
{
    return is_free(x + EAST[move], y + SOUTH[move]) && is_free(x + EAST[move], y) && is_free(x, y + SOUTH[move]);
}

/* What a shortest path costs by Bellman's equations alone: costs fall until none does; below 0 where there is none. */
static double searched_here(pathdb_cell from, pathdb_cell to)
{
    static double costs[CELLS];
    for (int place = 0; place < CELLS; place++) costs[place] = INFINITY;
    costs[from.y * WIDTH + from.x] = 0;
    for (int falls = 1, turn = 0; falls; turn = !turn) {
        falls = 0;
        for (int k = 0; k < CELLS; k++) {
            const int place = turn ? CELLS - 1 - k : k; /* forth, and then back */
            for (int move = 0; move < 8 && costs[place] < INFINITY; move++) {
                double *const next = &costs[place + SOUTH[move] * WIDTH + EAST[move]];
                const double cost = costs[place] + (move % 2 ? sqrt(2) : 1);
                if (!is_legal(place % WIDTH, place / WIDTH, move) || cost > *next - 1e-7) continue;
                *next = cost;
                falls = 1;
            }
        }
    }
    return costs[to.y * WIDTH + to.x] < INFINITY ? costs[to.y * WIDTH + to.x] : -1;
}

/* Whether an answer is that of the search above. */
static int is_right(pathdb_cell from, pathdb_cell to, pathdb_status ended, const uint8_t *moves, uint32_t length)
{
    const double wanted = searched_here(from, to);
    double cost = 0;
    int x = from.x, y = from.y;
    judged++;
    if (ended == PATHDB_UNREACHABLE) return wanted < 0;
    for (uint32_t step = 0; step < length; step++) {
        if (!is_legal(x, y, moves[step])) return 0;
        x += EAST[moves[step]], y += SOUTH[moves[step]];
        cost += moves[step] % 2 ? sqrt(2) : 1;
    }
    return ended == PATHDB_DONE && x == to.x && y == to.y && fabs(cost - wanted) < 1e-6;
}

/* Opens a door that is closed, or closes one now and then. */
static void turn_door(void)
{
    const pathdb_cell door = doors[below(door_count)];
    if (!pathdb_blocked_at(blocked, WIDTH, door) && below(8) > 0) return;
    for (int unit = 0; unit < UNITS; unit++) /* a door stays open while somebody stands in it, or wants to */
        if (!memcmp(&units[unit].at, &door, sizeof door) || !memcmp(&units[unit].goal, &door, sizeof door)) return;
    pathdb_blocked_set(blocked, WIDTH, door, !pathdb_blocked_at(blocked, WIDTH, door));
}

int main(int argc, char **argv)
{
    static uint8_t moves[PATHDB_LONGEST];
    const int test = argc > 1 && !strcmp(argv[1], "test"), ticks = argc > 2 ? atoi(argv[2]) : test ? 100 : 2000;
    draw_map();
    if (!bake()) return 2;
    for (int unit = 0; unit < UNITS; unit++) units[unit].at = any_free(), units[unit].goal = any_free();
    for (int tick = 0; tick < ticks; tick++) {
        turn_door();
        for (int unit = 0; unit < UNITS; unit++) {
            pathdb_cell *const at = &units[unit].at, goal = units[unit].goal;
            uint32_t length;
            const pathdb_status ended = find(*at, goal, moves, &length);
            if (test && !is_right(*at, goal, ended, moves, length)) {
                fprintf(stderr, "wrong: from %d %d to %d %d\n", at->x, at->y, goal.x, goal.y);
                return 1;
            }
            none += ended == PATHDB_UNREACHABLE;
            if (ended == PATHDB_DONE && length > 0) {
                at->x = (uint16_t)(at->x + EAST[moves[0]]);
                at->y = (uint16_t)(at->y + SOUTH[moves[0]]);
            } else {
                units[unit].goal = any_free();
            }
        }
    }
    printf("%u doors: %lu paths told, %lu searched, %lu unreachable; %lu judged\n", door_count, told, searched, none,
           judged);
    free(image), free(scratch);
    return 0;
}
