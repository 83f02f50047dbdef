/* Reads paths between random cells from the image of a map, through the C library.
 * Run: queries MAP rows|dfs COUNT TIMES
 * Reads the same COUNT paths TIMES times, all inside the function read_paths. Prints the number of moves, the sum of
 * the moves' numbers, and the processor time per move of the quickest time, in nanoseconds. */
#define _POSIX_C_SOURCE 199309L
#include "pathdb.h"
#include <stdio.h>
#include <stdlib.h>
#include <string.h>
#include <time.h>

enum { MOST_TEXT = 1 << 21, MOST_WORDS = 1 << 24 };

typedef struct image {
    uint32_t *words;
    size_t count;
} image;

typedef struct read_sum {
    uint64_t moves;
    uint64_t numbers;
} read_sum;

static uint32_t draw(uint64_t *state, uint32_t below)
{
    *state = *state * 6364136223846793005u + 1442695040888963407u;
    return (uint32_t)(*state >> 33) % below;
}

static image baked(const char *name, uint32_t order)
{
    static uint8_t text[MOST_TEXT];
    FILE *file = fopen(name, "rb");
    if (!file) exit(1);
    const size_t length = fread(text, 1, sizeof text, file);
    fclose(file);
    image made = {malloc(MOST_WORDS * sizeof(uint32_t)), 0};
    pathdb_baked told;
    if (!made.words || pathdb_bake_text(text, length, order, made.words, MOST_WORDS, &told) != PATHDB_DONE) exit(1);
    made.count = told.words;
    return made;
}

/* Draws pairs of cells that a path joins. */
static pathdb_cell *drawn_pairs(image over, size_t count)
{
    pathdb_cell *pairs = malloc(2 * count * sizeof *pairs);
    if (!pairs) exit(1);
    pathdb_facts facts;
    pathdb_read_facts(over.words, over.count, &facts);
    uint64_t state = 1;
    for (size_t have = 0; have < count;) {
        for (pathdb_cell *cell = pairs + 2 * have; cell < pairs + 2 * have + 2; cell++) {
            cell->x = (uint16_t)draw(&state, facts.width);
            cell->y = (uint16_t)draw(&state, facts.height);
        }
        pathdb_cost cost;
        have += pathdb_path_cost(over.words, over.count, pairs[2 * have], pairs[2 * have + 1], &cost) == PATHDB_DONE;
    }
    return pairs;
}

__attribute__((noinline, noclone)) read_sum read_paths(image over, const pathdb_cell *pairs, size_t count)
{
    static uint8_t moves[PATHDB_LONGEST];
    read_sum sum = {0, 0};
    for (size_t i = 0; i < count; i++) {
        const pathdb_cell start = pairs[2 * i], goal = pairs[2 * i + 1];
        uint32_t length;
        if (pathdb_path(over.words, over.count, start, goal, moves, sizeof moves, &length) != PATHDB_DONE) exit(1);
        sum.moves += length;
        for (uint32_t at = 0; at < length; at++) sum.numbers += moves[at];
    }
    return sum;
}

static double spent(void)
{
    struct timespec time;
    clock_gettime(CLOCK_PROCESS_CPUTIME_ID, &time);
    return 1e9 * (double)time.tv_sec + (double)time.tv_nsec;
}

int main(int count, char **words)
{
    if (count != 5) return 2;
    const image over = baked(words[1], strcmp(words[2], "dfs") ? PATHDB_ROWS : PATHDB_DFS);
    const size_t paths = strtoul(words[3], NULL, 10);
    const pathdb_cell *pairs = drawn_pairs(over, paths);
    read_sum sum = {0, 0};
    double least = 0;
    for (long times = strtol(words[4], NULL, 10); times > 0; times--) {
        const double began = spent();
        const read_sum read = read_paths(over, pairs, paths);
        const double each = (spent() - began) / (double)read.moves;
        least = least == 0 || each < least ? each : least;
        sum.moves += read.moves;
        sum.numbers += read.numbers;
    }
    printf("%llu %llu %.2f\n", (unsigned long long)sum.moves, (unsigned long long)sum.numbers, least);
    return 0;
}
