/* Eight threads ask one image for paths while a ninth bakes another: for tools that watch each access to memory, in the
 * library too, and know no atomics but those of threads that begin and end.
 *
 *   pathdb_threads MAP QUERIES
 *
 * Prints how many moves the paths of the first thread have, and ends with 1 where another thread found something
 * else. */
#include "pathdb.h"

#include <pthread.h>
#include <stdio.h>
#include <stdlib.h>

enum { THREADS = 8, ROOM = 1 << 20, MOVES = 1024 };

static uint8_t text[1 << 20];
static size_t length;
static uint32_t words[ROOM], others[ROOM];
static size_t count;
static int queries;

struct walker {
    pthread_t thread;
    unsigned long moves;
    uint8_t room[MOVES];
};

static void *walk(void *of)
{
    struct walker *walker = of;
    pathdb_facts facts;
    uint32_t seed = 1, found;
    int query;
    pathdb_read_facts(words, count, &facts);
    for (query = 0; query < queries; query++) {
        uint32_t numbers[4], k;
        for (k = 0; k < 4; k++) numbers[k] = (seed = seed * 1664525u + 1013904223u) >> 16;
        pathdb_cell start = {(uint16_t)(numbers[0] % facts.width), (uint16_t)(numbers[1] % facts.height)};
        pathdb_cell goal = {(uint16_t)(numbers[2] % facts.width), (uint16_t)(numbers[3] % facts.height)};
        if (pathdb_path(words, count, start, goal, walker->room, MOVES, &found) == PATHDB_DONE) walker->moves += found;
    }
    return NULL;
}

static void *bake(void *into)
{
    static pathdb_baked baked;
    return pathdb_bake_text(text, length, PATHDB_ROWS, into, ROOM, &baked) == PATHDB_DONE ? &baked : NULL;
}

int main(int argc, char **argv)
{
    static struct walker walkers[THREADS];
    pthread_t baker;
    void *told;
    int k, failed = 0;
    FILE *file = argc == 3 ? fopen(argv[1], "rb") : NULL;
    if (file == NULL) return 1;
    length = fread(text, 1, sizeof text, file);
    fclose(file);
    queries = atoi(argv[2]);
    if ((told = bake(words)) == NULL) return 1;
    count = ((pathdb_baked *)told)->words;
    for (k = 0; k < THREADS; k++) failed |= pthread_create(&walkers[k].thread, NULL, walk, &walkers[k]);
    failed |= pthread_create(&baker, NULL, bake, others);
    for (k = 0; k < THREADS; k++) failed |= pthread_join(walkers[k].thread, NULL);
    failed |= pthread_join(baker, &told);
    for (k = 0; k < THREADS; k++) failed |= walkers[k].moves != walkers[0].moves;
    printf("moves %lu\n", walkers[0].moves);
    return failed || told == NULL || walkers[0].moves == 0;
}
