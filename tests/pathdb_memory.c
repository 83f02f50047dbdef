/* Want of memory in a bake, by a memory that is handed in: the N-th request is refused, for N from 1 until a bake meets
 * no refusal, and then all requests from the N-th on; for bakes of a text and of cells, and for one in parts.
 *
 *   pathdb_memory MAP
 *
 * Each bake ends with PATHDB_NO_MEMORY and leaves the room as it was, or does without what was refused; and each gives
 * back all that it took, and asks only the memory that it was handed. Prints how many bakes were refused, and ends with
 * 1 where that is not so. */
#include "pathdb.h"

#include <stdio.h>
#include <stdlib.h>
#include <string.h>

enum { ROOM = 1 << 18, SIDE = 40 };

/* a memory that refuses some requests, and counts what it has given */
struct meter {
    long requests, refused_from, refused_to, blocks;
};

static void *take(void *user, size_t bytes)
{
    struct meter *meter = user;
    void *at = NULL;
    meter->requests++;
    if (bytes == 0) abort();
    if (meter->requests < meter->refused_from || meter->requests > meter->refused_to) at = malloc(bytes);
    meter->blocks += at != NULL;
    return at;
}

static void give(void *user, void *block)
{
    struct meter *meter = user;
    if (block == NULL) abort();
    meter->blocks--;
    free(block);
}

static uint8_t text[1 << 16], cells[SIDE * SIDE];
static size_t length;

static pathdb_status bake_text(const pathdb_memory *memory, uint32_t *words, pathdb_baked *baked)
{
    return pathdb_bake_text_with(memory, text, length, PATHDB_DFS, words, ROOM, baked);
}

static pathdb_status bake_cells(const pathdb_memory *memory, uint32_t *words, pathdb_baked *baked)
{
    return pathdb_bake_cells_with(memory, SIDE, SIDE, cells, sizeof cells, PATHDB_ROWS, words, ROOM, baked);
}

/* all cells of the first component in two parts */
static pathdb_status bake_parts(const pathdb_memory *memory, uint32_t *words, pathdb_baked *baked)
{
    static uint32_t parts[ROOM];
    uint32_t sizes[8], count = 0, half;
    pathdb_status status =
        pathdb_components_with(memory, SIDE, SIDE, cells, sizeof cells, PATHDB_ROWS, sizes, 8, baked);
    for (half = 0; status == PATHDB_DONE && half < 2; half++) {
        pathdb_sources some = {0, half * (sizes[0] / 2), half ? sizes[0] - sizes[0] / 2 : sizes[0] / 2};
        status = pathdb_part_with(memory, SIDE, SIDE, cells, sizeof cells, PATHDB_ROWS, some, parts + count,
                                  ROOM - count, baked);
        count += status == PATHDB_DONE ? baked->words : 0;
    }
    if (status != PATHDB_DONE) return status;
    return pathdb_join_with(memory, SIDE, SIDE, cells, sizeof cells, PATHDB_ROWS, parts, count, words, ROOM, baked);
}

static void fail(const char *what, const struct meter *meter)
{
    fprintf(stderr, "pathdb_memory: %s, requests %ld to %ld refused\n", what, meter->refused_from, meter->refused_to);
    exit(1);
}

/* Tries a bake with each request refused; how many bakes were. */
static long try_bake(pathdb_status (*bake)(const pathdb_memory *, uint32_t *, pathdb_baked *))
{
    static uint32_t wanted[ROOM], words[ROOM];
    struct meter meter = {0, 0, -1, 0};
    pathdb_memory memory = {take, give, &meter};
    pathdb_baked baked;
    long number, felt = 0, all;
    int follow;
    if (bake(NULL, wanted, &baked) != PATHDB_DONE || meter.requests != 0) fail("no image by malloc", &meter);
    if (bake(&memory, words, &baked) != PATHDB_DONE || memcmp(words, wanted, 4 * baked.words) != 0)
        fail("no image", &meter);
    all = meter.requests;
    for (follow = 0; follow < 2; follow++) {
        for (number = 1; number <= all; number++) {
            meter.requests = 0;
            meter.refused_from = number;
            meter.refused_to = follow ? all + 1000 : number;
            memset(words, 7, sizeof words);
            pathdb_status told = bake(&memory, words, &baked);
            if (told != PATHDB_DONE && told != PATHDB_NO_MEMORY) fail("another status", &meter);
            if (told == PATHDB_DONE && memcmp(words, wanted, 4 * baked.words) != 0) fail("another image", &meter);
            if (told != PATHDB_DONE && words[0] != 0x07070707) fail("words of no image", &meter);
            if (meter.blocks != 0) fail("memory that was not given back", &meter);
            felt += told == PATHDB_NO_MEMORY;
        }
    }
    printf("refused %ld of %ld\n", felt, 2 * all);
    return felt;
}

int main(int argc, char **argv)
{
    FILE *file = argc == 2 ? fopen(argv[1], "rb") : NULL;
    if (file == NULL) return 1;
    length = fread(text, 1, sizeof text, file);
    fclose(file);
    memset(cells, 1, sizeof cells);
    return try_bake(bake_text) == 0 || try_bake(bake_cells) == 0 || try_bake(bake_parts) == 0;
}
