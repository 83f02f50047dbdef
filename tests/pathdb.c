/* Images with flipped bits and cut ends: each is refused by the check, or answered inside of the memory that was handed
 * in.
 *
 *   pathdb ROUNDS MAP..
 *
 * The words end where memory ends that may not be read, or begin behind such, and the room for moves ends there too: so
 * a read or a write outside of them ends the program by a signal, whoever makes it. Prints how many images were refused
 * and how many were answered, and ends with 1 where a status or a move is none. */
#define _GNU_SOURCE
#include "pathdb.h"

#include <stdio.h>
#include <stdlib.h>
#include <string.h>
#include <sys/mman.h>
#include <unistd.h>

enum { MOST_MAPS = 8, MOST_WORDS = 1 << 20, MOST_MOVES = 600 };

struct image {
    uint32_t *words;
    size_t count;
};

/* memory between two pages that may not be touched */
struct fence {
    unsigned char *begin;
    unsigned char *end;
};

static uint64_t seed = 1;

static uint32_t random_below(uint32_t limit)
{
    seed = seed * 6364136223846793005u + 1442695040888963407u;
    return (uint32_t)((seed >> 33) % limit);
}

static void fail(const char *what)
{
    fprintf(stderr, "pathdb: %s\n", what);
    exit(1);
}

static struct fence fence_of(size_t bytes)
{
    size_t page = (size_t)sysconf(_SC_PAGESIZE);
    size_t size = (bytes + page - 1) / page * page;
    unsigned char *at = mmap(NULL, size + 2 * page, PROT_NONE, MAP_PRIVATE | MAP_ANONYMOUS, -1, 0);
    struct fence fence = {at + page, at + page + size};
    if (at == MAP_FAILED || mprotect(fence.begin, size, PROT_READ | PROT_WRITE) != 0) fail("no memory");
    return fence;
}

static struct image bake(const char *name)
{
    FILE *file = fopen(name, "rb");
    uint8_t *text = malloc(1 << 21);
    uint32_t *words = malloc(MOST_WORDS * sizeof *words);
    pathdb_baked baked;
    struct image image = {words, 0};
    size_t length;
    if (file == NULL || text == NULL || words == NULL) fail(name);
    length = fread(text, 1, 1 << 21, file);
    fclose(file);
    if (pathdb_bake_text(text, length, PATHDB_DFS, words, MOST_WORDS, &baked) != PATHDB_DONE) fail(name);
    free(text);
    image.count = baked.words;
    return image;
}

/* Spoils a copy of an image; how many words are left. */
static size_t spoil(uint32_t *words, size_t count)
{
    uint32_t kind = random_below(4), flips = 1 + random_below(6), k;
    if (kind == 0) return random_below((uint32_t)count + 1);
    if (kind == 1) {
        /* a cut end that the length does not betray */
        size_t left = 10 + random_below((uint32_t)count - 9);
        words[3] = (uint32_t)left;
        return left;
    }
    for (k = 0; k < flips; k++) words[random_below((uint32_t)count)] ^= 1u << random_below(kind == 2 ? 32 : 8);
    return count;
}

/* A map of so many columns or rows, and one more now and then. */
static pathdb_cell any_cell(pathdb_facts facts)
{
    pathdb_cell cell = {(uint16_t)random_below(facts.width + 1), (uint16_t)random_below(facts.height + 1)};
    return cell;
}

/* Asks an image that passed the check, with a room for moves that ends at a fence. */
static void ask(const uint32_t *words, size_t count, struct fence fence)
{
    pathdb_facts facts;
    int turn;
    pathdb_read_facts(words, count, &facts);
    if (facts.width - 1 >= 4096 || facts.height - 1 >= 4096) fail("sides that no map has");
    for (turn = 0; turn < 8; turn++) {
        pathdb_cell start = any_cell(facts), goal = any_cell(facts);
        size_t room = random_below(MOST_MOVES + 1);
        uint8_t *moves = fence.end - room, move = 99;
        uint32_t length = 0, place;
        pathdb_cost cost = {77, 77};
        pathdb_status told = pathdb_path(words, count, start, goal, moves, room, &length);
        if (told == PATHDB_DONE && length > room) fail("more moves than the room has");
        if (told > PATHDB_BROKEN || told == PATHDB_ARRIVED) fail("a status that a path does not have");
        for (place = 0; told == PATHDB_DONE && place < length; place++)
            if (moves[place] > 7) fail("a move that is none");
        told = pathdb_next_move(words, count, start, goal, &move);
        if (told >= PATHDB_TOO_SMALL || (told == PATHDB_DONE) != (move < 8)) fail("a next move that is none");
        told = pathdb_path_cost(words, count, start, goal, &cost);
        if (told > PATHDB_BROKEN || told == PATHDB_ARRIVED || told == PATHDB_TOO_SMALL)
            fail("a status that a cost does not have");
    }
}

int main(int argc, char **argv)
{
    struct image images[MOST_MAPS];
    long round, rounds = argc > 2 ? atol(argv[1]) : 0, refused = 0, answered = 0;
    int maps = argc - 2, k;
    struct fence fence = fence_of(MOST_WORDS * sizeof(uint32_t)), moves = fence_of(MOST_MOVES);
    uint32_t *copy = malloc(MOST_WORDS * sizeof *copy);
    if (maps < 1 || maps > MOST_MAPS || rounds < 1 || copy == NULL) fail("usage: pathdb ROUNDS MAP..");
    for (k = 0; k < maps; k++) images[k] = bake(argv[2 + k]);
    for (round = 0; round < rounds; round++) {
        const struct image *of = &images[random_below((uint32_t)maps)];
        uint32_t part = 0, *words;
        size_t count;
        pathdb_status told;
        memcpy(copy, of->words, of->count * sizeof *copy);
        count = spoil(copy, of->count);
        words = round % 2 ? (uint32_t *)fence.begin : (uint32_t *)fence.end - count;
        memcpy(words, copy, count * sizeof *words);
        told = pathdb_check(words, count, &part);
        if (told != PATHDB_DONE && (told < PATHDB_NO_IMAGE || told > PATHDB_WRONG_HOME))
            fail("a status that a check does not have");
        if (told != PATHDB_DONE) {
            refused++;
            continue;
        }
        answered++;
        ask(words, count, moves);
    }
    for (k = 0; k < maps; k++) free(images[k].words);
    free(copy);
    printf("refused %ld answered %ld\n", refused, answered);
    return 0;
}
