/* A digest of the answers over images and over spoilt ones, of the library or, compiled with READER, of pathdb_read.h:
 * two that print the same lines have answered the same.
 *
 *   pathdb_read QUERIES SPOILT IMAGE..
 *
 * Asks so many queries of the images in these files in turn, and spoils that many copies of the first: bits are turned,
 * words set to numbers that lie near, and ends cut. Of each it looks at the status and the part, and where it passes at the answers to some queries. A line is a
 * sixteenth of the work. The words are those of the files, each with its lowest byte first, on every processor. */
#include <stdint.h>
#include <stdio.h>
#include <stdlib.h>
#include <string.h>

#ifdef READER
#include "pathdb_read.h"
#define NAME(name) pathdb_read_##name
typedef pathdb_read_map_facts facts_type;
#else
#include "pathdb.h"
#define NAME(name) pathdb_##name
typedef pathdb_facts facts_type;
#endif
typedef NAME(cell) cell_type;

enum { MOST_IMAGES = 16, MOVES = 600, HEAD = 10 };

struct image {
    uint32_t *words;
    size_t count;
};

static uint64_t seed = 1, digest;
static long refused, passed;

static uint32_t random_below(uint32_t limit)
{
    seed = seed * 6364136223846793005u + 1442695040888963407u;
    return (uint32_t)((seed >> 33) % limit);
}

static void mix(uint32_t number) { digest = (digest ^ number) * 1099511628211u; }

static void fail(const char *what)
{
    fprintf(stderr, "pathdb_read: %s\n", what);
    exit(1);
}

/* a word of a file on any processor */
static uint32_t word_at(const uint32_t *words, size_t at)
{
    const unsigned char *bytes = (const unsigned char *)(words + at);
    return bytes[0] | (uint32_t)bytes[1] << 8 | (uint32_t)bytes[2] << 16 | (uint32_t)bytes[3] << 24;
}

static void put_word(uint32_t *words, size_t at, uint32_t word)
{
    unsigned char *bytes = (unsigned char *)(words + at);
    int k;
    for (k = 0; k < 4; k++) bytes[k] = (unsigned char)(word >> 8 * k);
}

static struct image load(const char *name)
{
    FILE *file = fopen(name, "rb");
    struct image image = {NULL, 0};
    long size = 0;
    if (file == NULL || fseek(file, 0, SEEK_END) != 0 || (size = ftell(file)) < 4 * HEAD) fail(name);
    rewind(file);
    image.count = (size_t)size / 4;
    image.words = (uint32_t *)malloc((size_t)size);
    if (image.words == NULL || fread(image.words, 4, image.count, file) != image.count) fail(name);
    fclose(file);
    return image;
}

/* A cell, one in some outside. */
static cell_type any_cell(const facts_type *facts)
{
    cell_type cell;
    cell.x = (uint16_t)random_below(facts->width + (random_below(16) == 0));
    cell.y = (uint16_t)random_below(facts->height + (random_below(16) == 0));
    return cell;
}

/* Asks for a path in each way. */
static void ask(const uint32_t *words, size_t count, const facts_type *facts)
{
    static uint8_t moves[MOVES];
    const cell_type start = any_cell(facts), goal = random_below(64) == 0 ? start : any_cell(facts);
    const size_t room = random_below(4) == 0 ? random_below(MOVES + 1) : (size_t)MOVES;
    NAME(cost) cost = {7, 7};
    uint8_t move = 9;
    uint32_t length = 7, at;
    uint32_t status = (uint32_t)NAME(next_move)(words, count, start, goal, &move);
    mix(status);
    mix(move);
    mix((uint32_t)NAME(path_cost)(words, count, start, goal, &cost));
    mix(cost.straight);
    mix(cost.diagonal);
    status = (uint32_t)NAME(path)(words, count, start, goal, moves, room, &length);
    mix(status);
    mix(length);
    /* of a path that is too long for the room its first moves are there, and of a broken one anything */
    if (status == 0 || status == 7)
        for (at = 0; at < length && at < room; at++) mix(moves[at]);
}

/* Looks at words, and asks for paths where they pass. */
static void look(const uint32_t *words, size_t count, int queries)
{
    facts_type facts;
    uint32_t part = 7;
    const uint32_t status = (uint32_t)NAME(check)(words, count, &part);
    mix(status);
    mix(part);
    if (status != 0) {
        refused++;
        return;
    }
    passed++;
    NAME(read_facts)(words, count, &facts);
    mix(facts.width);
    mix(facts.height);
    mix(facts.cells);
    mix(facts.components);
    mix(facts.prefix);
    while (queries-- > 0) ask(words, count, &facts);
}

/* A number that may stand in the place of a word. */
static uint32_t other_word(const uint32_t *words, size_t count, size_t at)
{
    const uint32_t word = word_at(words, at);
    switch (random_below(6)) {
    case 0: return word ^ 1u << random_below(32);
    case 1: return word + 1;
    case 2: return word - 1;
    case 3: return word_at(words, random_below((uint32_t)count));
    case 4: return (word & ~7u) | random_below(8);
    default: return random_below(2) ? 0xFFFFFFFFu : (uint32_t)count - random_below(4);
    }
}

/* Spoils a copy of an image; how many words are left. */
static size_t spoil(uint32_t *words, size_t count)
{
    const uint32_t kind = random_below(8);
    uint32_t changes = 1 + random_below(3);
    if (kind == 0) return random_below((uint32_t)count + 1);
    if (kind == 1) {
        /* a cut end that the length does not betray */
        count = HEAD + random_below((uint32_t)count - HEAD + 1);
        put_word(words, 3, (uint32_t)count);
    }
    while (kind > 1 && changes-- > 0) {
        const size_t at = random_below(8) == 0 ? random_below(HEAD) : random_below((uint32_t)count);
        put_word(words, at, other_word(words, count, at));
    }
    return count;
}

/* Looks at words that end where their memory ends, so that tools which watch it see each read outside. */
static void look_at_copy(const uint32_t *words, size_t count)
{
    uint32_t *exact = (uint32_t *)malloc(count > 0 ? 4 * count : 1);
    if (exact == NULL) fail("no memory");
    memcpy(exact, words, 4 * count);
    look(exact, count, 4);
    free(exact);
}

int main(int argc, char **argv)
{
    static struct image images[MOST_IMAGES];
    const long queries = argc > 3 ? atol(argv[1]) : 0, rounds = argc > 3 ? atol(argv[2]) : 0;
    const int many = argc - 3;
    uint32_t *copy;
    long turn;
    int sixteenth, k;
    if (queries < 1 || rounds < 1 || many > MOST_IMAGES) fail("usage: pathdb_read QUERIES SPOILT IMAGE..");
    for (k = 0; k < many; k++) images[k] = load(argv[3 + k]);
    copy = (uint32_t *)malloc(4 * images[0].count);
    if (copy == NULL) fail("no memory");
    for (sixteenth = 0; sixteenth < 16; sixteenth++) {
        digest = 14695981039346656037u;
        for (k = 0; k < many; k++) look(images[k].words, images[k].count, (int)(queries / 16 / many));
        for (turn = 0; turn < rounds / 16; turn++) {
            memcpy(copy, images[0].words, 4 * images[0].count);
            look_at_copy(copy, spoil(copy, images[0].count));
        }
        printf("%08lx%08lx\n", (unsigned long)(digest >> 32), (unsigned long)(digest & 0xFFFFFFFFu));
    }
    printf("refused %ld passed %ld\n", refused, passed);
    free(copy);
    for (k = 0; k < many; k++) free(images[k].words);
    return 0;
}
