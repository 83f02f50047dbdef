/* A path in C: reads a map, bakes its image, and prints what `./path_server path MAP SX SY GX GY` prints.
 *
 *   cc -Iinclude examples/path.c release/pathdb/libpathdb.a -o path
 *   ./path maps/tutorial.map 2 2 37 17
 *
 * A game would bake once, keep the words in a file, and begin with pathdb_check. */
#include "pathdb.h"

#include <stdio.h>
#include <stdlib.h>

static const char *const names[8] = {"N", "NE", "E", "SE", "S", "SW", "W", "NW"};

/* The bytes of a file; NULL where it cannot be read. */
static uint8_t *read_file(const char *name, size_t *length)
{
    FILE *file = fopen(name, "rb");
    uint8_t *bytes = NULL;
    long size;
    if (file == NULL) return NULL;
    if (fseek(file, 0, SEEK_END) == 0 && (size = ftell(file)) >= 0 && fseek(file, 0, SEEK_SET) == 0) {
        bytes = malloc((size_t)size + 1);
        *length = (size_t)size;
        if (bytes != NULL && fread(bytes, 1, *length, file) != *length) {
            free(bytes);
            bytes = NULL;
        }
    }
    fclose(file);
    return bytes;
}

/* The image of a map; NULL where there is none, and then *status says why. */
static uint32_t *bake(const uint8_t *text, size_t length, size_t *count, pathdb_status *status)
{
    size_t room = 1 << 12;
    uint32_t *words = malloc(room * sizeof *words);
    pathdb_baked baked;
    while (words != NULL) {
        *status = pathdb_bake_text(text, length, PATHDB_ROWS, words, room, &baked);
        *count = baked.words;
        if (*status == PATHDB_DONE) return words;
        free(words);
        if (*status != PATHDB_TOO_SMALL) return NULL;
        room = baked.words;
        words = malloc(room * sizeof *words);
    }
    *status = PATHDB_NO_MEMORY;
    return NULL;
}

static int fail(pathdb_status status)
{
    char text[PATHDB_TEXT_ROOM];
    pathdb_status_text(status, text, sizeof text);
    fprintf(stderr, "path: %s\n", text);
    return 1;
}

/* Prints the three lines of a path. A length is cut off behind six digits. */
static int print_path(const uint32_t *words, size_t count, pathdb_cell start, pathdb_cell goal)
{
    static uint8_t moves[PATHDB_LONGEST];
    uint32_t length, place;
    pathdb_cost cost;
    pathdb_status status = pathdb_path_cost(words, count, start, goal, &cost);
    if (status == PATHDB_DONE) status = pathdb_path(words, count, start, goal, moves, sizeof moves, &length);
    if (status == PATHDB_UNREACHABLE) {
        puts("unreachable");
        return 0;
    }
    if (status != PATHDB_DONE) return fail(status);
    uint64_t micro = (uint64_t)((cost.straight + 1.4142135623730951 * cost.diagonal) * 1e6);
    printf("cost %u %u\nlength %u.%06u\nmoves", cost.straight, cost.diagonal, (unsigned)(micro / 1000000),
           (unsigned)(micro % 1000000));
    for (place = 0; place < length; place++) printf(" %s", names[moves[place]]);
    putchar('\n');
    return 0;
}

int main(int argc, char **argv)
{
    size_t length = 0, count = 0;
    uint32_t part;
    pathdb_status status;
    if (argc != 6) {
        fprintf(stderr, "usage: path MAP SX SY GX GY\n");
        return 1;
    }
    uint8_t *text = read_file(argv[1], &length);
    if (text == NULL) {
        perror(argv[1]);
        return 1;
    }
    uint32_t *words = bake(text, length, &count, &status);
    free(text);
    if (words == NULL) return fail(status);
    /* what a bake wrote passes; a file that was loaded would be tested here */
    status = pathdb_check(words, count, &part);
    pathdb_cell start = {(uint16_t)atoi(argv[2]), (uint16_t)atoi(argv[3])};
    pathdb_cell goal = {(uint16_t)atoi(argv[4]), (uint16_t)atoi(argv[5])};
    int ended = status == PATHDB_DONE ? print_path(words, count, start, goal) : fail(status);
    free(words);
    return ended;
}
