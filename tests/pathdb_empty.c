/* Empty lists: each call is made with NULL where the length beside it is 0, and has to answer as it does for a pointer
 * that leads to no places. Ends with 1 where one does not. */
#include "pathdb.h"

#include <stdio.h>

static int failed;

static void judge(const char *what, pathdb_status found, pathdb_status wanted)
{
    if (found == wanted) return;
    failed = 1;
    fprintf(stderr, "pathdb_empty: %s: %d, and not %d\n", what, found, wanted);
}

int main(void)
{
    static const uint8_t cells[6] = {1, 1, 1, 0, 0, 1};
    static const uint8_t blocked[2] = {0, 0};
    static uint32_t words[64];
    const pathdb_sources first = {0, 0, 1};
    static const uint32_t bits[1] = {0};
    const pathdb_cell here = {0, 0}, there = {2, 0};
    const pathdb_search search = {here, there, 9};
    pathdb_baked baked;
    uint32_t part = 7, length = 7;
    judge("a check", pathdb_check(NULL, 0, &part), PATHDB_NO_IMAGE);
    judge("a text", pathdb_bake_text(NULL, 0, PATHDB_ROWS, words, 64, &baked), PATHDB_BAD_HEADER);
    judge("no cells", pathdb_bake_cells(2, 1, NULL, 0, PATHDB_ROWS, words, 64, &baked), PATHDB_WRONG_COUNT);
    judge("no room", pathdb_bake_cells(3, 2, cells, 6, PATHDB_ROWS, NULL, 0, &baked), PATHDB_TOO_SMALL);
    judge("no sizes", pathdb_components(3, 2, cells, 6, PATHDB_ROWS, NULL, 0, &baked), PATHDB_TOO_SMALL);
    judge("no sizes of none", pathdb_components(2, 1, blocked, 2, PATHDB_ROWS, NULL, 0, &baked), PATHDB_DONE);
    judge("no part", pathdb_part(3, 2, cells, 6, PATHDB_ROWS, first, NULL, 0, &baked), PATHDB_TOO_SMALL);
    judge("no parts", pathdb_join(3, 2, cells, 6, PATHDB_ROWS, NULL, 0, words, 64, &baked), PATHDB_BROKEN_PART);
    judge("an image", pathdb_bake_cells(3, 2, cells, 6, PATHDB_ROWS, words, 64, &baked), PATHDB_DONE);
    judge("no moves", pathdb_path(words, baked.words, here, there, NULL, 0, &length), PATHDB_TOO_SMALL);
    if (length != 2) failed = 1;
    judge("no moves from here to here", pathdb_path(words, baked.words, here, here, NULL, 0, &length), PATHDB_DONE);
    if (length != 0 || pathdb_status_text(0, NULL, 0) != 4) failed = 1;
    if (pathdb_costs(words, baked.words, here, NULL, 0, NULL, 0) != 0) failed = 1;
    judge("no bits", pathdb_path_live(words, baked.words, NULL, 0, here, there, NULL, 0, &length), PATHDB_WRONG_BITS);
    judge("no room", pathdb_path_live(words, baked.words, bits, 1, here, there, NULL, 0, &length), PATHDB_TOO_SMALL);
    judge("no scratch", pathdb_search_live(words, baked.words, bits, 1, search, NULL, 0, NULL, 0, &length),
          PATHDB_FEW_WORDS);
    return failed;
}
