// All rows of a component: the twin of what `check` builds.
// Run: rows FILE rows|dfs
// Prints how many cells and runs there are.
#include "rows.hpp"

int main(int argc, char** argv) {
    if (argc != 3) return 2;
    Drawn map(argv[1]);
    Rows rows = build_rows(map.cells, !strcmp(argv[2], "dfs"));
    printf("%zu %zu\n", map.cells.size(), rows.words.size());
}
