#!/usr/bin/env python3
"""docs/guide/games.md: its pieces of C are one program, which is compiled and does what the page says; its commands
link that program in each way, and its lines of CMake too; and what it links to is there.

What needs a tool that is not here is skipped.
"""
import os, re, shutil, subprocess, sys, tempfile

from judging import TOP, Judge, library_here, needs_new_library, skip

judge = Judge()
needs_new_library()
if not shutil.which("gcc"):
    skip("there is no gcc")
PAGE = os.path.join(TOP, "docs/guide/games.md")
with open(PAGE, encoding="utf-8") as page:
    BLOCKS = re.findall(r"^```(\w+)\n(.*?)^```$", page.read(), re.S | re.M)
MAIN = r"""
#include <string.h>

enum { SIDE = 40 };

static void fail(const char *what)
{
    fprintf(stderr, "game: %s\n", what);
    exit(1);
}

int main(void)
{
    static uint8_t cells[SIDE * SIDE];
    static const char text[] = "type octile\nheight 1\nwidth 3\nmap\n...\n";
    static uint32_t few[64], sizes[8], parts[1 << 20], joined[1 << 20];
    static unsigned char block[1 << 16];
    struct arena arena = {block, block + sizeof block};
    pathdb_cell at = {0, 0};
    const pathdb_cell goal = {SIDE - 1, SIDE - 1};
    pathdb_baked baked;
    size_t count, again, all = 0;
    uint32_t moves = 0;
    memset(cells, 1, sizeof cells);
    for (int k = 1; k < SIDE; k++) cells[20 * SIDE + k] = 0;
    uint32_t *words = bake(SIDE, SIDE, cells, &count), *read;
    if (words == NULL) fail("no image");
    FILE *file = fopen("level.image", "wb");
    if (file == NULL || fwrite(words, sizeof *words, count, file) != count || fclose(file) != 0) fail("no file");
    read = load("level.image", &again);
    if (read == NULL || again != count || memcmp(read, words, 4 * count) != 0) fail("another image");
    read[3] ^= 1;
    file = fopen("level.image", "wb");
    if (file == NULL || fwrite(read, sizeof *read, count, file) != count || fclose(file) != 0) fail("no file");
    if (load("level.image", &again) != NULL) fail("a patched image is taken");
    if (load("none.image", &again) != NULL) fail("no file is taken");
    while (step(words, count, &at, goal)) moves++;
    if (at.x != goal.x || at.y != goal.y || moves < SIDE) fail("the unit does not come there");
    if (bake_in(&arena, (const uint8_t *)text, sizeof text - 1, few, 64, &baked) != PATHDB_DONE) fail("no arena");
    if (pathdb_components(SIDE, SIDE, cells, sizeof cells, PATHDB_DFS, sizes, 8, &baked) != PATHDB_DONE) fail("sizes");
    for (uint32_t component = 0, number = baked.words; component < number; component++) {
        for (uint32_t first = 0; first < sizes[component]; first += 256) {
            struct part part = {{component, first, 256}, NULL, 0};
            if (sizes[component] - first < 256) part.of.count = sizes[component] - first;
            if (bake_part(SIDE, SIDE, cells, &part) != PATHDB_DONE) fail("no part");
            memcpy(parts + all, part.words, 4 * part.count);
            all += part.count;
            free(part.words);
        }
    }
    if (pathdb_join(SIDE, SIDE, cells, sizeof cells, PATHDB_DFS, parts, all, joined, 1 << 20, &baked) != PATHDB_DONE ||
        baked.words != count || memcmp(joined, words, 4 * count) != 0)
        fail("another image in parts");
    static uint32_t blocked[PATHDB_BIT_WORDS(SIDE, SIDE)], scratch[10 * SIDE * SIDE + 2];
    static uint8_t now[PATHDB_LONGEST];
    const size_t bits = sizeof blocked / 4, size = sizeof scratch / 4;
    const pathdb_cell door = {0, 20}, above = {0, 19}, below = {0, 21}; /* the one gap of row 20 */
    uint32_t length = 9;
    for (int closed = 0; closed < 3; closed++) {
        const pathdb_status wanted[3] = {PATHDB_DONE, PATHDB_UNREACHABLE, PATHDB_DONE};
        pathdb_blocked_set(blocked, SIDE, door, closed == 1);
        if (find_now(words, count, blocked, bits, above, below, scratch, size, now, sizeof now, &length) !=
                wanted[closed] || length != (closed == 1 ? 0 : 2))
            fail("another way through the door");
    }
    at.x = at.y = 2;
    print_way(words, count, at, (pathdb_cell){5, 4});
    free(words);
    free(read);
    return 0;
}
"""
SAID = "E SE SE \n"
CMAKE = "cmake_minimum_required(VERSION 3.13)\nproject(game C)\nadd_executable(game game.c)\n"


def ran(what, words, **more):
    """What a command prints; where it fails, nothing, and that is told."""
    done = subprocess.run(words, stdin=subprocess.DEVNULL, capture_output=True, text=True, errors="replace", **more)
    if done.returncode == 0:
        return done.stdout
    judge.fail(f"{what}: status {done.returncode}\n{done.stderr[:4000]}{done.stdout[:4000]}")
    return None


def blocks_of(language):
    return [text for found, text in BLOCKS if found == language]


def try_program(folder):
    """The pieces of C as one program, with warnings and sanitizers."""
    with open(f"{folder}/game.c", "w") as file:
        file.write("".join(blocks_of("c")) + MAIN)
    words = ["gcc", "-std=c99", "-Wall", "-Wextra", "-Wshadow", "-Werror", "-g", "-fsanitize=address,undefined",
             "-fno-sanitize-recover=all", "-Iinclude", "game.c", library_here(), "-o", "checked"]
    if ran("the pieces of C", words, cwd=folder) is not None:
        judge("what the pieces of C do", ran("the pieces of C", ["./checked"], cwd=folder), SAID)


def try_commands(folder):
    """The commands, in a folder that looks like the top of this repository."""
    for number, text in enumerate(blocks_of("sh")):
        if "pkg-config" in text and not shutil.which("pkg-config"):
            print("skipped: there is no pkg-config")
            continue
        found = ran(f"commands {number}", ["bash", "-euc", text], cwd=folder, env={**os.environ, "HOME": folder})
        if found is not None:
            judge(f"what commands {number} print", found, SAID)
    if not shutil.which("cmake"):
        print("skipped: there is no cmake")
        return
    for number, text in enumerate(blocks_of("cmake")):
        with open(f"{folder}/CMakeLists.txt", "w") as file:
            file.write(CMAKE + text)
        if ran(f"cmake {number}", ["cmake", "-S", ".", "-B", "build"], cwd=folder) is not None and \
                ran(f"build {number}", ["cmake", "--build", "build"], cwd=folder) is not None:
            judge(f"what cmake {number} makes", ran("game", ["build/game"], cwd=folder), SAID)


def try_links():
    """The files that the page names are there."""
    with open(PAGE, encoding="utf-8") as page:
        for name in re.findall(r"\]\(([^)#]+)\)", page.read()):
            if not name.startswith("http"):
                judge(f"{name} is there", os.path.exists(os.path.join(os.path.dirname(PAGE), name)), True)


with tempfile.TemporaryDirectory() as scratch:
    for name, to in (("include", "include"), ("install", "install"), ("path_server", "."),
                     ("release/pathdb", os.path.dirname(os.path.abspath(library_here())))):
        os.makedirs(os.path.dirname(f"{scratch}/{name}"), exist_ok=True)
        os.symlink(os.path.normpath(os.path.join(TOP, to)), f"{scratch}/{name}")
    try_program(scratch)
    try_commands(scratch)
    try_links()
sys.exit(judge.failed)
