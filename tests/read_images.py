"""Images for the tests of readers, baked by the library."""
import ctypes
import os
import random

from map_model import Map, made_map


def image_of(library, grid, order):
    """The image of a map, as bytes."""
    words, baked = (ctypes.c_uint32 * (1 << 20))(), (ctypes.c_uint32 * 7)()
    cells = bytes(grid.cells)
    status = library.pathdb_bake_cells(grid.width, grid.height, cells, ctypes.c_size_t(len(cells)), order, words,
                                       ctypes.c_size_t(len(words)), baked)
    if status != 0:
        raise SystemExit(f"a bake ends with {status}")
    return bytes(words)[:4 * baked[0]]


def put_images(archive, folder):
    """Puts files with images of made maps into a folder: 0.image is small and has several components, 1.image is
    larger, and others follow. Their names."""
    library, chance, names = ctypes.CDLL(os.path.abspath(archive).removesuffix("a") + "so"), random.Random(11), []
    grids = [made_map(chance) for _ in range(40)]
    grids.sort(key=lambda grid: (-min(len(grid.components()), 4), abs(grid.width * grid.height - 40)))
    cells = [chance.choice((0, 1, 1, 2)) if chance.random() < 0.4 else 1 for _ in range(60 * 45)]
    for number, grid in enumerate([grids[0], Map(60, 45, cells), *grids[1:6]]):
        names.append(os.path.join(folder, f"{number}.image"))
        with open(names[-1], "wb") as file:
            file.write(image_of(library, grid, number % 2))
    return names
