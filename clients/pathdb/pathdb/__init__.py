"""Exact shortest paths on grid maps by look-ups, from a database that is baked once and shipped.

    import pathdb

    image = pathdb.Image.bake(open("maps/tutorial.map", "rb").read())
    path = image.path((2, 2), (37, 17))
    if path is not None:
        print(path.cost.length, path.corners())
"""

from .image import (
    NO_MOVE,
    BadCell,
    BadMap,
    Cell,
    Cost,
    Facts,
    Image,
    LiveMap,
    Move,
    NextMove,
    NotAnImage,
    Order,
    Path,
    PathdbError,
    Told,
)

__all__ = [
    "NO_MOVE",
    "BadCell",
    "BadMap",
    "Cell",
    "Cost",
    "Facts",
    "Image",
    "LiveMap",
    "Move",
    "NextMove",
    "NotAnImage",
    "Order",
    "Path",
    "PathdbError",
    "Told",
]
