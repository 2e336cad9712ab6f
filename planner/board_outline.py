"""The outline behind a map: the lines of a GeoJSON file, as places of the map."""
import json
from collections.abc import Callable, Iterator

from .cells import Refusal

# A file with more corners than these would make the map slow.
MOST_CORNERS = 200_000
# How deep the corners of each kind of shape lie: 1 for a line.
DEPTHS = {"LineString": 1, "Polygon": 2, "MultiLineString": 2, "MultiPolygon": 3}
OTHERS = "Point", "MultiPoint"


def read(path: str, place: Callable[[float, float], tuple[float, float]]) -> list[list[tuple[float, float]]]:
    """The lines and edges of a GeoJSON file (RFC 7946), each corner put through `place`, which takes its two numbers. Points are
    passed over. Refuses what is no GeoJSON, and a file of more than 200,000 corners."""
    try:
        with open(path, encoding="utf-8-sig") as file:
            top = json.load(file)
        lines = [[place(*corner(it)) for it in line] for line in lines_of(top)]
    except (ValueError, TypeError, KeyError, AttributeError, RecursionError) as why:
        raise Refusal(f"{path}: this is no GeoJSON: {why}") from None
    if sum(map(len, lines)) > MOST_CORNERS:
        raise Refusal(f"{path}: it has more than {MOST_CORNERS} corners; a coarser outline is due")
    return lines


def corner(it: list) -> tuple[float, float]:
    x, y, *_ = it
    if not all(type(part) in (int, float) for part in (x, y)):
        raise ValueError("a corner has two numbers")
    return x, y


def lines_of(it: dict) -> Iterator[list]:
    """The lines of an object, those of polygons among them."""
    kind = it["type"]
    if kind == "FeatureCollection":
        for each in it["features"]:
            yield from lines_of(each)
    elif kind == "Feature":
        if it["geometry"]:
            yield from lines_of(it["geometry"])
    elif kind == "GeometryCollection":
        for each in it["geometries"]:
            yield from lines_of(each)
    elif kind in DEPTHS:
        yield from flat(it["coordinates"], DEPTHS[kind])
    elif kind not in OTHERS:
        raise ValueError(f"{kind!r} is no kind of shape")


def flat(those: list, depth: int) -> Iterator[list]:
    if depth == 1:
        yield those
    else:
        for it in those:
            yield from flat(it, depth - 1)
