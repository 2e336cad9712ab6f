"""Distances: straight ones in a plane, and those along a great circle of the earth."""
import math
from collections.abc import Callable

# The earth as a sphere: the mean radius of the International Union of Geodesy and Geophysics, in metres.
RADIUS = 6_371_008.8
# Millionths of a degree in half a turn.
HALF_TURN = 180 * 10**6


def straight(a: tuple[int, int], b: tuple[int, int]) -> int:
    """The straight distance of two places, in their own unit, rounded to the nearest."""
    return (math.isqrt(4 * ((a[0] - b[0])**2 + (a[1] - b[1])**2)) + 1) // 2


def vector(at: tuple[int, int]) -> tuple[float, float, float]:
    """The place on the sphere of radius 1 of a latitude and a longitude in millionths of degrees."""
    lat, lon = (it * math.pi / HALF_TURN for it in at)
    return math.cos(lat) * math.cos(lon), math.cos(lat) * math.sin(lon), math.sin(lat)


def along(chord: float) -> int:
    """The metres along a great circle between two places of the sphere whose straight distance, for a radius of 1, is the chord."""
    return round(2 * RADIUS * math.asin(min(1.0, chord / 2)))


def chord_of(metres: float) -> float:
    """The straight distance on the sphere of radius 1 of two places that are so far apart along it, at most half around it."""
    return 2 * math.sin(min(metres / RADIUS, math.pi) / 2)


def metres(a: tuple[int, int], b: tuple[int, int]) -> int:
    """The great-circle distance of two latitudes and longitudes, rounded once to metres: all is whole numbers from there."""
    return along(math.dist(vector(a), vector(b)))


def projector(middle: float) -> Callable[[float, float], tuple[float, float]]:
    """What puts a longitude and a latitude, in millionths of degrees, onto a map around a middle latitude: millionths of kilometres
    to the east and north. For drawing alone."""
    high = math.pi / HALF_TURN * RADIUS * 1000
    wide = high * math.cos(middle * math.pi / HALF_TURN)
    return lambda lon, lat: (lon * wide, lat * high)
