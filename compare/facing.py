"""Rays that hit the array standing still in far faces (RULES 2), by name, so that a comparison tells how many it made."""
from __future__ import annotations

from typing import Iterator

from oracle import Grid, Ray, moving, window

SORTS = ("one far face, up", "one far face, down", "two far faces, up", "two far faces, down", "far face of n 1")


def names(kind: str) -> list[str]:
    return [f"{kind} in {sort}" for sort in SORTS]


def told(kind: str, grid: Grid, ray: Ray) -> Iterator[str]:
    """By how many axes are still in their far plane, and which way the ray goes on the first that moves."""
    faces = [axis for axis, p, q in zip(grid, ray.p, ray.q) if p == q == axis.far()]
    if not faces or window(grid, ray) is None:
        return
    first = moving(ray)[0]
    way = "up" if ray.p[first] < ray.q[first] else "down"
    yield f"{kind} in {'one far face' if len(faces) == 1 else 'two far faces'}, {way}"
    if any(axis.n == 1 for axis in faces):
        yield f"{kind} in far face of n 1"
