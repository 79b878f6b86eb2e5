#!/usr/bin/env python3
"""The independent program: docs/RULES.md worked out in exact fractions, voxel by voxel.

    python3 compare/oracle.py < job     prints what the program `trace` must print

It shares nothing with the proved code, and no answer depends on the one before it: `by_voxels` asks
every voxel of the array by itself, and `by_planes`, for arrays too large for that, asks every stretch
between two neighbouring planes by itself. compare/selftest.py holds the two equal.
"""
from __future__ import annotations

import re
import sys
from fractions import Fraction
from functools import lru_cache
from typing import Iterator, NamedTuple, Optional, Protocol

COUNT_MAX = 512
SPACING_MAX = 4096
COORD_MAX = 16384
DENSITY_MAX = 65535
LINE_MAX = 4096
JOB_VOXELS_MAX = 4096
JOB_PLACES = 600
ANSWER_PLACES = 6
PLACE_PLACES = 2
POINT_PLACES = 6

# Up to here, so in every job, each voxel is asked; a larger array would take minutes.
BRUTE_VOXELS_MAX = JOB_VOXELS_MAX

ZERO, ONE = Fraction(0), Fraction(1)

Point = tuple[int, int, int]
Entry = tuple[int, int]  # voxel number, part
Stretch = Optional[tuple[Fraction, Fraction]]  # from α, to α; None where it has no length


class Axis(NamedTuple):
    n: int
    d: int
    b: int

    def plane(self, i: int) -> int:
        return self.b + i * self.d

    def far(self) -> int:
        return self.plane(self.n)


class Ray(NamedTuple):
    p: Point
    q: Point


Grid = tuple[Axis, Axis, Axis]


class Densities(Protocol):
    """As many 16-bit numbers as an array has voxels, or another number of them."""

    def __len__(self) -> int: ...

    def __getitem__(self, voxel: int) -> int: ...


class Lent(NamedTuple):
    """The lengths of the lists that a caller lends."""

    voxels: int
    parts: int
    answer: int = ANSWER_PLACES


class Traced(NamedTuple):
    """A trace's answer: all zeros and no entries beside a refusal's code."""

    code: int
    crossed: int = 0
    span: int = 0
    whole: int = 0  # D
    squared: int = 0
    total: int = 0
    entries: tuple[Entry, ...] = ()

    def numbers(self) -> tuple[int, int, int, int, int, int]:
        return len(self.entries), self.crossed, self.span, self.whole, self.squared, self.total


# ---- geometry


def count(grid: Grid) -> int:
    return grid[0].n * grid[1].n * grid[2].n


def moving(ray: Ray) -> list[int]:
    return [a for a in range(3) if ray.p[a] != ray.q[a]]


def whole(ray: Ray) -> int:
    """D: |q - p| multiplied over the moving axes (RULES 3)."""
    product = 1
    for a in moving(ray):
        product *= abs(ray.q[a] - ray.p[a])
    return product


def squared(ray: Ray) -> int:
    return sum((q - p) ** 2 for p, q in zip(ray.p, ray.q))


def alpha(ray: Ray, a: int, c: int) -> Fraction:
    """Where the ray is at coordinate c of a moving axis, by equation (2)."""
    return Fraction(c - ray.p[a], ray.q[a] - ray.p[a])


def between(ray: Ray, a: int, axis: Axis, i: int, j: int) -> Stretch:
    """What planes i and j of axis a leave of the ray. A still axis that is held takes nothing away.

    The lower plane is held, and the upper one where it is the far plane (RULES 2).
    """
    low, high = axis.plane(i), axis.plane(j)
    if ray.p[a] == ray.q[a]:
        return (ZERO, ONE) if low <= ray.p[a] < high or ray.p[a] == high == axis.far() else None
    one, other = alpha(ray, a, low), alpha(ray, a, high)
    return min(one, other), max(one, other)


def within(x: Stretch, y: Stretch, z: Stretch) -> Stretch:
    """What is left of 0 to 1 by three axes: of a voxel's slabs its length, of the array's equation (5)."""
    if x is None or y is None or z is None:
        return None
    enter, leave = max(ZERO, x[0], y[0], z[0]), min(ONE, x[1], y[1], z[1])
    return (enter, leave) if enter < leave else None


def window(grid: Grid, ray: Ray) -> Stretch:
    """αmin and αmax, None on a miss."""
    x, y, z = (between(ray, a, axis, 0, axis.n) for a, axis in enumerate(grid))
    return within(x, y, z)


def crossed(grid: Grid, ray: Ray) -> list[Fraction]:
    """The α of each plane strictly inside the window, one for each pair of a moving axis and a plane."""
    inside = window(grid, ray)
    if inside is None:
        return []
    planes = [alpha(ray, a, grid[a].plane(i)) for a in moving(ray) for i in range(grid[a].n + 1)]
    return [at for at in planes if inside[0] < at < inside[1]]


def part(ray: Ray, length: Fraction) -> int:
    times = length * whole(ray)
    assert times.denominator == 1, "every plane's α times D is whole"
    return times.numerator


def by_voxels(grid: Grid, ray: Ray) -> list[Entry]:
    """The voxels of a length above zero, in the ray's order, each found by itself."""
    slabs = [[between(ray, a, axis, i, i + 1) for i in range(axis.n)] for a, axis in enumerate(grid)]
    found: list[tuple[Fraction, int, int]] = []
    number = 0
    for z in slabs[2]:
        for y in slabs[1]:
            for x in slabs[0]:
                inside = within(x, y, z)
                if inside is not None:
                    found.append((inside[0], number, part(ray, inside[1] - inside[0])))
                number += 1
    return [(voxel, share) for _, voxel, share in sorted(found)]


def index(axis: Axis, c: Fraction) -> int:
    """The index of the voxel that a coordinate lies in, below 0 or above n - 1 where it lies in none."""
    return axis.n - 1 if c == axis.far() else (c - axis.b) // axis.d


def by_planes(grid: Grid, ray: Ray) -> list[Entry]:
    """The same list for large arrays: between two neighbouring α of planes the ray is in one voxel, or in none.

    It is independent of a walk: each stretch takes its voxel from its own middle, by one division on
    each axis. No index, α or part is carried from one stretch to the next, and αmin, αmax, the first
    voxel and the direction of the ray are never worked out.
    """
    planes = {alpha(ray, a, grid[a].plane(i)) for a in moving(ray) for i in range(grid[a].n + 1)}
    marks = sorted({ZERO, ONE} | {at for at in planes if ZERO < at < ONE})
    found: list[Entry] = []
    for enter, leave in zip(marks, marks[1:]):
        middle = (enter + leave) / 2
        i, j, k = (index(axis, p + middle * (q - p)) for axis, p, q in zip(grid, ray.p, ray.q))
        if 0 <= i < grid[0].n and 0 <= j < grid[1].n and 0 <= k < grid[2].n:
            found.append((i + grid[0].n * (j + grid[1].n * k), part(ray, leave - enter)))
    return found


@lru_cache(maxsize=4096)
def geometry(grid: Grid, ray: Ray) -> tuple[tuple[Entry, ...], int, int]:
    """The list, the number of planes crossed and the span: all that does not depend on densities."""
    inside = window(grid, ray)
    span = part(ray, inside[1] - inside[0]) if inside else 0
    entries = by_voxels(grid, ray) if count(grid) <= BRUTE_VOXELS_MAX else by_planes(grid, ray)
    return tuple(entries), len(crossed(grid, ray)), span


# ---- codes, in rising order


def grid_code(grid: Grid) -> int:
    if any(not 1 <= axis.n <= COUNT_MAX for axis in grid):
        return 1
    if any(not 1 <= axis.d <= SPACING_MAX for axis in grid):
        return 2
    if any(abs(axis.b) > COORD_MAX or axis.far() > COORD_MAX for axis in grid):
        return 3
    return 0


def ends_code(ray: Ray) -> int:
    if any(abs(c) > COORD_MAX for c in ray.p + ray.q):
        return 5
    return 6 if ray.p == ray.q else 0


# ---- the calls


def answer(grid: Grid, ray: Ray, densities: Densities) -> Traced:
    """The trace of numbers that no code refuses."""
    entries, planes, span = geometry(grid, ray)
    # equation (1): a voxel that is not listed has a part of zero
    total = sum(share * densities[voxel] for voxel, share in entries)
    return Traced(0, planes, span, whole(ray), squared(ray), total, entries)


def trace(grid: Grid, ray: Ray, densities: Densities, lent: Lent) -> Traced:
    code = grid_code(grid) or (4 if len(densities) != count(grid) else 0) or ends_code(ray)
    if code == 0 and lent.voxels != lent.parts:
        code = 7
    if code:
        return Traced(code)
    found = answer(grid, ray, densities)
    if len(found.entries) > lent.voxels:
        return Traced(8)
    return Traced(17) if lent.answer != ANSWER_PLACES else found


def append(grid: Grid, ray: Ray, densities: Densities, lent: Lent, filled: int) -> Traced:
    """The trace with what lies behind the filled places as its lists.

    Where more are filled than there are, fewer than no places are left, too few for a miss as well.
    """
    return trace(grid, ray, densities, Lent(lent.voxels - filled, lent.parts - filled))


def place(grid: Grid, ray: Ray, places: int = PLACE_PLACES) -> tuple[int, float, float]:
    """The code, αmin and αmax, both zero on a miss. Python rounds a fraction to the nearest float."""
    code = grid_code(grid) or ends_code(ray) or (17 if places != PLACE_PLACES else 0)
    inside = window(grid, ray) if code == 0 else None
    return (code, float(inside[0]), float(inside[1])) if inside else (code, 0.0, 0.0)


def points(grid: Grid, ray: Ray) -> tuple[int, list[tuple[Fraction, Fraction, Fraction]]]:
    """The code, and the entering and the leaving point, exactly; no points on a miss or a refusal."""
    code = grid_code(grid) or ends_code(ray)
    inside = window(grid, ray) if code == 0 else None
    x, y, z = ((p, q - p) for p, q in zip(ray.p, ray.q))
    return code, [(x[0] + at * x[1], y[0] + at * y[1], z[0] + at * z[1]) for at in inside or ()]


# ---- the text job


class Bad(Exception):
    """A line is refused with a code."""


FIELDS = {b"GRID": 9, b"RAY": 6}
PLAIN = re.compile(rb"0|[1-9][0-9]{0,5}")
SIGNED = re.compile(rb"0|-?[1-9][0-9]{0,5}")


def numeral(field: bytes, form: re.Pattern[bytes], most: int = 999999) -> int:
    if not form.fullmatch(field) or int(field) > most:
        raise Bad(24)
    return int(field)


class Job:
    """A text job, told line by line."""

    def __init__(self) -> None:
        self.grid: Optional[Grid] = None
        self.densities: list[int] = []
        self.rays = 0

    def due(self) -> bytes:
        """The first word of the line that may come next."""
        if self.grid is None:
            return b"GRID"
        return b"DENS" if len(self.densities) < count(self.grid) else b"RAY"

    def line(self, text: bytes) -> Iterator[str]:
        if len(text) > LINE_MAX:
            raise Bad(20)
        word, *fields = text.split(b"\t")
        if word not in (b"GRID", b"DENS", b"RAY"):
            raise Bad(21)
        if word != self.due():
            raise Bad(22)
        if len(fields) != (self.grid[0].n if word == b"DENS" and self.grid else FIELDS[word]):
            raise Bad(23)
        if word == b"GRID":
            self.take_grid(fields)
        elif word == b"DENS":
            self.densities += [numeral(field, PLAIN, DENSITY_MAX) for field in fields]
        else:
            yield from self.take_ray(fields)

    def take_grid(self, fields: list[bytes]) -> None:
        n, d = ([numeral(field, PLAIN) for field in fields[at : at + 3]] for at in (0, 3))
        b = [numeral(field, SIGNED) for field in fields[6:]]
        x, y, z = (Axis(*numbers) for numbers in zip(n, d, b))
        code = grid_code((x, y, z)) or (25 if count((x, y, z)) > JOB_VOXELS_MAX else 0)
        if code:
            raise Bad(code)
        self.grid = (x, y, z)

    def take_ray(self, fields: list[bytes]) -> Iterator[str]:
        px, py, pz, qx, qy, qz = (numeral(field, SIGNED) for field in fields)
        assert self.grid is not None
        found = trace(self.grid, Ray((px, py, pz), (qx, qy, qz)), self.densities, Lent(JOB_PLACES, JOB_PLACES))
        self.rays += 1
        yield " ".join(map(str, ("RAY", found.code) + found.numbers()))
        nx, ny = self.grid[0].n, self.grid[1].n
        for voxel, share in found.entries:
            yield f"CELL {voxel % nx} {voxel // nx % ny} {voxel // (nx * ny)} {share}"


def printed(job: bytes) -> Iterator[str]:
    """The lines that the program prints for a job."""
    *lines, rest = job.split(b"\n")
    told = Job()
    number = 0
    try:
        for number, text in enumerate(lines, 1):
            yield from told.line(text)
        number += 1
        if rest:
            raise Bad(20)
        if told.due() != b"RAY":
            raise Bad(22)
        yield f"END {told.rays}"
    except Bad as bad:
        yield f"BAD {number} {bad.args[0]}"


def run(job: bytes) -> bytes:
    return "".join(line + "\n" for line in printed(job)).encode()


if __name__ == "__main__":
    sys.stdout.buffer.write(run(sys.stdin.buffer.read()))
