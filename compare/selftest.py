#!/usr/bin/env python3
"""Holds the independent program to the rules' own figures, and its two methods to each other; and how a difference is told.

    python3 compare/selftest.py [--seed SEED]
"""
from __future__ import annotations

from random import Random

import facing
import machine
import scenes
from differing import differences
from lending import Call, Formula
from oracle import (
    Axis, Entry, Grid, Lent, Ray, answer, append, by_planes, by_voxels, crossed, place, points, trace, window,
)
from stating import stated
from tally import Tally

SCENES = 4000
FACES = 1000
FACED = 100  # times that each sort of ray made to lie in far faces is to be met

BENCH: Grid = (Axis(3, 10, 0), Axis(2, 10, 0), Axis(1, 10, 0))
DENSITIES = [1, 2, 3, 4, 5, 6]

# RULES 11: ends, entries, planes crossed, D, sum
RAYS: dict[str, tuple[Ray, list[Entry], int, int, int]] = {
    "A": (Ray((-10, 5, 5), (40, 5, 5)), [(0, 10), (1, 10), (2, 10)], 2, 50, 60),
    "B": (Ray((40, 5, 5), (-10, 5, 5)), [(2, 10), (1, 10), (0, 10)], 2, 50, 60),
    "C": (Ray((0, 0, 5), (30, 20, 5)), [(0, 200), (1, 100), (4, 100), (5, 200)], 3, 600, 2100),
    "D": (Ray((0, 0, 5), (20, 20, 5)), [(0, 200), (4, 200)], 2, 400, 1200),
    "E": (Ray((10, -10, 5), (10, 30, 5)), [(1, 10), (4, 10)], 1, 40, 70),
    "F": (Ray((30, -10, 5), (30, 30, 5)), [(2, 10), (5, 10)], 1, 40, 90),
    "G": (Ray((-10, 10, 5), (10, -10, 5)), [], 0, 400, 0),
    "H": (Ray((12, 3, 5), (17, 3, 5)), [(1, 5)], 0, 5, 10),
    "I": (Ray((5, 5, 5), (10, 5, 5)), [(0, 5)], 0, 5, 5),
    "J": (Ray((10, 5, 5), (5, 5, 5)), [(0, 5)], 0, 5, 5),
}


def figures(tally: Tally) -> None:
    for name, (ray, entries, planes, whole, total) in RAYS.items():
        found = trace(BENCH, ray, DENSITIES, Lent(600, 600))
        stated = (0, tuple(entries), planes, whole, total)
        tally.check((found.code, found.entries, found.crossed, found.whole, found.total) == stated, f"ray {name}")
    tally.check(place(BENCH, Ray((-10, 5, 5), (30, 5, 5))) == (0, 0.25, 1.0), "the place call's example")
    widest = Axis(8, 4096, -16384)
    corners = Ray((-16384,) * 3, (16384,) * 3)
    found = trace((widest,) * 3, corners, [65535] * 512, Lent(8, 8))
    diagonal = tuple((73 * i, 4398046511104) for i in range(8))
    tally.check((found.entries, found.crossed, found.total) == (diagonal, 21, 2305807824841605120), "corner to corner")


def behind(tally: Tally) -> None:
    """Ray C takes four places, ray F two, and ray G, a miss, none."""
    for name, room, filled, code in (
        ("C", 6, 2, 0), ("C", 5, 2, 8), ("C", 2, 3, 8), ("F", 4, 2, 0), ("F", 3, 2, 8), ("G", 2, 2, 0), ("G", 2, 3, 8),
    ):  # fmt: skip
        found = append(BENCH, RAYS[name][0], DENSITIES, Lent(room, room), filled).code
        tally.check(found == code, f"ray {name} behind {filled} of {room} places: code {found}")
    found = append(BENCH, RAYS["G"][0], DENSITIES, Lent(2, 3), 9).code
    tally.check(found == 7, f"lists of different length with more places filled than either has: code {found}")


def named(tally: Tally) -> None:
    """A byte that is not as stated is told by its list and its place: ray C behind two places of eight, margins of 8."""
    call = Call("append", BENCH, RAYS["C"][0], Formula(6, 2**16, 2**16), Lent(8, 8), False, 0, 2)
    wanted = stated(call, 8)
    for at, told in {
        0: "code: 0 stated, 1 came",
        4: "byte 8 before voxels: 0 stated, 1 came",
        4 + 8 + 4 * 3: "voxels[3]: 1 stated, 0 came",
        4 + 8 + 4 * 8: "byte 1 behind voxels: 200 stated, 201 came",
        52 + 8 + 8 * 5: "parts[5]: 200 stated, 201 came",
        132 + 8 + 8 * 5: "answer[5], sum: 2100 stated, 2101 came",
    }.items():
        came = bytearray(wanted.memory())
        came[at] ^= 1
        found = list(differences(wanted, bytes(came), 8))
        tally.check(found == [told], f"{told}: {found}")


def limits(tally: Tally) -> None:
    def code(n: int = 1, d: int = 1, c: int = 0) -> int:
        return place((Axis(n, d, 0), BENCH[1], BENCH[2]), Ray((c, 0, 0), (1, 1, 1)))[0]

    for told, good in {
        "n": (code(n=512), code(n=513)) == (0, 1),
        "d": (code(d=4096), code(d=4097)) == (0, 2),
        "coordinate": (code(c=16384), code(c=16385)) == (0, 5),
        "lists": [trace(BENCH, RAYS["C"][0], DENSITIES, Lent(room, room)).code for room in (4, 3)] == [0, 8],
    }.items():
        tally.check(good, f"the limit of {told}")


def consistent(grid: Grid, ray: Ray) -> bool:
    """Both methods, and what RULES 4 and 8 say of span, planes crossed, entries and points."""
    found = answer(grid, ray, [1] * (grid[0].n * grid[1].n * grid[2].n))
    planes, inside = crossed(grid, ray), window(grid, ray)
    most = sum(axis.n for axis in grid) - 2
    held = all(axis.b <= c <= axis.far() for at in points(grid, ray)[1] for axis, c in zip(grid, at))
    return (
        by_voxels(grid, ray) == by_planes(grid, ray)
        and found.total == found.span
        and len(found.entries) == (len(set(planes)) + 1 if inside else 0) <= most
        and held
    )


def main() -> None:
    seed = machine.asked(__doc__).seed
    dice = Random(seed)
    tally = Tally()
    figures(tally)
    limits(tally)
    behind(tally)
    named(tally)
    for at in range(SCENES + FACES):
        faces = scenes.far_faces(dice) if at < FACES else []
        grid = scenes.grid(dice, dice.choice([1, 2, 4, 7]))
        ray = scenes.ray(dice, grid, faces)
        tally.check(consistent(grid, ray), f"{grid} {ray}")
        if faces:
            tally.codes.update(facing.told("scene", grid, ray))
    print(f"selftest: seed {seed}, {SCENES} scenes and {FACES} in far faces by both methods of the independent program")
    tally.table(facing.names("scene"), FACED)
    tally.close()


if __name__ == "__main__":
    main()
