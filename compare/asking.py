"""Random calls: accepted ones, and ones with something to refuse."""
from __future__ import annotations

from dataclasses import replace
from random import Random
from typing import Iterator, Sequence

import oracle
import scenes
from lending import Call, Formula
from oracle import COORD_MAX, COUNT_MAX, SPACING_MAX, Axis, Grid, Lent, Ray
from selftest import BENCH, RAYS

CODES = {
    "trace": [1, 2, 3, 4, 5, 6, 7, 8, 17],
    "place": [1, 2, 3, 5, 6, 17],
    "append": [1, 2, 3, 4, 5, 6, 7, 8],
    "points": [1, 2, 3, 5, 6],
}

U32_MAX, I32_MIN, I32_MAX, USIZE_MAX = 2**32 - 1, -(2**31), 2**31 - 1, 2**64 - 1


def densities(dice: Random, grid: Grid) -> Formula:
    """Mixed densities, rising ones, or the same for all, 65535 among them."""
    times = dice.choice([dice.randrange(2**32), dice.randrange(2**32), 2**16, 0])
    return Formula(oracle.count(grid), times, dice.choice([dice.randrange(2**32), U32_MAX]))


def accepted(dice: Random, grid: Grid, ray: Ray, of: Formula) -> Call:
    """A call that no code refuses: lists that fit exactly, or have some or much room to spare."""
    room = len(oracle.geometry(grid, ray)[0]) + dice.choice([0, 0, 1, 2, dice.randint(0, 40)])
    return Call("trace", grid, ray, of, Lent(room, room), dice.random() < 0.5, dice.randrange(256))


def behind(dice: Random, call: Call) -> Call:
    """A trace as an append: its lists behind places that are filled."""
    filled = dice.choice([0, 0, 1, 2, dice.randint(0, 40)])
    lent = Lent(call.lent.voxels + filled, call.lent.parts + filled)
    return call._replace(kind="append", lent=lent, filled=filled)


def drawn(dice: Random, kind: str, grid: Grid, ray: Ray) -> Call:
    """A place or its points, which need no densities and no lists."""
    lent = Lent(0, 0, oracle.PLACE_PLACES if kind == "place" else oracle.POINT_PLACES)
    return Call(kind, grid, ray, Formula(0, 0, 0), lent, dice.random() < 0.5, dice.randrange(256))


def with_axis(dice: Random, call: Call, **change: int) -> Call:
    at = dice.randrange(3)
    x, y, z = (one._replace(**change) if a == at else one for a, one in enumerate(call.grid))
    return call._replace(grid=(x, y, z))


def with_end(dice: Random, call: Call, c: int) -> Call:
    ends = [*call.ray.p, *call.ray.q]
    ends[dice.randrange(6)] = c
    return call._replace(ray=Ray((ends[0], ends[1], ends[2]), (ends[3], ends[4], ends[5])))


def with_filled(dice: Random, call: Call) -> Call:
    """An append behind more places than its lists have, or behind just about all of them."""
    room = call.lent.voxels
    nearly = max(0, room - dice.randint(1, 4))
    return call._replace(filled=dice.choice([room + 1, room + dice.randint(1, 600), USIZE_MAX, room, nearly]))


def with_lists(dice: Random, call: Call, code: int) -> Call:
    """Lists of different length, or too short; lists that are kept have no place more to lend."""
    lent = call.lent
    if call.kind == "append" and dice.random() < 0.4:
        call = with_filled(dice, call)
        if code == 8:
            return call
    if code == 7:
        lengths = [0, max(0, lent.parts - 1)] + ([] if call.kept else [lent.parts + 1])
        return call._replace(lent=lent._replace(parts=dice.choice(lengths)))
    less = max(0, lent.voxels - dice.choice([1, 1, 2, lent.voxels]))
    return call._replace(lent=Lent(less, less, lent.answer))


def spoiled(dice: Random, call: Call, code: int) -> Call:
    """The call with what the code refuses, or what it just does not."""
    far = dice.choice(call.grid)
    if code == 1:
        return with_axis(dice, call, n=dice.choice([0, COUNT_MAX + 1, U32_MAX, 2**31]))
    if code == 2:
        return with_axis(dice, call, d=dice.choice([0, SPACING_MAX + 1, U32_MAX, 2**31]))
    if code == 3:
        beyond = max(-COORD_MAX, COORD_MAX + 1 - far.n * far.d)
        return with_axis(dice, call, b=dice.choice([-COORD_MAX - 1, COORD_MAX, COORD_MAX + 1, I32_MIN, I32_MAX, beyond]))
    if code == 4:
        many = len(call.densities)
        return call._replace(densities=replace(call.densities, count=dice.choice([0, max(0, many - 1), many + 1])))
    if code == 5:
        return with_end(dice, call, dice.choice([COORD_MAX + 1, -COORD_MAX - 1, I32_MIN, I32_MAX, COORD_MAX, -COORD_MAX]))
    if code == 6:
        return call._replace(ray=Ray(call.ray.p, call.ray.p))
    if code in (7, 8):
        return with_lists(dice, call, code)
    return call._replace(lent=call.lent._replace(answer=dice.choice([0, 1, 5, 7, 3, 12])))


def of_kind(dice: Random, kind: str, faces: Sequence[int] = ()) -> Call:
    """An accepted call."""
    drawing = kind in ("place", "points")
    grid = scenes.grid(dice, dice.choice([1, 2, 4, 6, 9, 12] + ([COUNT_MAX] if drawing else [])))
    ray = scenes.ray(dice, grid, faces)
    if drawing:
        return drawn(dice, kind, grid, ray)
    call = accepted(dice, grid, ray, densities(dice, grid))
    return behind(dice, call) if kind == "append" else call


def random_calls(dice: Random, many: int, kinds: list[str]) -> Iterator[Call]:
    """Half of them accepted, the others with one, two or three things to refuse."""
    for _ in range(many):
        call = of_kind(dice, dice.choice(kinds))
        for _ in range(dice.choice([0, 0, 0, 1, 1, 2, 3])):
            call = spoiled(dice, call, dice.choice(CODES[call.kind]))
        yield call


def face_calls(dice: Random, many: int) -> Iterator[Call]:
    """Rays that stand still in far faces, by every kind of call; some with lists that may be too short."""
    for _ in range(many):
        call = of_kind(dice, dice.choice(list(CODES)), scenes.far_faces(dice))
        short = 8 in CODES[call.kind] and dice.random() < 0.3
        yield spoiled(dice, call, 8) if short else call


def drawing_calls(dice: Random, many: int) -> Iterator[Call]:
    """The points of a ray, and its place beside them."""
    for call in random_calls(dice, many, ["points"]):
        yield call
        yield drawn(dice, "place", call.grid, call.ray)


def large_calls(dice: Random, many: int) -> Iterator[Call]:
    """Arrays of up to 512 voxels on an axis, several rays on each, one array as large as they come."""
    for at in range(many):
        n = dice.choice([(512, 1, 1), (1, 512, 512), (512, 64, 3), (200, 100, 90), (7, 300, 512), (128, 128, 128)])
        grid = scenes.grid_of(dice, *(n if at else (COUNT_MAX, COUNT_MAX, COUNT_MAX)))
        of = densities(dice, grid)
        for _ in range(20):
            call = accepted(dice, grid, scenes.ray(dice, grid), of)
            if dice.random() < 0.3:
                call = behind(dice, call)
            yield spoiled(dice, call, dice.choice(CODES[call.kind][-3:])) if dice.random() < 0.2 else call


def bench_calls(dice: Random) -> Iterator[Call]:
    """Rays A to J and the widest ray of RULES 11, and the limits of RULES 1."""
    bench = Formula(6, 2**16, 2**16)  # 1, 2, .. 6
    told = [accepted(dice, BENCH, ray, bench) for ray, *_ in RAYS.values()]
    widest = Axis(8, SPACING_MAX, -COORD_MAX)
    corners = Ray((-COORD_MAX,) * 3, (COORD_MAX,) * 3)
    told.append(accepted(dice, (widest, widest, widest), corners, Formula(512, 0, U32_MAX)))
    for n, d in ((COUNT_MAX, 1), (COUNT_MAX + 1, 1), (1, SPACING_MAX), (1, SPACING_MAX + 1)):
        told.append(told[2]._replace(grid=(Axis(n, d, 0), Axis(1, 1, 0), Axis(1, 1, 0)), densities=Formula(n, 9, 9)))
    for c in (COORD_MAX, COORD_MAX + 1):
        told.append(told[0]._replace(ray=Ray((c, 5, 5), (0, 5, 5))))
    for room in (4, 3):
        told.append(told[2]._replace(lent=Lent(room, room)))
    for call in told:
        yield call
        yield behind(dice, call)
        yield drawn(dice, "place", call.grid, call.ray)
        yield drawn(dice, "points", call.grid, call.ray)
