"""Random grids and rays, most of them where exact answers are hard: in planes, along edges, through corners."""
from __future__ import annotations

from random import Random
from typing import Sequence

from oracle import COORD_MAX, SPACING_MAX, Axis, Grid, Point, Ray


def axis(dice: Random, n: int) -> Axis:
    """An accepted axis of n voxels: near 0, anywhere, or as far down or up as it may lie."""
    widest = min(SPACING_MAX, 2 * COORD_MAX // n)
    d = min(widest, dice.choice([1, 2, dice.randint(1, 12), dice.randint(1, widest), widest]))
    last = COORD_MAX - n * d
    b = dice.choice([0, -dice.randint(0, n * d), dice.randint(-COORD_MAX, last), -COORD_MAX, last])
    return Axis(n, d, max(-COORD_MAX, min(b, last)))


def grid_of(dice: Random, nx: int, ny: int, nz: int) -> Grid:
    return axis(dice, nx), axis(dice, ny), axis(dice, nz)


def grid(dice: Random, most: int) -> Grid:
    """An accepted grid of at most so many voxels on an axis."""
    nx, ny, nz = (dice.randint(1, most) for _ in range(3))
    if dice.random() < 0.3:  # a cube: planes of several axes are often crossed at once
        one = axis(dice, nx)
        return one, one, one
    return grid_of(dice, nx, ny, nz)


def inside(dice: Random, one: Axis) -> int:
    """A coordinate between the first and the far plane, often on a plane or beside one."""
    on = one.plane(dice.randint(0, one.n))
    c = dice.choice([on, on + dice.choice([-1, 1]), dice.randint(one.b, one.far())])
    return max(one.b, min(c, one.far()))


def around(dice: Random, one: Axis, side: int) -> int:
    """A coordinate beyond the first plane (side -1) or the far plane (side 1), or on it, or at the limit."""
    face = one.b if side < 0 else one.far()
    away = dice.choice([0, 1, one.d, dice.randint(0, 2 * one.n * one.d), 2 * COORD_MAX])
    return max(-COORD_MAX, min(face + side * away, COORD_MAX))


def point(dice: Random, of: Grid, sides: list[int]) -> Point:
    """A point beyond a side of each axis, or within its planes (side 0)."""
    x, y, z = (around(dice, one, side) if side else inside(dice, one) for one, side in zip(of, sides))
    return x, y, z


def moved(start: Point, step: list[int], times: int) -> Point:
    x, y, z = (c + times * by for c, by in zip(start, step))
    return x, y, z


def reach(start: Point, step: list[int]) -> int:
    """How many steps from a point on stay within the limits."""
    return min(((COORD_MAX - c if by > 0 else COORD_MAX + c) // abs(by) for c, by in zip(start, step) if by), default=0)


def pieces(dice: Random, of: Grid, faces: Sequence[int] = ()) -> tuple[Point, Point, Point]:
    """P, M and Q: points of whole coordinates on a straight line through a corner of voxels, M between the others.

    The step is often a voxel's own diagonal, so that one corner or edge follows another. On the axes of `faces` it is
    0, in the far plane.
    """
    while True:
        x, y, z = (one.far() if a in faces else one.plane(dice.randint(0, one.n)) for a, one in enumerate(of))
        step = [dice.choice([0, one.d, -one.d, one.d, -one.d, dice.randint(-9, 9)]) for one in of]
        step = [0 if a in faces else by for a, by in enumerate(step)]
        back, on = reach((x, y, z), [-by for by in step]), reach((x, y, z), step)
        most = dice.choice([1, 4, 2 * max(one.n for one in of), 2 * COORD_MAX])
        first, last = -dice.randint(0, min(back, most)), dice.randint(0, min(on, most))
        if last - first >= 2:
            cut = dice.randint(first + 1, last - 1)
            p, m, q = (moved((x, y, z), step, times) for times in (first, cut, last))
            return p, m, q


def straight(dice: Random, of: Grid, faces: Sequence[int] = ()) -> Ray:
    """A ray by sides: across the array, from or to within it, or beside it; now and then with axes still."""
    sides = [dice.choice([-1, 0, 0, 1]) for _ in of]
    other = [dice.choice([-side, -side, 0, dice.choice([-1, 1])]) for side in sides]
    p, q = list(point(dice, of, sides)), list(point(dice, of, other))
    if dice.random() < 0.3:
        still = dice.randrange(3)
        p[still] = q[still] = inside(dice, of[still])
    for a in faces:
        p[a] = q[a] = of[a].far()
    return Ray((p[0], p[1], p[2]), (q[0], q[1], q[2]))


def ray(dice: Random, of: Grid, faces: Sequence[int] = ()) -> Ray:
    """A ray of two different ends, still in the far plane on the axes of `faces`."""
    while True:
        if dice.random() < 0.4:
            p, _, q = pieces(dice, of, faces)
            return Ray(p, q)
        found = straight(dice, of, faces)
        if found.p != found.q:
            return found


def far_faces(dice: Random) -> list[int]:
    """One axis or two, for a ray to stand still in their far planes."""
    return dice.sample(range(3), dice.choice([1, 2]))
