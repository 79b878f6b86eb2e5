"""Rays beside themselves turned round and cut, as a technician would hold one against the other."""
from __future__ import annotations

import struct
from fractions import Fraction
from random import Random
from typing import NamedTuple, Sequence

import asking
import oracle
import scenes
from lending import Call
from oracle import Ray


class Listed(NamedTuple):
    """What the caller of an accepted trace reads off the memory."""

    entries: list[tuple[int, Fraction]]  # voxel, share of the ray
    mean: Fraction  # sum over D
    crossed: int


def listed(call: Call, memory: bytes, margin: int) -> Listed:
    room = call.lent.voxels
    at = 4 + margin
    voxels = struct.unpack_from(f"<{room}I", memory, at)
    at += 4 * room + 2 * margin
    parts = struct.unpack_from(f"<{room}Q", memory, at)
    entries, crossed, _, whole, _, total = struct.unpack_from("<6Q", memory, at + 8 * room + 2 * margin)
    shares = [(voxel, Fraction(part, whole)) for voxel, part in zip(voxels[:entries], parts)]
    return Listed(shares, Fraction(total, whole), crossed)


def weighed(of: Listed, weight: Fraction) -> list[tuple[int, Fraction]]:
    return [(voxel, share * weight) for voxel, share in of.entries]


def agree(whole: Listed, turned: Listed, first: Listed, second: Listed, cut: Fraction) -> bool:
    """The ray turned round has its list backwards; cut at M, its pieces' lists join to its own.

    Shares of the pieces are weighed by their lengths, and at the seam two entries of one voxel are one.
    """
    one, other = weighed(first, cut), weighed(second, 1 - cut)
    if one and other and one[-1][0] == other[0][0]:
        voxel, share = one.pop()
        other[0] = (voxel, share + other[0][1])
    return (
        turned.entries == whole.entries[::-1]
        and (turned.mean, turned.crossed) == (whole.mean, whole.crossed)
        and one + other == whole.entries
        and whole.mean == first.mean * cut + second.mean * (1 - cut)
    )


def family(dice: Random, faces: Sequence[int] = ()) -> tuple[list[Call], Fraction]:
    """A ray whole, turned round, and its two pieces; and where it was cut."""
    grid = scenes.grid(dice, dice.choice([2, 4, 7, 11]))
    p, m, q = scenes.pieces(dice, grid, faces)
    of = asking.densities(dice, grid)
    calls = [asking.accepted(dice, grid, ray, of) for ray in (Ray(p, q), Ray(q, p), Ray(p, m), Ray(m, q))]
    return calls, next(Fraction(m[a] - p[a], q[a] - p[a]) for a in oracle.moving(Ray(p, q)))
