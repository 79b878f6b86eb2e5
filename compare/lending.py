"""A call, and what compare/driver.c is asked to make it."""
from __future__ import annotations

import struct
from dataclasses import dataclass
from typing import Mapping, NamedTuple, Optional

import oracle
from oracle import Entry, Grid, Lent, Ray, Traced

# as struct request and enum kind in driver.c
REQUEST = struct.Struct("<5Q6I9i6I4x")
KINDS = ("trace", "place", "append", "points")


@dataclass(frozen=True)
class Formula:
    """Densities by the driver's rule: the upper half of voxel * times + plus in 32 bits."""

    count: int
    times: int
    plus: int

    def __len__(self) -> int:
        return self.count

    def __getitem__(self, voxel: int) -> int:
        return (voxel * self.times + self.plus) % 2**32 >> 16


class Kept(NamedTuple):
    """The two lists of the call before are lent again, whole or their first places."""

    room: int  # places that each of them has
    held: Mapping[int, Entry]  # what calls have written into them so far, by place


class Call(NamedTuple):
    kind: str
    grid: Grid
    ray: Ray
    densities: Formula
    lent: Lent
    null: bool
    salt: int
    filled: int = 0
    kept: Optional[Kept] = None

    def request(self) -> bytes:
        numbers = [one.n for one in self.grid] + [one.d for one in self.grid] + [one.b for one in self.grid]
        counts = (len(self.densities), *self.lent, self.filled)
        rest = (KINDS.index(self.kind), self.null, self.kept is not None, self.densities.times, self.densities.plus, self.salt)
        return REQUEST.pack(*counts, *numbers, *self.ray.p, *self.ray.q, *rest)

    def traced(self) -> Traced:
        """The answer of a trace or an append."""
        if self.kind == "append":
            return oracle.append(self.grid, self.ray, self.densities, self.lent, self.filled)
        return oracle.trace(self.grid, self.ray, self.densities, self.lent)

    def written(self) -> Mapping[int, Entry]:
        """What the two lists hold after it, by place, beside what they were lent with."""
        return {**(self.kept.held if self.kept else {}), **dict(enumerate(self.traced().entries, self.filled))}
