"""Several rays into one pair of lists, each behind the last, with refused calls among them."""
from __future__ import annotations

from random import Random
from typing import Iterator

import asking
import oracle
import scenes
from lending import Call, Kept
from oracle import Lent


def chain(dice: Random) -> Iterator[Call]:
    """Lists with room for all the rays, or for nearly all.

    The next `filled` is the last one plus its entries; now and then it goes back, and a ray is written over others.
    """
    grid = scenes.grid(dice, dice.choice([1, 2, 4, 6, 9]))
    rays = [scenes.ray(dice, grid) for _ in range(dice.randint(2, 8))]
    needed = sum(len(oracle.geometry(grid, ray)[0]) for ray in rays)
    room = max(0, needed + dice.choice([0, 0, 1, 9, -1, -2, -5]))
    of, null, salt = asking.densities(dice, grid), dice.random() < 0.5, dice.randrange(256)
    filled, kept = 0, None
    for ray in rays:
        at = filled if dice.random() < 0.9 else dice.randint(0, filled)
        call = Call("append", grid, ray, of, Lent(room, room), null, salt, at, kept)
        if kept is not None and dice.random() < 0.3:
            call = asking.spoiled(dice, call, dice.choice(asking.CODES["append"]))
        yield call
        found = call.traced()
        if found.code == 0:
            filled = call.filled + len(found.entries)
        kept = Kept(room, call.written())


def chains(dice: Random, many: int) -> Iterator[Call]:
    for _ in range(many):
        yield from chain(dice)
