"""What the memory that a call was lent must hold afterwards: the answer, and elsewhere what was there before."""
from __future__ import annotations

import struct
from typing import Mapping, NamedTuple, Union

import oracle
from lending import Call

TRACE_FIELDS = ("entries", "crossed", "span", "D", "squared", "sum")
PLACE_FIELDS = ("enter", "leave")
POINT_FIELDS = ("enter x", "enter y", "enter z", "leave x", "leave y", "leave z")
REFUSED, MISS, HIT = range(3)  # marks of the point call, as in crates/outside


class Block(NamedTuple):
    """A lent list between its margins."""

    name: str
    form: str  # of an element, by struct's letter
    memory: bytes
    fields: tuple[str, ...] = ()  # the names of its places, where they have any


class Stated(NamedTuple):
    """All that the driver must hand back of a call."""

    told: str  # the answer, by the name that it is counted under
    code: int
    blocks: list[Block]

    def memory(self) -> bytes:
        return struct.pack("<I", self.code) + b"".join(block.memory for block in self.blocks)


class Page(NamedTuple):
    """Makes the lists of one call."""

    salt: int
    margin: int

    def pattern(self, size: int) -> bytearray:
        """What the driver fills its memory with before a call."""
        once = bytes((self.salt + 37 * at) % 256 for at in range(256))
        return bytearray((once * (size // 256 + 1))[:size])

    def block(
        self, name: str, form: str, places: int, written: Mapping[int, Union[int, float]], fields: tuple[str, ...] = ()
    ) -> Block:
        """A list of so many places with what was written into it, by place."""
        width = struct.calcsize("<" + form)
        memory = self.pattern(width * places + 2 * self.margin)
        for place, value in written.items():
            struct.pack_into("<" + form, memory, self.margin + width * place, value)
        return Block(name, form, bytes(memory), fields)


def told_of(call: Call, code: int, entries: int) -> str:
    """The name of an answer; those of an append are told apart by how far the lists were filled."""
    name = f"{call.kind} " + (str(code) if code else "hit" if entries else "miss")
    if call.filled == 0 or code not in (0, 7, 8):
        return name
    if call.filled <= call.lent.voxels:
        return f"{name}, partly filled"
    return f"{name}, overfull on a miss" if code == 8 and not oracle.window(call.grid, call.ray) else f"{name}, overfull"


def of_lists(call: Call, page: Page) -> Stated:
    """A trace or an append. Where an append refuses its zeros come too; a C entry point writes nothing then."""
    found = call.traced()
    held = call.written()
    numbers = found.numbers() if found.code == 0 or call.kind == "append" else ()
    voxels, parts = (call.kept.room, call.kept.room) if call.kept else (call.lent.voxels, call.lent.parts)
    blocks = [
        page.block("voxels", "I", voxels, {at: voxel for at, (voxel, _) in held.items()}),
        page.block("parts", "Q", parts, {at: share for at, (_, share) in held.items()}),
        page.block("answer", "Q", call.lent.answer, dict(enumerate(numbers)), TRACE_FIELDS),
    ]
    return Stated(told_of(call, found.code, len(found.entries)), found.code, blocks)


def of_place(call: Call, page: Page) -> Stated:
    code, enter, leave = oracle.place(call.grid, call.ray, call.lent.answer)
    told = str(code) if code else "hit" if leave else "miss"
    written = {} if code else {0: enter, 1: leave}
    return Stated(f"place {told}", code, [page.block("answer", "d", call.lent.answer, written, PLACE_FIELDS)])


def of_points(call: Call, page: Page) -> Stated:
    code, found = oracle.points(call.grid, call.ray)
    mark = REFUSED if code else HIT if found else MISS
    # Python rounds a fraction to the nearest float, and zero to positive zero
    floats = [float(c) for point in found for c in point] or [0.0] * oracle.POINT_PLACES
    blocks = [
        page.block("mark", "I", 1, {0: mark}),
        page.block("points", "d", call.lent.answer, dict(enumerate(floats)), POINT_FIELDS),
    ]
    return Stated("points " + {REFUSED: str(code), MISS: "miss", HIT: "hit"}[mark], code, blocks)


OF = {"trace": of_lists, "append": of_lists, "place": of_place, "points": of_points}


def stated(call: Call, margin: int) -> Stated:
    return OF[call.kind](call, Page(call.salt, margin))
