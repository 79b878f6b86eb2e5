"""Where the memory that came back of a call parts from what is stated: the list, the place in it, and both values."""
from __future__ import annotations

import struct
from typing import Iterator

from stating import Block, Stated


def shown(form: str, raw: bytes) -> str:
    """An element as a number; of a float the bits too, since all of them count."""
    if len(raw) < struct.calcsize("<" + form):
        return "nothing"
    value = struct.unpack("<" + form, raw)[0]
    return f"{value!r} ({raw[::-1].hex()})" if form == "d" else str(value)


def in_block(block: Block, came: bytes, margin: int) -> str:
    """The first difference of a list: a place of it, or a byte beside it."""
    at = next(at for at in range(len(block.memory)) if block.memory[at : at + 1] != came[at : at + 1])
    end = len(block.memory) - margin
    if at < margin or end <= at:
        where = f"byte {margin - at} before {block.name}" if at < margin else f"byte {at - end + 1} behind {block.name}"
        form, width, start = "B", 1, at
    else:
        form, width = block.form, struct.calcsize("<" + block.form)
        place = (at - margin) // width
        where = f"{block.name}[{place}]" + (f", {block.fields[place]}" if place < len(block.fields) else "")
        start = margin + width * place
    return f"{where}: {shown(form, block.memory[start : start + width])} stated, {shown(form, came[start : start + width])} came"


def differences(stated: Stated, came: bytes, margin: int) -> Iterator[str]:
    """The first difference of the code and of each list."""
    code = struct.pack("<I", stated.code)
    if came[:4] != code:
        yield f"code: {stated.code} stated, {shown('I', came[:4])} came"
    at = len(code)
    for block in stated.blocks:
        found = came[at : at + len(block.memory)]
        if found != block.memory:
            yield in_block(block, found, margin)
        at += len(block.memory)
