"""Text jobs, whole and damaged in every way that RULES 10.4 has a refusal for, and in some that it accepts."""
from __future__ import annotations

from random import Random
from typing import Iterator

import scenes
from oracle import COORD_MAX, COUNT_MAX, DENSITY_MAX, JOB_VOXELS_MAX, LINE_MAX, SPACING_MAX, Axis, Grid, Ray, count, grid_code

Lines = list[bytes]

NUMERALS = (
    b"-0 +5 007 00 01 1234567 1000000 999999 -999999 -1234567 65535 65536 70000 -1 - -- --1 1- 0x1 1e3 1.0 1,0 16384 16385 "
    b"-16384 -16385 512 513 4096 4097 0 1"
).split() + [b"", b" 1", b"1 ", b"1\r", b"\x001", b"1\x00", b"\xb2", "\u0661".encode(), b"\xff", b"1\x0b"]

WORDS = b"GRID DENS RAY grid dens ray Grid RAYS RA GRIDX DEN CELL BAD END # RAY: -RAY".split() + [
    b"", b" RAY", b"RAY ", b"GRID ", b"\x00RAY", b"RAY\x00", b"RAY\r", b"\xffRAY", b"\xef\xbb\xbfGRID",
]  # fmt: skip


def line(word: str, *numbers: int) -> bytes:
    return "\t".join([word, *map(str, numbers)]).encode()


def head(grid: Grid) -> bytes:
    return line("GRID", *(one.n for one in grid), *(one.d for one in grid), *(one.b for one in grid))


def lines(grid: Grid, densities: list[int], rays: list[Ray]) -> Lines:
    nx = grid[0].n
    rows = [line("DENS", *densities[at : at + nx]) for at in range(0, count(grid), nx)]
    return [head(grid), *rows, *(line("RAY", *ray.p, *ray.q) for ray in rays)]


def joined(of: Lines) -> bytes:
    return b"".join(text + b"\n" for text in of)


def fill(dice: Random, grid: Grid) -> list[int]:
    """Densities of an array: mixed, or all at a limit."""
    most = dice.choice([9, DENSITY_MAX])
    if dice.random() < 0.2:
        return [dice.choice([0, DENSITY_MAX])] * count(grid)
    return [dice.randint(0, most) for _ in range(count(grid))]


def rays(dice: Random, grid: Grid, most: int) -> list[Ray]:
    """Rays of all sorts, some of them turned round or cut in two after they were told whole."""
    found = [scenes.ray(dice, grid) for _ in range(dice.randint(0, most))]
    if dice.random() < 0.3:
        p, m, q = scenes.pieces(dice, grid)
        found += [Ray(p, q), Ray(q, p), Ray(p, m), Ray(m, q)]
    return found


def faces(dice: Random) -> bytes:
    """Rays that stand still in far faces."""
    grid = scenes.grid(dice, dice.choice([1, 2, 3, 5, 8]))
    return joined(lines(grid, fill(dice, grid), [scenes.ray(dice, grid, scenes.far_faces(dice)) for _ in range(10)]))


def plain(dice: Random) -> Lines:
    grid = scenes.grid(dice, dice.choice([1, 2, 3, 5, 8]))
    return lines(grid, fill(dice, grid), rays(dice, grid, 6))


# ---- a line damaged


def fields_damaged(dice: Random, text: bytes) -> bytes:
    """A field too few, too many, empty, or another numeral."""
    fields = text.split(b"\t")
    at = dice.randrange(1, len(fields)) if len(fields) > 1 else 0
    way = dice.randrange(5)
    if way == 0:
        del fields[at]
    elif way == 1:
        fields.insert(at, dice.choice([b"", b"1", b"x"]))
    else:
        fields[at] = dice.choice(NUMERALS)
    return b"\t".join(fields)


def word_damaged(dice: Random, text: bytes) -> bytes:
    _, *fields = text.split(b"\t")
    return b"\t".join([dice.choice(WORDS), *fields])


def edges_damaged(dice: Random, text: bytes) -> bytes:
    """Blanks in front, behind or in place of a tab; CR; a stray byte."""
    stray = dice.choice([b"\t", b" ", b"\r", b"\x00", b"\x80", b"\xff"])
    way = dice.randrange(4)
    if way == 0:
        return stray + text
    if way == 1:
        return text + stray
    if way == 2:
        return text.replace(b"\t", dice.choice([b" ", b"\t\t", b"\t "]), 1)
    at = dice.randint(0, len(text))
    return text[:at] + stray + text[at:]


def one_line(dice: Random) -> bytes:
    of = plain(dice)
    at = dice.choice([0, dice.randrange(len(of)), len(of) - 1])
    of[at] = dice.choice([fields_damaged, fields_damaged, word_damaged, edges_damaged])(dice, of[at])
    return joined(of)


# ---- the lines' order damaged, and the bytes


def order(dice: Random) -> bytes:
    """A line left out, twice, moved, or empty; no lines at all; the job cut off after a line."""
    of = plain(dice)
    at, to = dice.randrange(len(of)), dice.randrange(len(of))
    way = dice.randrange(6)
    if way == 0:
        del of[at]
    elif way == 1:
        of.insert(to, of[at])
    elif way == 2:
        of[at], of[to] = of[to], of[at]
    elif way == 3:
        of.insert(dice.randint(0, len(of)), b"")
    elif way == 4:
        del of[at:]
    else:
        of.insert(dice.randint(0, len(of)), dice.choice([b"END", b"RAY", b"DENS", b"GRID", b"\t", b"\r"]))
    return joined(of)


def some_bytes(dice: Random) -> bytes:
    """Bytes put in, taken out or changed anywhere, line ends too."""
    job = bytearray(joined(plain(dice)))
    for _ in range(dice.choice([1, 1, 1, 2, 5])):
        at = dice.randint(0, len(job))
        took = dice.choice([0, 1, 1, 3])
        job[at : at + took] = dice.choice([b"", b"\n", b"\t", b"\r\n", b"-", b"0", b"\x00", bytes([dice.randrange(256)])])
    return bytes(job)


def long_line(dice: Random) -> bytes:
    """A line about the longest length, where any word may stand, ended or not."""
    of = plain(dice)
    at = dice.randrange(len(of) + 1)
    size = dice.choice([LINE_MAX - 1, LINE_MAX, LINE_MAX, LINE_MAX + 1, LINE_MAX + 1, 2 * LINE_MAX, 70000])
    word = dice.choice([b"RAY\t", b"DENS\t", b"GRID\t", b"X", (of + [b"RAY\t1"])[at] + b"\t"])
    text = (word + size * dice.choice([b"1", b"1\t", b"\t", b"\x00", b"65535\t"]))[:size]
    ends = dice.random() < 0.8
    return joined(of[:at]) + (joined([text, *of[at:]]) if ends else text)


# ---- numbers at their limits


def limits(dice: Random) -> bytes:
    """A grid with a number at a limit or one past it, or with as many voxels as a job may have or just more."""
    x, y, z = Axis(1, 1, 0), Axis(2, 3, -3), Axis(1, 2, 1)
    if dice.random() < 0.4:
        n = dice.choice([(17, 241, 1), (241, 1, 17), (512, 9, 1), (1, 9, 512), (17, 16, 16), (512, 512, 512), (64, 64, 1)])
        x, y, z = (one._replace(n=many, d=1) for one, many in zip((x, y, z), n))
    else:
        edge = dice.choice(
            [Axis(n, 1, 0) for n in (0, COUNT_MAX, COUNT_MAX + 1, 999999)]
            + [Axis(1, d, 0) for d in (0, SPACING_MAX, SPACING_MAX + 1, 999999)]
            + [Axis(1, 1, b) for b in (-COORD_MAX, -COORD_MAX - 1, COORD_MAX - 1, COORD_MAX, COORD_MAX + 1, -999999)]
            + [Axis(8, 4096, -COORD_MAX), Axis(8, 4096, 1 - COORD_MAX), Axis(0, 0, 99999), Axis(513, 0, 0), Axis(1, 0, 99999)]
        )
        x, y, z = dice.choice([(edge, y, z), (x, edge, z), (x, y, edge)])
    grid = (x, y, z)
    if grid_code(grid) or count(grid) > JOB_VOXELS_MAX:
        return joined([head(grid), b"DENS\t1"])
    return joined(lines(grid, fill(dice, grid), rays(dice, grid, 3)))


def refused_rays(dice: Random) -> bytes:
    """Ends beyond the limits, at them, or equal, between rays that are answered."""
    grid = scenes.grid(dice, 3)
    told = rays(dice, grid, 4)
    for _ in range(dice.randint(1, 4)):
        p = [dice.choice([0, COORD_MAX, -COORD_MAX, COORD_MAX + 1, -COORD_MAX - 1, 999999, -999999]) for _ in range(3)]
        q = dice.choice([p, [0, 0, 0], [COORD_MAX, -COORD_MAX, 5], [5, 5, -COORD_MAX - 1]])
        told.insert(dice.randint(0, len(told)), Ray((p[0], p[1], p[2]), (q[0], q[1], q[2])))
    return joined(lines(grid, fill(dice, grid), told))


# ---- whole families


def every_end() -> Iterator[bytes]:
    """One job, ended after each of its bytes."""
    grid = (Axis(3, 10, 0), Axis(2, 10, 0), Axis(1, 10, -5))
    job = joined(lines(grid, [1, 2, 3, 4, 5, 65535], [Ray((0, 0, 5), (30, 20, 5)), Ray((-4, 1, 1), (9, 9, 4))]))
    for size in range(len(job) + 1):
        yield job[:size]


def large(dice: Random) -> bytes:
    """As many voxels as a job may have and thousands of lines, so that lines lie across every read."""
    n = dice.choice([(16, 16, 16), (512, 8, 1), (1, 8, 512), (8, 512, 1), (64, 1, 64), (2, 4, 512)])
    grid = (Axis(n[0], 3, -20), Axis(n[1], 2, 5), Axis(n[2], 5, -100))
    some = [scenes.ray(dice, grid) for _ in range(40)] + [Ray((0, 0, 0), (0, 0, 0)), Ray((COORD_MAX + 1, 0, 0), (0, 0, 0))]
    of = lines(grid, fill(dice, grid), [dice.choice(some) for _ in range(5000)])
    if dice.random() < 0.5:
        of[-1] = fields_damaged(dice, of[-1])
    return joined(of)
