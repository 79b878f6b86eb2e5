#!/usr/bin/env python3
"""Holds the program `trace` to the independent program, byte for byte, on whole and damaged jobs.

    python3 compare/jobs.py [--seed SEED] [--program PATH]
"""
from __future__ import annotations

import os
import subprocess
import tempfile
from concurrent.futures import ThreadPoolExecutor
from random import Random
from typing import Iterator, NamedTuple

import damage
import facing
import machine
import oracle
from oracle import Axis, Ray
from tally import Tally

LEAST = 20  # times that each answer is to be met
FACED = 60  # times that each sort of ray made to lie in far faces is to be met
LONGEST = 60  # seconds that one job may take
THREADS = 2

ANSWERS = [f"BAD {code}" for code in (20, 21, 22, 23, 24, 1, 2, 3, 25)] + [
    "BAD 22, input ended",
    "RAY 5",
    "RAY 6",
    "RAY 0, hit",
    "RAY 0, miss",
    "END",
]


class Case(NamedTuple):
    kind: str
    job: bytes
    feed: str = "pipe"  # or drip: a few bytes a time; or file


class Ended(NamedTuple):
    wrote: bytes
    said: bytes
    status: int


def cases(dice: Random) -> Iterator[Case]:
    yield Case("empty", b"")
    for job in damage.every_end():
        yield Case("every_end", job)
    for make, times in {
        damage.one_line: 900,
        damage.order: 400,
        damage.some_bytes: 400,
        damage.long_line: 200,
        damage.limits: 300,
        damage.refused_rays: 100,
        damage.faces: 100,
    }.items():
        for _ in range(times):
            yield Case(make.__name__, make(dice))
    for feed, times in {"pipe": 400, "file": 50, "drip": 50}.items():
        for _ in range(times):
            yield Case("plain", damage.joined(damage.plain(dice)), feed)
    for feed in ("pipe", "file") * 4:
        yield Case("large", damage.large(dice), feed)


# ---- running


def dripped(command: list[str], job: bytes) -> Ended:
    """Few bytes at a time, so that a read seldom ends where a line does."""
    with subprocess.Popen(command, stdin=subprocess.PIPE, stdout=subprocess.PIPE, stderr=subprocess.PIPE) as program:
        assert program.stdin is not None
        try:
            for at in range(0, len(job), 7):
                os.write(program.stdin.fileno(), job[at : at + 7])
        except BrokenPipeError:
            pass  # it stopped at a refused line
        wrote, said = program.communicate(timeout=LONGEST)
        return Ended(wrote, said, program.returncode)


def run(command: list[str], case: Case) -> Ended:
    if case.feed == "drip":
        return dripped(command, case.job)
    if case.feed == "pipe":
        ended = subprocess.run(command, input=case.job, capture_output=True, timeout=LONGEST)
    else:
        with tempfile.TemporaryFile() as file:
            file.write(case.job)
            file.seek(0)
            ended = subprocess.run(command, stdin=file, capture_output=True, timeout=LONGEST)
    return Ended(ended.stdout, ended.stderr, ended.returncode)


# ---- comparing


def numbers(text: bytes) -> list[int]:
    return [int(field) for field in text.split(b"\t")[1:]]


def in_faces(job: bytes) -> Iterator[str]:
    """The sorts of far faces that the rays of a whole job stand still in."""
    head, *rest = job.splitlines()
    n = numbers(head)
    x, y, z = (Axis(n[a], n[a + 3], n[a + 6]) for a in range(3))
    for text in rest:
        if text.startswith(b"RAY"):
            px, py, pz, qx, qy, qz = numbers(text)
            yield from facing.told("RAY", (x, y, z), Ray((px, py, pz), (qx, qy, qz)))


def met(job: bytes, lines: list[bytes]) -> Iterator[str]:
    """What answers an output has, by the names of the table."""
    for text in lines:
        word, *fields = text.decode().split()
        if word == "RAY":
            yield f"RAY {fields[0]}" + ({"0": ", miss"}.get(fields[1], ", hit") if fields[0] == "0" else "")
        elif word == "BAD":
            beyond = int(fields[0]) > job.count(b"\n") and job[-1:] in (b"", b"\n")
            yield f"BAD {fields[1]}" + (", input ended" if beyond else "")
        elif word == "END":
            yield word


def differ(number: int, case: Case, stated: bytes, found: Ended) -> str:
    """Keeps a job that failed, and says where the outputs part."""
    kept = machine.room() / f"{number}.job"
    kept.write_bytes(case.job)
    pairs = zip(stated.split(b"\n") + [b"(nothing)"], found.wrote.split(b"\n") + [b"(nothing)"])
    at, (one, other) = next((i, pair) for i, pair in enumerate(pairs, 1) if pair[0] != pair[1] or pair[0] == b"(nothing)")
    told = f"output line {at}: {one[:80]!r} stated, {other[:80]!r} written, status {found.status}, said {found.said[:80]!r}"
    return f"{case.kind} by {case.feed}, kept in {kept.relative_to(machine.ROOT)}: {told}"


def main() -> None:
    asked = machine.asked(__doc__, program=machine.PROGRAM)
    command = machine.words(asked.program)
    tally = Tally()
    listed = list(cases(Random(asked.seed)))
    print(f"jobs: seed {asked.seed}, {len(listed)} jobs", flush=True)
    with ThreadPoolExecutor(THREADS) as pool:
        for number, (case, found) in enumerate(zip(listed, pool.map(lambda case: run(command, case), listed))):
            stated = oracle.run(case.job)
            tally.codes.update(met(case.job, stated.splitlines()))
            if case.kind == "faces":
                tally.codes.update(in_faces(case.job))
            good = found == Ended(stated, b"", 0)
            tally.check(good, "" if good else differ(number, case, stated, found))
    tally.table(ANSWERS, LEAST)
    tally.table(facing.names("RAY"), FACED)
    tally.close()


if __name__ == "__main__":
    main()
