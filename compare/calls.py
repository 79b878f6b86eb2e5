#!/usr/bin/env python3
"""Holds trace, place, append and points to the independent program, with every byte of memory around them.

    python3 compare/calls.py [--seed SEED] [--archive PATH] [--outside PATH]

compare/driver.c makes the calls: trace and place by the archive that C callers link, append and points, which
C has no entry for, by the doors of crates/outside. It hands back all memory that it lent. What that memory
must hold is worked out here, byte for byte: the answer, and wherever nothing may be written, what was there
before.
"""
from __future__ import annotations

import shutil
import subprocess
from concurrent.futures import ProcessPoolExecutor
from pathlib import Path
from random import Random
from typing import NamedTuple

import asking
import chaining
import facing
import families
import machine
import scenes
from differing import differences
from lending import Call
from stating import stated
from tally import Tally

LEAST = 20  # times that each answer is to be met
MARGIN = 64  # bytes on either side of a list
PROCESSES = 2
CUT = "cut and turned"
FACED = 60  # times that each sort of ray made to lie in far faces is to be met; of two faces luck gives a dozen

ANSWERS = [f"{kind} {told}" for kind, codes in asking.CODES.items() for told in ["hit", "miss", *codes]] + [
    *(f"append {told}, partly filled" for told in ("hit", "miss", 7, 8)),
    *(f"append {told}" for told in ("7, overfull", "8, overfull", "8, overfull on a miss")),
]
FACES = [name for kind in [*asking.CODES, CUT] for name in facing.names(kind)]
SHORT = [name for kind in ("trace 8", "append 8") for name in facing.names(kind)]  # in far faces, with too few places

RUNS = {"large": 2, "families": 1, "faced families": 1, "bench": 1, "random": 8, "appends": 2, "chains": 2, "drawing": 2, "faces": 2}


class Run(NamedTuple):
    """Calls of one sort, made by the driver one after the other, with dice of their own."""

    driver: Path
    sort: str
    number: int
    seed: int
    again: str  # the command that repeats it

    def dice(self) -> Random:
        return Random(f"{self.seed} {self.sort} {self.number}")

    def told(self, what: str, at: int, call: Call) -> str:
        return f"{what}\n  call {at} of {self.sort} {self.number}, seed {self.seed}: {call}\n  again: {self.again}"


def compared(run: Run, calls: list[Call], margin: int = MARGIN, front: list[str] | None = None) -> tuple[Tally, list[bytes]]:
    """Makes the calls, and holds what came back of each to what is stated."""
    command = (front or []) + machine.words(run.driver) + [str(margin)]
    ended = subprocess.run(command, input=b"".join(call.request() for call in calls), capture_output=True, timeout=600)
    memory = ended.stdout
    tally, found, start = Tally(), [], 0
    if ended.returncode:
        said = ended.stderr[-2000:].decode(errors="replace")
        tally.check(False, f"{run.sort} {run.number}: the driver's status is {ended.returncode}: {said}\n  again: {run.again}")
        return tally, found
    for at, call in enumerate(calls):
        wanted = stated(call, margin)
        whole = wanted.memory()
        came = memory[start : start + len(whole)]
        start += len(whole)
        found.append(came)
        tally.codes[wanted.told] += 1
        if run.sort == "faces":
            tally.codes.update(facing.told(f"{call.kind} {wanted.code}" if wanted.code else call.kind, call.grid, call.ray))
        if came == whole:
            tally.check(True, "")
        else:
            tally.check(False, run.told(f"{wanted.told}: " + "; ".join(differences(wanted, came, margin)), at, call))
    tally.check(start == len(memory), f"the driver handed back as much as was lent\n  again: {run.again}")
    return tally, found


def turned_and_cut(run: Run, many: int) -> Tally:
    dice, faced = run.dice(), run.sort == "faced families"
    told = [families.family(dice, scenes.far_faces(dice) if faced else ()) for _ in range(many)]
    calls = [call for four, _ in told for call in four]
    tally, memory = compared(run, calls)
    if tally.failed == 0:
        read = [families.listed(call, block, MARGIN) for call, block in zip(calls, memory)]
        for at, (_, cut) in enumerate(told):
            whole, turned, first, second = read[4 * at : 4 * at + 4]
            call = calls[4 * at]
            if faced:
                tally.codes.update(facing.told(CUT, call.grid, call.ray))
            good = families.agree(whole, turned, first, second, cut)
            tally.check(good, run.told(f"turned or cut at {cut}", 4 * at, call))
    return tally


def made(run: Run) -> Tally:
    dice = run.dice()
    if run.sort.endswith("families"):
        return turned_and_cut(run, 800)
    if run.sort == "valgrind":
        quiet = ["valgrind", "-q", "--error-exitcode=9"]
        return compared(run, list(asking.random_calls(dice, 400, list(asking.CODES))), margin=0, front=quiet)[0]
    calls = {
        "bench": lambda: asking.bench_calls(dice),
        "large": lambda: asking.large_calls(dice, 12),
        "random": lambda: asking.random_calls(dice, 2500, ["trace"] * 7 + ["place"] * 3),
        "appends": lambda: asking.random_calls(dice, 2500, ["append"]),
        "chains": lambda: chaining.chains(dice, 500),
        "drawing": lambda: asking.drawing_calls(dice, 2500),
        "faces": lambda: asking.face_calls(dice, 2500),
    }
    return compared(run, list(calls[run.sort]()))[0]


def main() -> None:
    built = machine.TARGET / "staticlib"
    asked = machine.asked(__doc__, archive=built / "libilvoresta.a", outside=built / "liboutside.a")
    driver = machine.room() / "driver"
    subprocess.run([machine.X86, "cc", driver, machine.HERE / "driver.c", asked.archive, asked.outside], check=True)
    runs = [(sort, number) for sort, many in RUNS.items() for number in range(many)]
    if shutil.which("valgrind") and machine.words(driver) == [str(driver)]:
        runs.insert(0, ("valgrind", 0))
    else:
        print("calls: no run under valgrind: it is not here, or the driver is not this machine's own program")
    tally = Tally()
    with ProcessPoolExecutor(PROCESSES) as pool:
        for one in [pool.submit(made, Run(driver, sort, number, asked.seed, asked.again)) for sort, number in runs]:
            tally.add(one.result())
    print(f"calls: seed {asked.seed}, {sum(tally.codes[told] for told in ANSWERS)} calls")
    tally.table(ANSWERS, LEAST)
    tally.table(FACES, FACED)
    tally.table(SHORT, LEAST)
    tally.close()


if __name__ == "__main__":
    main()
