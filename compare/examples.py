#!/usr/bin/env python3
"""Runs the examples as the README does, and holds what they print to their files and to the independent program."""
from __future__ import annotations

import subprocess

import machine
import oracle
from tally import Tally

EXAMPLES = machine.ROOT / "examples"


def jobs(tally: Tally) -> None:
    """By name, and on standard input."""
    for job in sorted(EXAMPLES.glob("*.job")):
        stated = job.with_suffix(".out").read_bytes()
        by_name = subprocess.run([machine.ROOT / "trace", job], stdout=subprocess.PIPE)
        with job.open("rb") as text:
            by_input = subprocess.run([machine.ROOT / "trace"], stdin=text, stdout=subprocess.PIPE)
        tally.check(oracle.run(job.read_bytes()) == stated, f"{job.name}: its .out is the independent program's")
        tally.check((by_name.stdout, by_name.returncode) == (stated, 0), f"./trace {job.name}")
        tally.check((by_input.stdout, by_input.returncode) == (stated, 0), f"./trace < {job.name}")


def wall(tally: Tally) -> None:
    """The C example, built over the archive by the commands in its head."""
    program = machine.room() / "wall"
    archive = machine.TARGET / "staticlib" / "libilvoresta.a"
    built = subprocess.run([machine.X86, "cc", program, EXAMPLES / "wall.c", archive])
    if tally.check(built.returncode == 0, "wall.c is built"):
        ended = subprocess.run(machine.words(program), stdout=subprocess.PIPE)
        tally.check((ended.stdout, ended.returncode) == ((EXAMPLES / "wall.out").read_bytes(), 0), "what wall.c prints")


def main() -> None:
    tally = Tally()
    jobs(tally)
    wall(tally)
    print("examples: three text jobs and the C example")
    tally.close()


if __name__ == "__main__":
    main()
