#!/usr/bin/env python3
"""Holds include/ilvoresta.h to the constants of the proved code, to the rules, and to C++."""
from __future__ import annotations

import re
import shutil
import subprocess

import machine
import oracle
from tally import Tally

HEADER = machine.ROOT / "include" / "ilvoresta.h"

# the limits (RULES 1), the order of a trace's answer (5), the codes (6), and the lists of the C entry points (9)
STATED = {
    "COUNT_MAX": oracle.COUNT_MAX,
    "SPACING_MAX": oracle.SPACING_MAX,
    "COORD_MAX": oracle.COORD_MAX,
    "OK": 0,
    "BAD_N": 1,
    "BAD_D": 2,
    "BAD_PLANE": 3,
    "BAD_DENSITIES": 4,
    "BAD_COORD": 5,
    "SAME_ENDS": 6,
    "UNLIKE_LISTS": 7,
    "SHORT_LISTS": 8,
    "BAD_ANSWER": 17,
    "ANSWER_COUNT": oracle.ANSWER_PLACES,
    "ENTRIES": 0,
    "CROSSED": 1,
    "SPAN": 2,
    "D": 3,
    "SQUARED": 4,
    "SUM": 5,
    "PLACE_COUNT": oracle.PLACE_PLACES,
    "ENTER": 0,
    "LEAVE": 1,
}


def limits() -> dict[str, int]:
    """What the proved code has for limits, told by the code itself."""
    program = machine.room() / "limits"
    archive = machine.TARGET / "staticlib" / "liboutside.a"
    subprocess.run([machine.X86, "cc", program, machine.HERE / "limits.c", archive], check=True)
    told = subprocess.run(machine.words(program), stdout=subprocess.PIPE, check=True, text=True).stdout
    return {name: int(value) for name, value in map(str.split, told.splitlines())}


def main() -> None:
    tally = Tally()
    macros = {name: int(value) for name, value in re.findall(r"^#define ILVORESTA_(\w+) (\d+)\b", HEADER.read_text(), re.M)}
    constants = limits()
    for name, value in STATED.items():
        tally.check(macros.get(name) == value, f"ILVORESTA_{name} is {macros.get(name)} in the header, {value} by the rules")
    tally.check(macros.keys() == STATED.keys(), f"macros beyond or short of those stated: {macros.keys() ^ STATED.keys()}")
    tally.check(len(constants) == 3, f"the proved code has three limits, and these were told: {constants}")
    for name, value in constants.items():
        tally.check(macros.get(name) == value, f"Axis::{name} is {value} in the proved code, {macros.get(name)} in the header")
    plus = shutil.which("c++")
    if plus:
        words = [plus, "-std=c++11", "-Wall", "-Wextra", "-Wpedantic", "-Werror", "-fsyntax-only", "-x", "c++", str(HEADER)]
        tally.check(subprocess.run(words).returncode == 0, "the header is C++")
    else:
        print("header: no C++ compiler here, so it was not tried as C++")
    print("header: limits, codes and places of the answers")
    tally.close()


if __name__ == "__main__":
    main()
