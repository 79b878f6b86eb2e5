#!/usr/bin/env python3
"""Holds ./trace to what its head says: the status of every ending, streams that fail, and what it says while it builds."""
from __future__ import annotations

import os
import pty
import re
import select
import shutil
import subprocess
import tempfile
import tty
from pathlib import Path
from typing import Any, NamedTuple

import machine
import oracle
from tally import Tally

TRACE = machine.ROOT / "trace"
BENCH = machine.ROOT / "examples" / "bench.job"
LONGEST = 60  # seconds that one job may take

JOB = BENCH.read_bytes()
ANSWER = oracle.run(JOB)[: -len("END 1\n")]  # to its one ray, which is its last line
RAY = JOB.splitlines(keepends=True)[-1]
LONG = JOB + RAY * 3999  # its answer is longer than what a pipe and the program hold back

UNWRITTEN = b"trace: cannot write to standard output\n"
UNREAD = b"trace: cannot read standard input\n"


class Ended(NamedTuple):
    wrote: bytes
    said: bytes
    status: int


def run(*words: Any, job: bytes | None = None, **streams: Any) -> Ended:
    """The wrapper, or a command that runs it; standard input is `job` where it is not told otherwise."""
    streams.setdefault("stdout", subprocess.PIPE)
    if "stdin" not in streams:
        streams["input"] = job or b""
    ended = subprocess.run(words, stderr=subprocess.PIPE, timeout=LONGEST, **streams)
    return Ended(ended.stdout or b"", ended.stderr, ended.returncode)


# ---- endings


def answered(tally: Tally) -> None:
    """END and BAD are answers both."""
    for told, job, last in (
        ("a whole job", JOB, b"END 1"),
        ("a long one", LONG, b"END 4000"),
        ("a refused line", JOB + b"RAY\t1\n" + RAY, b"BAD 5 23"),
        ("a job cut in the midst of a line", JOB[:-3], b"BAD 4 20"),
        ("no job", b"", b"BAD 1 22"),
    ):
        ended = run(TRACE, job=job)
        good = ended == Ended(oracle.run(job), b"", 0) and ended.wrote.splitlines()[-1] == last
        tally.check(good, f"{told}: {ended.wrote[-80:]!r}, {ended.said!r}, status {ended.status}")


def not_begun(tally: Tally) -> None:
    for told, words in {
        "two jobs": (BENCH, BENCH),
        "a job that is not there": (machine.ROOT / "examples" / "none.job",),
        "a folder": (machine.ROOT,),
    }.items():
        ended = run(TRACE, *words)
        tally.check((ended.wrote, ended.said.count(b"\n"), ended.status) == (b"", 1, 2), f"{told}: {ended}")


# ---- streams that fail


def output_fails(tally: Tally) -> None:
    for size, job in (("short", JOB), ("long", LONG)):
        with open("/dev/full", "wb") as full:
            tally.check(run(TRACE, job=job, stdout=full)[1:] == (UNWRITTEN, 1), f"a {size} job, output full")
    closed = run("sh", "-c", '"$0" "$1" >&-', TRACE, BENCH)
    tally.check(closed == Ended(b"", UNWRITTEN, 1), f"output closed: {closed}")
    for told, restored, expected in (("ended by it", True, (b"", 141)), ("that is ignored", False, (UNWRITTEN, 1))):
        with tempfile.TemporaryFile() as job:
            job.write(LONG)
            job.seek(0)
            pipe = subprocess.PIPE
            with subprocess.Popen([TRACE], stdin=job, stdout=pipe, stderr=pipe, restore_signals=restored) as program:
                assert program.stdout and program.stderr
                program.stdout.readline()
                program.stdout.close()
                found = program.stderr.read(), program.wait(LONGEST)
        tally.check(found == expected, f"its reader gone, SIGPIPE {told}: {found}")


def input_fails(tally: Tally) -> None:
    """What was answered before stands there, and no END."""
    closed = run("sh", "-c", '"$0" <&-', TRACE)
    tally.check(closed == Ended(b"", UNREAD, 1), f"input closed: {closed}")
    folder = os.open("/", os.O_RDONLY)
    at_once = run(TRACE, stdin=folder)
    os.close(folder)
    tally.check(at_once == Ended(b"", UNREAD, 1), f"input that fails at once: {at_once}")
    near, far = pty.openpty()  # to read a terminal whose far side is gone fails, once what it wrote is read
    tty.setraw(far)
    os.write(far, JOB + RAY[:5])
    os.close(far)
    half_way = run(TRACE, stdin=near)
    os.close(near)
    tally.check(half_way == Ended(ANSWER, UNREAD, 1), f"input that fails half-way: {half_way}")


def streams(tally: Tally) -> None:
    """Answers come while the job is still being written."""
    with subprocess.Popen([TRACE], stdin=subprocess.PIPE, stdout=subprocess.PIPE) as program:
        assert program.stdin and program.stdout
        half = len(LONG) // 2  # less than a pipe holds, and its answer more than the program does
        os.write(program.stdin.fileno(), LONG[:half])
        came = select.select([program.stdout], [], [], LONGEST)[0] != []
        rest = program.communicate(LONG[half:], LONGEST)[0]
        tally.check(came and rest == oracle.run(LONG) and program.returncode == 0, f"streamed: {came}, {len(rest)} bytes in all")


# ---- building, in a folder of its own, with an rt that proves nothing

RT = """#!/bin/sh
crate=${PWD##*/}
echo "rt $* in $crate" >>../../said
[ "$crate" != "$REFUSED" ] || { echo "rt: $crate NOT PROVED"; exit 1; }
mkdir -p out
[ "$crate" != trace ] || : >out/trace
"""


class Room:
    def __init__(self, root: Path) -> None:
        self.root = root
        (root / "tools").mkdir()
        (root / "machine").mkdir()
        for name in ("trace", "crates.txt"):
            shutil.copy(machine.ROOT / name, root / name)
        listed = re.findall(r"^(\w+)[^:#\n]*:(.*)$", (root / "crates.txt").read_text(), re.M)
        self.stands = {name: on.split() for name, on in listed}
        for name in self.stands:
            (root / "crates" / name).mkdir(parents=True)
            (root / "crates" / name / "file").touch()
        for tool in ("awk", "dirname", "find", "head", "mkdir", "tail", "touch", "wc"):
            (root / "tools" / tool).symlink_to(shutil.which(tool) or "")
        self.script("machine/x86", '#!/bin/sh\necho "$1"\n')

    def script(self, name: str, text: str) -> None:
        (self.root / name).write_text(text)
        (self.root / name).chmod(0o755)

    def run(self, refused: str = "") -> tuple[list[str], bytes, int]:
        """What the wrapper and rt said, one after the other; what was written; the status."""
        said = self.root / "said"
        said.write_bytes(b"")
        with said.open("ab") as both:
            env = {"PATH": str(self.root / "tools"), "REFUSED": refused}
            ended = subprocess.run([self.root / "trace"], input=b"", stdout=subprocess.PIPE, stderr=both, env=env, timeout=LONGEST)
        return said.read_text().splitlines(), ended.stdout, ended.returncode

    def changed(self, changed: str) -> None:
        """The file of this crate alone is newer than the program; what is built is newer in all of them, which changes nothing."""
        built = (self.root / machine.PROGRAM.relative_to(machine.ROOT)).stat().st_mtime
        for name in self.stands:
            folder = self.root / "crates" / name
            (folder / "out").mkdir(exist_ok=True)
            for path, time in ((folder / "out", 10), (folder / "file", 10 if name == changed else -10), (folder, -10)):
                os.utime(path, (built + time, built + time))


def levels(stands: dict[str, list[str]]) -> list[list[str]]:
    """The crates that the program needs, in the order in which they are come upon; each stands on levels before its own."""
    found: dict[str, int] = {}

    def level(name: str) -> int:
        if name not in found:
            found[name] = 1 + max((level(one) for one in stands[name] if one in stands), default=0)
        return found[name]

    return [[name for name in found if found[name] == one] for one in range(1, level("trace") + 1)]


def transcript(stands: dict[str, list[str]], until: str = "trace") -> list[str]:
    """What is said of a build: each crate before it is proved, by its number."""
    told = ["trace: proving and building the program; the first time takes some minutes"]
    every = sum(levels(stands), [])
    for number, name in enumerate(every, 1):
        told += [f"trace: proving {number} of {len(every)}: {name}", f"rt {'run' if name == 'trace' else 'lib'} in {name}"]
        if name == until:
            break
    return told


def building(tally: Tally, room: Room) -> None:
    said, wrote, status = room.run()
    tally.check((wrote, status) == (b"", 2) and len(said) == 1 and "rt" in said[0], f"no program and no rt: {said}, {status}")
    room.script("tools/rt", RT)
    every = transcript(room.stands)
    unproved = transcript(room.stands, "walk") + ["rt: walk NOT PROVED", "trace: not built; target/trace.log has all that was said"]
    ran = b"run\n", 0
    for told, changed, refused, expected in (
        ("a crate that is not proved", "", "walk", (unproved, b"", 2)),
        ("the first time", "", "", (every, *ran)),
        ("nothing changed", "", "", ([], *ran)),
        ("a crate changed", "job", "", (every, *ran)),
        ("another crate changed", "place", "", ([], *ran)),
        ("a crate changed and not proved", "walk", "walk", (unproved, b"", 2)),
    ):
        if changed:
            room.changed(changed)
        found = room.run(refused)
        tally.check(found == expected, f"{told}: {found}")


def main() -> None:
    tally = Tally()
    for part in (answered, not_begun, output_fails, input_fails, streams):
        part(tally)
    with tempfile.TemporaryDirectory() as root:
        building(tally, Room(Path(root)))
    print("wrapper: endings, streams that fail, and what is said while it builds")
    tally.close()


if __name__ == "__main__":
    main()
