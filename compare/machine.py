"""Where the built programs are, and how this machine runs them (see machine/x86)."""
from __future__ import annotations

import argparse
import os
import shlex
import subprocess
import sys
from pathlib import Path
from typing import Optional

HERE = Path(__file__).resolve().parent
ROOT = HERE.parent
TARGET = ROOT / "target"
PROGRAM = ROOT / "crates" / "trace" / "out" / "trace"  # where rt builds it
X86 = ROOT / "machine" / "x86"


def words(program: Path) -> list[str]:
    """The command that runs an x86-64 program here."""
    if not program.exists():
        raise SystemExit(f"{program} is not there: build it first")
    front = subprocess.run([X86, "words"], check=True, capture_output=True, text=True).stdout
    return front.splitlines() + [str(program)]


def room() -> Path:
    """The folder for what the comparisons build and for jobs that failed."""
    found = TARGET / "compare"
    found.mkdir(parents=True, exist_ok=True)
    return found


def asked(about: Optional[str], **paths: Path) -> argparse.Namespace:
    """The words of a comparison's command: the seed, and where what it runs is to be found; and `again`, which repeats it."""
    words = argparse.ArgumentParser(description=(about or "").split("\n")[0])
    words.add_argument("--seed", type=int, default=1)
    for name, path in paths.items():
        words.add_argument(f"--{name}", type=Path, default=path)
    found = words.parse_args()
    other = {name: getattr(found, name) for name, path in paths.items() if getattr(found, name) != path}
    given = [word for name, path in other.items() for word in (f"--{name}", str(path))]
    program = Path(sys.argv[0]).resolve().relative_to(ROOT)
    kit = ["X86=kit"] if os.environ.get("X86") == "kit" else []
    found.again = shlex.join([*kit, "python3", str(program), "--seed", str(found.seed), *given])
    return found
