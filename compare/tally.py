"""Counts what passed and what failed, and ends a comparison with the line that the gate reads."""
from __future__ import annotations

from collections import Counter
from typing import Iterable, NoReturn


class Tally:
    SHOWN = 20  # failures told in full; the rest are only counted

    def __init__(self) -> None:
        self.passed = 0
        self.failed = 0
        self.codes: Counter[str] = Counter()

    def check(self, good: bool, told: str) -> bool:
        if good:
            self.passed += 1
            return True
        self.failed += 1
        if self.failed <= self.SHOWN:
            print(f"FAILED: {told}")
        return False

    def add(self, other: Tally) -> None:
        self.passed += other.passed
        self.failed += other.failed
        self.codes += other.codes

    def table(self, wanted: Iterable[str], least: int) -> None:
        """Prints how often each code was met, and fails where that is too rarely."""
        for code in wanted:
            print(f"  {code:36}{self.codes[code]:7}")
            self.check(self.codes[code] >= least, f"{code} was met {self.codes[code]} times, and {least} are asked for")

    def close(self) -> NoReturn:
        print(f"{self.passed} passed, {self.failed} failed", flush=True)
        raise SystemExit(0 if self.failed == 0 else 1)
