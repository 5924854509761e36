#!/usr/bin/env python3
"""Runs all checks of one kind side by side, and prints what each prints when it has ended. The last line sums up those of all: `N
passed, M failed`.

    tools/checks.py test PROGRAM            those that need no proof: what can be seen from the files, the rows of `cs_calls` and the tests of
                                            `cs_rows` unproved, and PROGRAM, which is built from its sources without the proofs first
    tools/checks.py prove PROGRAM           every proof from nothing by `rt ci` (tools/kit.py); the edits that edits/GATE names, as soon as it has proved
                                            what they stand on; and PROGRAM, as soon as that is proved and built, by the same checks
    tools/checks.py program PROGRAM         the checks of a program alone

JOBS=N: at most so many at once; without it as many as there are processors.
"""
from __future__ import annotations

import os
import re
import subprocess
import sys
import threading
import time
from collections.abc import Callable
from concurrent.futures import Future, ThreadPoolExecutor
from dataclasses import dataclass, field
from pathlib import Path

import edits
import kit

TOP = Path(__file__).resolve().parent.parent
COUNTED = re.compile(r"(\d+) passed[,;] (\d+) failed")
# How `rt ci` says that a crate is proved.
PROVED = re.compile(r"rt: (\w+) (?:proved|is kept: .*)")
# What can be seen from the files in a second.
OF_FILES = [
    ["tools/edits.py", "--fit"],
    ["tools/recursions.sh"],
    ["tools/definitions.sh"],
    ["tools/contracts.sh"],
    ["tools/places.py"],
    ["tools/promises.py"],
    ["tools/widened.py"],
    ["tools/lengths.py"],
]
# What is asked of a program, the longest first.
OF_PROGRAMS = [
    "tools/cases.sh",
    "tools/commands.sh",
    "tools/examples.sh",
    "tools/prefixes.py",
    "tools/laid_out.py",
    "tools/natural.py",
    "tools/pages.sh",
    "tools/widened.py --random 1000 --program",
    "tools/lengths.py --program",
    "tools/meant.py",
    "tools/explained.py",
]


def lanes() -> int:
    return int(os.environ.get("JOBS") or len(os.sched_getaffinity(0)))


@dataclass
class Checks:
    """What has been counted so far, by commands that run side by side."""

    passed: int = 0
    failed: int = 0
    lock: threading.Lock = field(default_factory=threading.Lock)

    def count(self, words: list[str], said: str, status: int, began: float) -> bool:
        """Counts what a command says in its last line that counts, or else the command itself. Prints what it said; whether all is well."""
        found = COUNTED.findall(said)
        passed, failed = map(int, found[-1]) if found else (int(not status), 0)
        failed += bool(status and not failed)
        with self.lock:
            self.passed, self.failed = self.passed + passed, self.failed + failed
            print(f"== {' '.join(words)} ({time.monotonic() - began:.0f} s)\n{said}", end="", flush=True)
        return not failed

    def run(self, words: list[str], folder: str = ".", **environment: str) -> bool:
        """Runs a command to its end, then counts it; whether all is well."""
        began, streams = time.monotonic(), {"stdin": subprocess.DEVNULL, "stdout": subprocess.PIPE, "stderr": subprocess.STDOUT}
        ran = subprocess.run(words, cwd=TOP / folder, env={**os.environ, **environment}, **streams, text=True, errors="replace")
        return self.count([*words, *([f"in {folder}"] if folder != "." else [])], ran.stdout, ran.returncode, began)

    def follow(self, words: list[str], seen: Callable[[str], None], **environment: str) -> bool:
        """The same, where each line is printed at once, and handed on."""
        began, said = time.monotonic(), ""
        streams = {"stdin": subprocess.DEVNULL, "stdout": subprocess.PIPE, "stderr": subprocess.STDOUT}
        with subprocess.Popen(words, cwd=TOP, env={**os.environ, **environment}, **streams, text=True, errors="replace") as running:
            for line in running.stdout:
                print(line, end="", flush=True)
                said = line
                seen(line)
        return self.count(words, said, running.returncode, began)

    def sum(self) -> int:
        """Prints the sum of all; the status."""
        print(f"{self.passed} passed, {self.failed} failed")
        return 1 if self.failed or not self.passed else 0


def of_program(checks: Checks, pool: ThreadPoolExecutor, program: str, **environment: str) -> list[Future]:
    return [pool.submit(checks.run, [*it.split(" "), program], **environment) for it in OF_PROGRAMS]


def test(checks: Checks, pool: ThreadPoolExecutor, program: str) -> list[Future]:
    built = pool.submit(checks.run, ["tools/unproved.py", program], RT_SECONDS="600")
    called = pool.submit(checks.run, ["tools/calls.py"], RT_SECONDS="600")
    tested = pool.submit(checks.run, ["rt", "try", "--test"], "crates/cs_rows", RT_SECONDS="600")
    seen = [pool.submit(checks.run, it) for it in OF_FILES]
    return [called, tested, *seen, *(of_program(checks, pool, program, PATIENCE="120") if built.result() else [])]


class Behind:
    """What begins once `rt ci` has proved some crates, beside what is still to be proved."""

    def __init__(self, waits: set[str], begin: Callable[[], list[Future]]):
        self.waits, self.begin, self.begun = waits, begin, []

    def seen(self, line: str) -> None:
        """A line of `rt ci`: where it was the last crate that is waited for, that begins."""
        proved = PROVED.fullmatch(line.rstrip("\n"))
        if proved and proved[1] in self.waits:
            self.waits.remove(proved[1])
            if not self.waits:
                self.start()

    def start(self) -> None:
        if not self.begun:
            self.begun = self.begin()


def prove(checks: Checks, pool: ThreadPoolExecutor, program: str) -> list[Future]:
    crates = kit.crates()
    edited = {path.parent.name for path in edits.gate_paths()}
    waits = edited.union(*({it.name for it in crates[name].below()} for name in edited))
    # The edits give way to the proofs, so that they take the processors that these leave.
    words = ["nice", "tools/edits.py", "--gate"]
    tried = Behind(waits, lambda: [pool.submit(checks.run, words, JOBS=str(max(1, lanes() // 2)))])
    shown = Behind({Path(program).name}, lambda: of_program(checks, pool, program, PATIENCE="60"))

    def seen(line: str) -> None:
        tried.seen(line)
        shown.seen(line)

    given = os.environ.get("JOBS")
    if checks.follow(["tools/kit.py", "ci"], seen, **({"RT_JOBS": given} if given else {})):
        # Whatever `rt ci` said of crates on its way, all of them are proved now.
        tried.start()
        shown.start()
    return [*tried.begun, *shown.begun]


def main(words: list[str]) -> int:
    kinds = {"test": test, "prove": prove, "program": of_program}
    if len(words) != 2 or words[0] not in kinds:
        print(__doc__, file=sys.stderr)
        return 2
    checks = Checks()
    with ThreadPoolExecutor(lanes()) as pool:
        for it in kinds[words[0]](checks, pool, words[1]):
            it.result()
    return checks.sum()


if __name__ == "__main__":
    sys.exit(main(sys.argv[1:]))
