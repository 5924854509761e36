#!/usr/bin/env python3
"""Runs a command, such as `make prove`, and says behind it how many processor minutes the prover took for each crate, with those of its
tests and of the edits that were tried, and how long all took. By looking at the processes once a second, so what a short one takes in
its last second is missing.

    tools/minutes.py COMMAND..
"""
from __future__ import annotations

import os
import resource
import subprocess
import sys
import time
from collections import defaultdict
from pathlib import Path

TICKS = os.sysconf("SC_CLK_TCK")


def seen() -> dict[tuple[int, str], tuple[str, float]]:
    """The prover's processes as they are now: for each, by its number and start, whose crate it proves, and what it took so far."""
    found = {}
    for folder in Path("/proc").glob("[0-9]*"):
        try:
            words = (folder / "cmdline").read_bytes().split(b"\0")
            # Behind the name, which may have blanks: utime and stime are the 12th and 13th, and the start is the 20th.
            fields = (folder / "stat").read_text().rpartition(")")[2].split()
            path = os.readlink(folder / "cwd")
        except OSError:
            continue
        if not words[0].endswith(b"/rattle") or b"--crate-name" not in words:
            continue
        crate = words[words.index(b"--crate-name") + 1].decode()
        kind = "edits" if "/rt-edit-" in path or "/lane" in path else "tests" if b"--test" in words else "proof"
        found[int(folder.name), fields[19]] = f"{crate} {kind}", (int(fields[11]) + int(fields[12])) / TICKS
    return found


def main(words: list[str]) -> int:
    if not words:
        print(__doc__, file=sys.stderr)
        return 2
    began, taken = time.monotonic(), {}
    running = subprocess.Popen(words)
    while running.poll() is None:
        taken.update(seen())
        time.sleep(1)
    sums: dict[str, dict[str, float]] = defaultdict(lambda: defaultdict(float))
    for what, seconds in taken.values():
        crate, kind = what.split()
        sums[crate][kind] += seconds / 60
    for crate, kinds in sorted(sums.items(), key=lambda it: -sum(it[1].values())):
        parts = ", ".join(f"{kind} {minutes:.1f}" for kind, minutes in kinds.items())
        print(f"{crate}: {sum(kinds.values()):.1f} processor minutes ({parts})")
    children = resource.getrusage(resource.RUSAGE_CHILDREN)
    print(f"all: {(children.ru_utime + children.ru_stime) / 60:.1f} processor minutes, {(time.monotonic() - began) / 60:.1f} by the clock")
    return running.returncode


if __name__ == "__main__":
    sys.exit(main(sys.argv[1:]))
