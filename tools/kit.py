#!/usr/bin/env python3
"""The toolchain's command `rt` as a module: it knows the crates, the words that the prover wants, and how many checks fit side by side.

    tools/kit.py WORD..     the command `rt WORD..`, which plans less memory for a check, and first proves what the others wait for the longest,
                            by the minutes that docs/CONTRIBUTING.md has for each crate
"""
from __future__ import annotations

import functools
import importlib.machinery
import importlib.util
import os
import re
import shutil
import sys
from pathlib import Path

TOP = Path(__file__).resolve().parent.parent
# Of the memory that `rt` plans for a check, what it takes at most: 62 hundredths, as measured over all crates (4.4 GB for `cs_judge`). By
# the whole plan only two of the larger crates are proved side by side in 24 GiB.
SHARE = 0.65
# A row of the table of crates: a crate, what it does, the processor minutes of its proof or of its tests, and its functions.
TAKES = re.compile(r"^\| `(\w+)` \|[^|]*\| ([\d.]+) \| \d+ \|$", re.M)


def by_minutes(tasks: dict) -> dict:
    """Tasks of `rt` with the minutes that a crate takes as the work of its proof, in place of the lines: a line of a crate that is told in
    words takes ten times as long as one of a proof. Where a crate has tests, its row has their minutes. A crate without a row takes one."""
    minutes = {name: float(found) for name, found in TAKES.findall((TOP / "docs/CONTRIBUTING.md").read_text())}
    tested = {name for (name, kind, *_), task in tasks.items() if kind == "tests" and task[1]}

    def work(name: str, kind: str) -> float:
        return minutes.get(name, 1.0) if kind == ("tests" if name in tested else "proof") else 0

    return {key: (waits, work(*key[:2]), *rest) for key, (waits, _lines, *rest) in tasks.items()}


@functools.lru_cache(maxsize=None)
def rt():
    found = shutil.which("rt") or sys.exit("the command rt isn't on the PATH")
    loader = importlib.machinery.SourceFileLoader("rt", os.path.realpath(found))
    made = importlib.util.module_from_spec(importlib.util.spec_from_loader("rt", loader))
    loader.exec_module(made)
    # Its first call sets a signal's handler, which only the main thread may do.
    made.rtlib.guarded()
    planned, side_by_side = made.need, made.in_lanes
    made.need = lambda crate: SHARE * planned(crate)
    made.in_lanes = lambda tasks: side_by_side(by_minutes(tasks))
    return made


def crates() -> dict:
    """The crates of crates.txt by name, lowest first."""
    return {it.name: it for it in rt().rtlib.crates_below(str(TOP))}


if __name__ == "__main__":
    sys.exit(rt().main(sys.argv[1:]))
