#!/usr/bin/env python3
"""Lists where the seconds of a crate's check went, by the times of the files that the check kept in `out/incremental`.

    tools/costs.py [--most N] CRATE..        the N dearest of each crate, 12 where no number is given; of all crates that kept something where none is named

A row is a function, or a file of definitions or lemmas, with its seconds and those of its parts: `Lts` is the machine that is made of the function's code,
`Proof` its proof with what that rests on, `Tie` what ties both. The seconds are by the clock, from one file to the next, so they are right where the
check had one job (`rt check --jobs 1`) and the machine nothing else to do, and else good for big differences alone. A check over kept work keeps only
what changed: remove `out/incremental` for a whole picture.
"""
from __future__ import annotations

import argparse
import re
import sys
from collections import defaultdict
from pathlib import Path

TOP = Path(__file__).resolve().parent.parent
# The name of a kept file: the crate, one of its two libraries, the function or the file, and the part.
KEPT = re.compile(r"Rattle-\w+?[-.](?:(?:proofs|specs)\.)?(.+?)\.(\w[^.]*)(?:\.decls)?\.oantt")
# What is kept after a longer pause is of another check.
PAUSE = 600
LEAST = 1.0


def seconds(crate: str) -> dict[str, dict[str, float]]:
    """The seconds of each function or file of a crate, by its parts."""
    kept = sorted((it.stat().st_mtime, it.name) for it in (TOP / "crates" / crate / "out/incremental").rglob("*.oantt"))
    found: dict[str, dict[str, float]] = defaultdict(lambda: defaultdict(float))
    for (before, _name), (time, name) in zip(kept, kept[1:]):
        at = KEPT.fullmatch(name)
        if at and time - before < PAUSE:
            found[at[1]][at[2]] += time - before
    return found


def report(crate: str, most: int) -> None:
    found = seconds(crate)
    print(f"{crate}: {sum(sum(parts.values()) for parts in found.values()):.0f} s")
    dearest = sorted(found.items(), key=lambda it: -sum(it[1].values()))
    for what, parts in dearest[:most]:
        taken = sum(parts.values())
        if taken < LEAST:
            break
        shown = ", ".join(f"{part} {some:.1f}" for part, some in sorted(parts.items(), key=lambda it: -it[1]) if some >= LEAST / 2)
        print(f"{taken:8.1f}  {what}  ({shown})")


def main(words: argparse.Namespace) -> int:
    for crate in words.crates or sorted(it.parent.parent.name for it in TOP.glob("crates/*/out/incremental")):
        report(crate, words.most)
    return 0


if __name__ == "__main__":
    parser = argparse.ArgumentParser(description=__doc__, formatter_class=argparse.RawDescriptionHelpFormatter)
    parser.add_argument("--most", type=int, default=12)
    parser.add_argument("crates", nargs="*")
    sys.exit(main(parser.parse_args()))
