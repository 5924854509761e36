#!/usr/bin/env python3
"""Proves the libraries that the program stands on, over what earlier checks kept, as many side by side as there are processors and
memory, those with the longest chain of others behind them first. A proof that nothing else runs beside gets more processors.
Prints what each check says when it has ended. JOBS=N: N at once, with a processor each.

    tools/build.py CRATE        the libraries below this crate
"""
from __future__ import annotations

import copy
import os
import sys
import tempfile
import threading

import kit

PRINTING = threading.Lock()


def proved(crate, given: dict, jobs: int) -> bool:
    """Proves and builds a library, unless one below it isn't; whether it is built."""
    if not all(given[it.name, "proof"] for it in crate.below()):
        return False
    crate = copy.copy(crate)
    with tempfile.TemporaryFile("w+", errors="replace") as crate.out:
        os.makedirs(f"{crate.folder}/out", exist_ok=True)
        status = crate.build_rlib(["--jobs", str(jobs)], anew=False)
        crate.out.seek(0)
        with PRINTING:
            print(f"== {crate.name}\n{crate.out.read()}", end="", flush=True)
    return not status


def main(words: list[str]) -> int:
    crates = kit.crates()
    if len(words) != 1 or words[0] not in crates:
        print(__doc__, file=sys.stderr)
        return 2
    if os.environ.get("JOBS"):
        os.environ["RT_JOBS"] = os.environ["JOBS"]
    below, tasks = crates[words[0]].below(), {}
    held = kit.rt().rtlib.lock(below)
    for crate in below:
        waits = [(it.name, "proof") for it in crate.below()]
        tasks[crate.name, "proof"] = (waits, crate.count(rb"\n"), kit.rt().need(crate), lambda given, jobs, it=crate: proved(it, given, jobs))
    given = kit.rt().in_lanes(tasks)
    for it in held:
        os.close(it)
    failed = [name for name, _ in given if not given[name, "proof"]]
    print(f"not built: {' '.join(failed)}" if failed else f"{len(given)} libraries are built")
    return 1 if failed else 0


if __name__ == "__main__":
    sys.exit(main(sys.argv[1:]))
