#!/usr/bin/env python3
"""Makes the calls of the rows of the crate `cs_calls` (its file `stdin`), and names each whose answer isn't the one that `stdout` has.
The last line is `N passed, M failed`.

    tools/calls.py            from the sources, without the proofs, by `rt try`
    tools/calls.py PROGRAM    by this program, which was built before
"""
from __future__ import annotations

import subprocess
import sys
from itertools import zip_longest
from pathlib import Path

CRATE = Path(__file__).resolve().parent.parent / "crates/cs_calls"


def lines(text: bytes) -> list[str]:
    return text.decode(errors="backslashreplace").removesuffix("\n").split("\n")


def main(words: list[str]) -> int:
    program = [Path(words[0]).resolve()] if words else ["rt", "try"]
    with open(CRATE / "stdin", "rb") as given:
        ran = subprocess.run(program, cwd=CRATE, stdin=given, stdout=subprocess.PIPE, stderr=subprocess.PIPE)
    if ran.returncode:
        sys.stderr.buffer.write(ran.stderr)
    passed = failed = 0
    told = (lines((CRATE / "stdin").read_bytes()), lines((CRATE / "stdout").read_bytes()), lines(ran.stdout))
    for number, (row, wanted, printed) in enumerate(zip_longest(*told), 1):
        # A line that is wanted as it stands is no row; one that isn't its row with an answer behind it, belongs to no row of `stdin`.
        fits = row is not None and wanted is not None and (wanted == row or wanted.startswith(f"{row} => "))
        if fits and printed == wanted:
            passed += wanted != row
            continue
        failed += 1
        print(f"line {number}: {row}\n  wanted  {wanted}\n  printed {printed}")
    failed += bool(ran.returncode)
    print(f"{passed} passed, {failed} failed")
    return 1 if failed or not passed else 0


if __name__ == "__main__":
    sys.exit(main(sys.argv[1:]))
