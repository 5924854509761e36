#!/usr/bin/env python3
"""Asks a program about the rows of tools/widening.rows and tools/conditions.rows that it takes, each by itself. A line for each wrong answer,
and a closing count of answers.

    tools/meant.py PROGRAM [FILE]        FILE: other rows of that form

A row is asked five times with `--profile wide`:

- `compare` of its package with the one that it stands for by hand, and the other way round: both are `compatible`.
- `samples` and `samples --invalid`: where the row has a document of that verdict, one is found at least, and all that are found have
  it: by `vet`, by `validate` of the schema that `export` prints, and by that schema as `jsonschema` of Python reads it, where that is
  installed.
- The row's own documents have their verdicts in the same way.

Whether the program answers the rows as the model does is tried by `tools/widened.py`, and further validators, with the other forms of each
schema, by `tools/peers.py`.
"""
from __future__ import annotations

import functools
import json
import sys
import tempfile
from collections.abc import Callable, Iterator
from pathlib import Path

sys.path.insert(0, str(Path(__file__).resolve().parent))
from peers import Package, Refused, judged  # noqa: E402
from prefixes import WIDE  # noqa: E402
from profile_of_cue import parsed  # noqa: E402
from widened import Row, all_rows, has_names, rows  # noqa: E402

ROOT = "#P"
Judges = dict[str, Callable[[str, list[str]], list[str]]]


def found_judges() -> Judges:
    """What else judges documents by the text of a schema, by its name."""
    try:
        from jsonschema import Draft202012Validator
    except ImportError:
        print("not installed: jsonschema with draft 2020-12")
        return {}
    return {"jsonschema": functools.partial(judged, Draft202012Validator)}


def meant_by(row: Row) -> str:
    """The package that a row stands for: the definitions that it says, and the others as they are written."""
    said = parsed("\n".join(row.wanted))
    others = [line for line in row.source.split("\n") if line.partition(":")[0] not in said]
    return "\n".join([*row.wanted, *others])


class Asked:
    """A row, with its package and the one that it stands for in files of a folder."""

    def __init__(self, program: str, room: Path, row: Row, judges: Judges) -> None:
        self.row, self.judges = row, judges
        (room / "given.cue").write_text(f"{row.source}\n", encoding="utf-8")
        (room / "meant.cue").write_text(f"{meant_by(row)}\n", encoding="utf-8")
        self.given, self.meant = (Package(program, room / name, WIDE) for name in ("given.cue", "meant.cue"))

    def questions(self) -> dict[str, Callable[[], Iterator[str]]]:
        """What says how the program's answers are wrong, by what is asked."""
        return {
            "compare with what it stands for": functools.partial(self.compared, self.given, self.meant),
            "compare what it stands for with it": functools.partial(self.compared, self.meant, self.given),
            "samples": functools.partial(self.sampled, "valid"),
            "samples --invalid": functools.partial(self.sampled, "invalid", "--invalid"),
            "its documents": self.written,
        }

    def compared(self, old: Package, new: Package) -> Iterator[str]:
        told = old.run("compare", *WIDE, "--root", ROOT, "--old", str(old.path), "--new", str(new.path))
        if told != ["compatible"]:
            yield " ".join(told)

    def sampled(self, verdict: str, *words: str) -> Iterator[str]:
        docs = self.given.samples(ROOT, *words)
        if not docs and self.documents(verdict):
            yield "none is found"
        yield from self.misjudged(docs, verdict)

    def written(self) -> Iterator[str]:
        for verdict in ("valid", "invalid"):
            yield from self.misjudged(self.documents(verdict), verdict)

    def documents(self, verdict: str) -> list[str]:
        """The row's documents of a verdict."""
        return [json.dumps(doc) for doc, wanted in self.row.documents if wanted == verdict]

    def misjudged(self, docs: list[str], wanted: str) -> Iterator[str]:
        """The documents that get another verdict than they should."""
        schema = self.given.on_files("export", ROOT)[0]
        by = {**self.given.verdicts(ROOT, schema, docs), **{name: judge(schema, docs) for name, judge in self.judges.items()}}
        for name, verdicts in by.items():
            for doc, verdict in zip(docs, verdicts, strict=True):
                if verdict != wanted:
                    yield f"{name} says {verdict} of {doc}, which is {wanted}"


def faults_of(ask: Callable[[], Iterator[str]]) -> list[str]:
    """What is wrong with an answer; a refusal is."""
    try:
        return list(ask())
    except Refused as refusal:
        return [f"is refused: {refusal}"]


def main(program: str, found: list[Row]) -> int:
    judges = found_judges()
    passed = failed = 0
    for row in (row for row in found if not row.refusal()):
        with tempfile.TemporaryDirectory() as room:
            for asked, ask in Asked(program, Path(room), row, judges).questions().items():
                faults = faults_of(ask)
                passed, failed = passed + (not faults), failed + bool(faults)
                for it in faults:
                    print(f"{row}: {asked}: {it}")
    print(f"{passed} passed, {failed} failed")
    return 1 if failed or not passed else 0


if __name__ == "__main__":
    if len(sys.argv) not in (2, 3):
        sys.exit(__doc__)
    # What a row with names stands for is said by the model, which makes fewer definitions of them.
    found = rows(Path(sys.argv[2])) if len(sys.argv) == 3 else [row for row in all_rows() if not has_names(row.source)]
    sys.exit(main(str(Path(sys.argv[1]).resolve()), found))
