#!/usr/bin/env python3
"""Asks about pairs of packages whether each document of the one is one of the other, and looks at documents for what the answer
has to be. A line for each wrong answer, the kinds of answers, and a closing count.

    tools/questions.py PROGRAM [--pairs N] [--seed N] [--slowest SECONDS] [FOLDER..]

- 1,000 random pairs of small packages, most of them a package and an edited copy of it, in both directions. Whatever small document
  separates them by the evaluator below, which knows the program's only by docs/PROFILE.md, has to be found: `compatible` and
  `error 17` are wrong there. A document that is told has to separate them. Every other pair is asked with `--profile wide`, and written in
  forms of that profile which mean the same: the first fields of literals stand in literals that these embed or that `&` joins to them, and
  literals in `close`.
- The packages of each folder: each definition against itself, which is `compatible`, and against the package with an edit, for each kind
  of edit and each definition where the first one fits. A document that is told has to separate them. No question takes longer than
  is named, 1 second where nothing is.
"""
from __future__ import annotations

import argparse
import itertools
import json
import random
import subprocess
import sys
import tempfile
import time
from collections import Counter
from collections.abc import Sequence
from pathlib import Path

sys.path.insert(0, str(Path(__file__).resolve().parent))
from profile_of_cue import Package, inner, is_instance, parsed, spelled, values_of  # noqa: E402

LABELS = ["a", "b", "c"]
TEXTS = ["", "x", "y"]
KINDS = ["int", "string", "bool", "number", "uint", "int8"]
MOST_DOCUMENTS = 600


# Random packages.


def atom(chance: random.Random):
    return chance.choice(
        [
            ("kind", chance.choice(KINDS)),
            ("value", chance.choice([None, True, False, 0, 1, 2, *TEXTS])),
            ("value", chance.choice([1, 2, "x"])),
            ("bound", chance.choice(["<", "<=", ">", ">="]), chance.randint(-1, 3)),
            ("not", chance.choice([None, 0, 1, "x"])),
            ("top",),
            ("bottom",),
        ]
    )


def struct(chance: random.Random, names: list[str], depth: int, opened: bool | None = None):
    fields = []
    for label in chance.sample(LABELS, chance.randint(0, 2)):
        fields.append((label, chance.choice(["", "", "?", "!"]), expression(chance, names, depth - 1)))
    if chance.random() < 0.2:
        fields.append(("", "[string]", expression(chance, names, depth - 1)))
    return ("struct", fields, chance.random() < 0.4 if opened is None else opened)


def listing(chance: random.Random, names: list[str], depth: int):
    front = [expression(chance, names, depth - 1) for _ in range(chance.randint(0, 2))]
    end = chance.choice([None, ("top",), expression(chance, names, depth - 1)])
    return ("list", front, end)


def expression(chance: random.Random, names: list[str], depth: int):
    if depth <= 0 or chance.random() < 0.25:
        return atom(chance) if chance.random() < 0.8 else ("ref", chance.choice(names))
    form = chance.random()
    if form < 0.4:
        return struct(chance, names, depth)
    if form < 0.55:
        return listing(chance, names, depth)
    if form < 0.85:
        return ("or", [expression(chance, names, depth - 1) for _ in range(chance.randint(2, 3))])
    if form < 0.92:
        return ("and", [struct(chance, names, depth - 1, True) for _ in range(2)])
    return ("and", [atom(chance), expression(chance, names, depth - 1)])


def package(chance: random.Random) -> Package:
    names = ["#A", "#B", "#C"][: chance.randint(1, 3)]
    return {name: [expression(chance, names, 3)] for name in names}


# Edits. Each takes an expression and gives another one, or nothing where it doesn't fit.


def changed_field(change):
    def edit(chance, it):
        if it[0] != "struct" or not it[1]:
            return None
        place = chance.randrange(len(it[1]))
        new = change(it[1][place])
        return ("struct", [*it[1][:place], *new, *it[1][place + 1 :]], it[2])

    return edit


def made(marks):
    return lambda field: [(field[0], marks[field[1]], field[2])] if field[1] in marks else [field]


def added(mark):
    def edit(chance, it):
        label = "" if mark == "[string]" else chance.choice([*LABELS, "added"])
        return ("struct", [*it[1], (label, mark, atom(chance))], it[2]) if it[0] == "struct" else None

    return edit


def opened(_chance, it):
    return ("struct", it[1], not it[2]) if it[0] == "struct" else None


def bounded(chance, it):
    if it[0] == "bound":
        return ("bound", it[1], it[2] + chance.choice([-1, 1]))
    return ("and", [it, ("bound", chance.choice(["<=", ">="]), chance.randint(0, 2))]) if it[0] == "kind" else None


def widened(_chance, it):
    return ("or", [it, ("value", None)]) if it[0] in ("kind", "value", "ref") else None


def number(_chance, it):
    return ("kind", "number") if it == ("kind", "int") else None


def another(chance, it):
    if it[0] == "value":
        return ("value", chance.choice([None, True, 0, 1, "x", "y"]))
    return ("kind", chance.choice(KINDS)) if it[0] == "kind" else None


def dropped(chance, it):
    if it[0] != "or":
        return None
    place = chance.randrange(len(it[1]))
    rest = [*it[1][:place], *it[1][place + 1 :]]
    return rest[0] if len(rest) == 1 else ("or", rest)


def joined(chance, it):
    return ("or", [*it[1], atom(chance)]) if it[0] == "or" else None


def excluded(_chance, it):
    return ("and", [it, ("not", 1 if it[1] == "int" else "x")]) if it[0] == "kind" and it[1] in ("int", "string") else None


def shorter(_chance, it):
    return ("list", it[1][:-1], it[2]) if it[0] == "list" and it[1] else None


def longer(chance, it):
    return ("list", [*it[1], atom(chance)], it[2]) if it[0] == "list" else None


def ended(chance, it):
    if it[0] != "list":
        return None
    return ("list", it[1], chance.choice([end for end in (None, ("top",), ("kind", "int")) if end != it[2]]))


EDITS = {
    "a field is removed": changed_field(lambda field: []),
    "a field is renamed": changed_field(lambda field: [(field[0] and field[0] + "x", field[1], field[2])]),
    "a field is made optional": changed_field(made({"": "?", "!": "?"})),
    "a field is made required": changed_field(made({"?": ""})),
    "a key is required by another mark": changed_field(made({"": "!", "!": ""})),
    "a field is added": added(""),
    "an optional field is added": added("?"),
    "a rule for every key is added": added("[string]"),
    "`...` is added or removed": opened,
    "a range is changed": bounded,
    "null is allowed": widened,
    "`int` becomes `number`": number,
    "an atom is another one": another,
    "an alternative is dropped": dropped,
    "an alternative is added": joined,
    "a value is excluded": excluded,
    "an element is removed": shorter,
    "an element is added": longer,
    "a list's end is changed": ended,
}


def with_parts(it, new: list):
    if it[0] in ("and", "or"):
        return (it[0], new)
    if it[0] == "struct":
        return ("struct", [(f[0], f[1], value) for f, value in zip(it[1], new, strict=True)], it[2])
    if it[0] == "list":
        return ("list", new[: len(it[1])], new[-1] if it[2] else None)
    return it


def edited_at(chance, it, edit, left: list[int]):
    """The expression with the edit at the place of that number among those where it fits, counted down in `left`."""
    own = edit(chance, it)
    if own is not None and own != it:
        if left[0] == 0:
            left[0] = -1
            return own
        left[0] -= 1
    if left[0] < 0:
        return it
    return with_parts(it, [edited_at(chance, part, edit, left) for part in inner(it)])


def edited(chance: random.Random, old: Package, edit, name: str, place: int) -> Package | None:
    left = [place]
    bodies = [edited_at(chance, body, edit, left) for body in old[name]]
    return {**old, name: bodies} if left[0] < 0 else None


def edited_copy(chance: random.Random, old: Package) -> Package:
    for _ in range(20):
        new = edited(chance, old, chance.choice(list(EDITS.values())), chance.choice(list(old)), chance.randint(0, 3))
        if new:
            return new
    return old


# Documents.


def some(chance: random.Random, items: list, most: int) -> list:
    return items if len(items) <= most else chance.sample(items, most)


def containers(chance: random.Random, inside: list, labels: list[str], most: int) -> list:
    """Lists of up to 3 of these, and maps of up to 3 keys."""
    all_of = [[], {}]
    for count in (1, 2, 3):
        for _ in range(most):
            all_of.append([chance.choice(inside) for _ in range(count)])
            all_of.append({label: chance.choice(inside) for label in chance.sample(labels, min(count, len(labels)))})
    return all_of


def documents(chance: random.Random, old: Package, new: Package) -> list:
    labels, scalars = values_of([old, new])
    labels = [*labels, "other", "others"]
    flat = containers(chance, scalars, labels, 40)
    flat += [{label: value} for label, value in itertools.product(labels, scalars)] + [[value] for value in scalars]
    deep = containers(chance, scalars + some(chance, flat, 60), labels, 40)
    return scalars + some(chance, flat + deep, MOST_DOCUMENTS)


# Questions.


def in_wide_forms(chance: random.Random, it: tuple) -> tuple:
    """The same expression, with some literals in `close`, and with the first fields of some in a literal of their own, which they embed or `&`
    joins to them; one of the two is open where it was open."""
    parted = with_parts(it, [in_wide_forms(chance, part) for part in inner(it)])
    form = chance.random()
    if it[0] != "struct" or form < 0.3:
        return parted
    if form < 0.4:
        return ("close", parted)
    _form, fields, is_open = parted
    place = chance.randint(0, len(fields))
    is_open_inside = is_open and chance.random() < 0.5
    first, is_open_behind = ("struct", fields[:place], is_open_inside), is_open and not is_open_inside
    if form < 0.6:
        return ("and", [first, ("struct", fields[place:], is_open_behind)])
    return ("struct", [("", "embed", first), *fields[place:]], is_open_behind)


def asked_in_wide_forms(program: str, chance: random.Random, pair) -> str:
    """What is said of the pair in such forms. `&` means another thing there where the default profile refuses it."""
    if asked(program, pair) == "refused":
        return "refused"
    old, root, new, new_root = pair
    old, new = ({name: [in_wide_forms(chance, body) for body in bodies] for name, bodies in it.items()} for it in (old, new))
    return asked(program, (old, root, new, new_root), profile=["--profile", "wide"])


def asked(program: str, pair, seconds: float = 60, profile: Sequence[str] = ()) -> str:
    """What `compare` says of the pair: `compatible`, the document that separates it, `error 17`, or `refused` for any other refusal."""
    old, root, new, new_root = pair
    with tempfile.TemporaryDirectory() as room:
        for name, source in (("old.cue", old), ("new.cue", new)):
            Path(room, name).write_text(spelled(source).replace(";", "\n"))
        words = [program, "compare", *profile, "--root", root, "--new-root", new_root, "--old", "old.cue", "--new", "new.cue"]
        run = subprocess.run(words, cwd=room, capture_output=True, text=True, timeout=seconds)
    said = run.stdout.splitlines() or run.stderr.splitlines()
    if run.returncode > 2 or not said:
        raise SystemExit(f"{' '.join(words)}: status {run.returncode}, {run.stderr[-2000:]}")
    if run.returncode == 2:
        return "error 17" if said[0] == "error 17" else "refused"
    return said[-1]


def separates(pair, doc) -> bool:
    old, root, new, new_root = pair
    return is_instance(old, root, doc) and not is_instance(new, new_root, doc)


def told_wrong(pair, answer: str, docs: list) -> str | None:
    """What is wrong with the answer, if anything."""
    if answer == "refused":
        return None
    if answer in ("compatible", "error 17"):
        for doc in docs:
            if separates(pair, doc):
                return f"{answer}, but {json.dumps(doc)} separates them"
        return None
    return None if separates(pair, json.loads(answer)) else f"{answer} doesn't separate them"


def kind_of(answer: str) -> str:
    return answer if answer in ("compatible", "refused", "error 17") else "breaking"


class Report:
    def __init__(self) -> None:
        self.kinds: Counter[str] = Counter()
        self.wide: Counter[str] = Counter()
        self.wrong = 0
        self.slowest = 0.0

    def add(self, pair, answer: str, wrong: str | None, what: str = "") -> None:
        self.kinds[kind_of(answer)] += 1
        if wrong:
            self.wrong += 1
            print(f"{what}{spelled(pair[0])} => {pair[1]} => {spelled(pair[2])} => {pair[3]}: {wrong}")


def try_random(program: str, count: int, seed: int, report: Report) -> None:
    chance = random.Random(seed)
    while sum(report.kinds[kind] for kind in ("compatible", "breaking", "error 17")) < 2 * count:
        pairs = []
        for _ in range(100):
            old = package(chance)
            new = package(chance) if chance.random() < 0.25 else edited_copy(chance, old)
            pairs += [(old, "#A", new, "#A"), (new, "#A", old, "#A")]
        answers = [asked_in_wide_forms(program, chance, it) if place // 2 % 2 else asked(program, it) for place, it in enumerate(pairs)]
        report.wide.update(kind_of(it) for place, it in enumerate(answers) if place // 2 % 2)
        for place in range(0, len(pairs), 2):
            docs = [] if answers[place] == "refused" else documents(chance, pairs[place][0], pairs[place][2])
            for pair, answer in zip(pairs[place : place + 2], answers[place : place + 2]):
                report.add(pair, answer, told_wrong(pair, answer, docs))


def try_folder(program: str, folder: Path, slowest: float, report: Report) -> None:
    chance = random.Random(0)
    sources = "\n".join(file.read_text() for file in sorted(folder.glob("*.cue")))
    old = parsed(sources)
    questions = [("against itself", (old, name, old, name)) for name in old]
    for what, edit in EDITS.items():
        for name in old:
            new = edited(chance, old, edit, name, 0)
            if new:
                questions += [(what, (old, name, new, name)), (what, (new, name, old, name))]
    for what, pair in questions:
        start = time.monotonic()
        answer = asked(program, pair)
        took = time.monotonic() - start
        report.slowest = max(report.slowest, took)
        wrong = told_wrong(pair, answer, [])
        if what == "against itself" and answer != "compatible":
            wrong = f"{answer} against itself"
        if took > slowest:
            wrong = f"{answer} after {took:.1f} seconds"
        report.add(pair, answer, wrong, f"{folder.name}: {what}: ")


def told_of(kinds: Counter[str]) -> str:
    return ", ".join(f"{count} {kind}" for kind, count in sorted(kinds.items()))


def main() -> int:
    words = argparse.ArgumentParser()
    words.add_argument("program")
    words.add_argument("--pairs", type=int, default=1000)
    words.add_argument("--seed", type=int, default=1)
    words.add_argument("--slowest", type=float, default=1.0)
    words.add_argument("folders", nargs="*", type=Path)
    given = words.parse_intermixed_args()
    report, program = Report(), str(Path(given.program).resolve())
    try_random(program, given.pairs, given.seed, report)
    for folder in given.folders:
        try_folder(program, folder, given.slowest, report)
    print(f"{told_of(report.wide)} in forms of the wide profile")
    print(f"{told_of(report.kinds)}; the slowest of the folders took {report.slowest:.2f} seconds")
    print(f"{sum(report.kinds.values()) - report.wrong} passed, {report.wrong} failed")
    return 1 if report.wrong else 0


if __name__ == "__main__":
    sys.exit(main())
