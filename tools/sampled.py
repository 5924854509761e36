#!/usr/bin/env python3
"""Counts the rules of packages that documents of `samples --invalid` break alone. A line for each definition, one for each rule that
no sample breaks though a document could, and a closing count.

    tools/sampled.py PROGRAM PACKAGE..        a file is a package, and so are the files of a folder together

A rule is a kind, a literal or a bound; that a value is a map, or a list; that a key is there; that a map has no further key; and that
a list is no shorter, or no longer. A document breaks it alone where it is no instance of the root, and is one once the rule is left
out, which `profile_of_cue.py` judges. Whether any document does so is asked of `compare`. A rule counts once for each definition that
reaches it.
"""
from __future__ import annotations

import json
import subprocess
import sys
import tempfile
from collections.abc import Iterator
from pathlib import Path

sys.path.insert(0, str(Path(__file__).resolve().parent))
from profile_of_cue import Package, inner, is_instance, parsed, text  # noqa: E402
from questions import with_parts  # noqa: E402

MOST = 1000
TOP = ("top",)


def without_own(it: tuple) -> Iterator[tuple[str, tuple]]:
    """The rules of an expression without those of its parts: each with the expression that lacks it."""
    form = it[0]
    if form in ("kind", "value", "not", "bound", "bottom"):
        yield text(it), TOP
    elif form == "struct":
        yield "a map", TOP
        for place, (label, mark, value) in enumerate(it[1]):
            if mark in ("", "!"):
                yield f"the key {label}", (form, [*it[1][:place], (label, "?", value), *it[1][place + 1 :]], it[2])
        if not it[2] and all(mark != "[string]" for _label, mark, _value in it[1]):
            yield "no further key", (form, it[1], True)
    elif form == "list":
        yield "a list", TOP
        if it[1]:
            shorter = [(form, it[1][:count], None) for count in range(len(it[1]))]
            yield "no shorter", ("or", [*shorter, it])
        if it[2] is None:
            yield "no longer", (form, it[1], TOP)


def step(it: tuple, place: int) -> str:
    """The way to a part, in words; nothing for an operand."""
    if it[0] == "struct":
        return f".{it[1][place][0]}" if it[1][place][1] != "[string]" else "[string]"
    if it[0] == "list":
        return f"[{place}]" if place < len(it[1]) else "[]"
    return ""


def without(it: tuple, way: str) -> Iterator[tuple[str, tuple]]:
    """The rules of an expression, each with its way and the expression that lacks it."""
    for rule, new in without_own(it):
        yield f"{way}: {rule}", new
    parts = inner(it)
    for place, part in enumerate(parts):
        for rule, new in without(part, way + step(it, place)):
            yield rule, with_parts(it, [*parts[:place], new, *parts[place + 1 :]])


def references(it: tuple) -> Iterator[str]:
    if it[0] == "ref":
        yield it[1]
    for part in inner(it):
        yield from references(part)


def reached(package: Package, root: str) -> list[str]:
    """The definitions that the root reaches, itself first."""
    names = [root]
    for name in names:
        for body in package[name]:
            names += [it for it in dict.fromkeys(references(body)) if it not in names]
    return names


def rules(package: Package, root: str) -> Iterator[tuple[str, Package]]:
    """The rules that the root reaches, each with the package that lacks it."""
    for name in reached(package, root):
        bodies = package[name]
        for place, body in enumerate(bodies):
            for rule, new in without(body, name):
                yield rule, {**package, name: [*bodies[:place], new, *bodies[place + 1 :]]}


def run(program: str, *words: str) -> list[str]:
    """The lines that a command prints; where it is refused, the refusal."""
    told = subprocess.run([program, *words], stdin=subprocess.DEVNULL, capture_output=True, encoding="utf-8")
    return told.stdout.splitlines() if told.returncode in (0, 1) else [told.stderr.strip()]


def source(package: Package) -> str:
    return "".join(f"{name}: {text(body)}\n" for name, bodies in package.items() for body in bodies)


def broken_alone(program: str, package: Package, lacking: Package, root: str) -> list[str]:
    """What `compare` says of the package that lacks a rule and the whole one."""
    with tempfile.TemporaryDirectory() as room:
        old, new = Path(room, "old.cue"), Path(room, "new.cue")
        old.write_text(source(lacking), encoding="utf-8")
        new.write_text(source(package), encoding="utf-8")
        return run(program, "compare", "--root", root, "--old", str(old), "--new", str(new))


def samples(program: str, files: list[Path], root: str) -> list:
    """The documents that just fail."""
    lines = run(program, "samples", "--invalid", "--most", str(MOST), "--root", root, "--", *map(str, files))
    if lines and lines[0].startswith("error "):
        raise SystemExit(f"{files[0]} {root}: {lines[0]}")
    return [json.loads(line) for line in lines]


def measure(program: str, path: Path) -> tuple[int, int]:
    """How many rules samples break alone, and how many they don't though a document does."""
    files = [path] if path.is_file() else sorted(path.glob("*.cue"))
    package = parsed("\n".join(file.read_text(encoding="utf-8") for file in files))
    hit_in_all = missed_in_all = 0
    for root in package:
        docs = samples(program, files, root)
        hit = missed = 0
        never = []
        for rule, lacking in rules(package, root):
            if any(is_instance(lacking, root, doc) for doc in docs):
                hit += 1
                continue
            told = broken_alone(program, package, lacking, root)
            if told == ["compatible"]:
                never.append(rule)
                continue
            missed += 1
            print(f"{path.name} {root}: no sample breaks `{rule}`: {' '.join(told)}")
        left = f", {len(never)} that no document breaks alone: {'; '.join(never)}" if never else ""
        print(f"{path.name} {root}: {len(docs)} samples break {hit} of {hit + missed} rules{left}")
        hit_in_all, missed_in_all = hit_in_all + hit, missed_in_all + missed
    return hit_in_all, missed_in_all


def main(program: str, paths: list[Path]) -> int:
    hit = missed = 0
    for path in paths:
        counted = measure(program, path)
        hit, missed = hit + counted[0], missed + counted[1]
    print(f"{hit} passed, {missed} failed")
    return 1 if missed or not hit else 0


if __name__ == "__main__":
    if len(sys.argv) < 3:
        sys.exit(__doc__)
    sys.exit(main(str(Path(sys.argv[1]).resolve()), [Path(it) for it in sys.argv[2:]]))
