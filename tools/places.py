#!/usr/bin/env python3
"""Says where docs/CONTRIBUTING.md and the code differ: in the places that "To add something" lists, and in the list of crates; and where
docs/LAYERS.md and crates.txt do.

    tools/places.py            a line for each difference; status 1 where there is one
    tools/places.py --count    prints what the page has to say: each sentence with figures, the files that a section's tables have to
                               name, behind the number of their places, and the rows of the list of crates

A place is a line of a crate's `src` (code), `specs` (definitions) or `proofs` that has a word of its section: see `THINGS`. A word
that begins or ends with a letter, a digit or `_` is found where no other one of these goes on there; `…` stands for such ones. Left out
are lines of `use` items and lines that are comments; tests: the crates `cs_rows` and `cs_calls`, and files of `src` named `tests.rt`
or `*_tests.rt`; samples: files of `proofs` whose name has `Sample` or `Rows`, or that begin with `-- Samples`. A function is a line
of `src`, in a test too, that begins with `fn`, behind `pub` or `pub(..)` at most.

A section has the sentence of its count, word for word, and names each file with a place in a table. A column `file` names files
from a crate's folder on, the columns `specs`, `src` and `proofs` from that folder on, with or without the file's ending; a name that
ends with `/` stands for the files below that folder. A table's crates are in the order of crates.txt, and an empty cell means the one
above. In a table without a column `if` each file that is named has the word, if only in a sample, and is named once. What a column
`what gets a line` has in backticks is in a file of its row. A file that a section names outside of its tables is there.
"""
from __future__ import annotations

import re
import sys
import textwrap
from collections import Counter
from dataclasses import dataclass
from functools import lru_cache
from pathlib import Path

TOP = Path(__file__).resolve().parent.parent
PAGE = TOP / "docs" / "CONTRIBUTING.md"
LAYERS = TOP / "docs" / "LAYERS.md"
ENDINGS = {"specs": ".antt", "src": ".rt", "proofs": ".antt"}
KINDS = (("src", "code"), ("specs", "definitions"), ("proofs", "proofs"))
USE = re.compile(r"\s*(?:pub(?:\(\w+\))? |ghost )*use ")
COMMENT = re.compile(r"\s*(?://|--)")
FUNCTION = re.compile(r"\s*(?:pub(?:\(\w+\))? )?fn ")
MANY_FUNCTIONS = 100
MINUTES = "processor minutes of its proof"


@dataclass(frozen=True)
class Thing:
    """What a section counts on, and the words that are searched for: in all crates, and further ones in some."""

    section: str
    example: str
    words: tuple[str, ...]
    in_some: tuple[tuple[tuple[str, ...], tuple[str, ...]], ...] = ()

    def words_in(self, crate: str) -> list[str]:
        return [*self.words, *(word for some, further in self.in_some if crate in some for word in further)]


THINGS = (
    Thing("A keyword", "minItems", ("MinItems", "min_items", "minItems", "at_least_long", "is_at_least_long")),
    Thing("A form of expression without parts", "!=null", ("NotNull", "…not_null…", "other_null", "null_or_goes")),
    Thing(
        "A form of expression with parts",
        "|",
        ("Or(", ".Or", "-Or", "…disjunction…"),
        (
            (("cs_instance", "cs_instance_reasons", "cs_question"), ("Any(", "node.Any", "Some-Any")),
            (("cs_instance", "cs_instance_reasons", "cs_compile", "cs_question"), ("…any_of",)),
        ),
    ),
    Thing(
        "A declaration in structs",
        "[string]: T",
        ("Every {", "(Every", "is_every", "…every_key", "every_key_…", ".every", "every ="),
        (
            (("cs_syntax",), ("is_string", "…begins_string", "LabelBracket", "…chained_string")),
            (("cs_guard",), ("every ns", "of_field every")),
        ),
    ),
    Thing("A token", "!=", ("Unequal", '"!="'), ((("cs_grammar", "cs_syntax"), ("…unequal…",)),)),
    Thing("A refusal", "ChainTooLong", ("ChainTooLong",)),
    Thing("An output format", "basic", ("Basic", '"basic"')),
    Thing("An option of `export`", "--pretty", ("is_pretty", '"pretty"', "write_pretty")),
)


# ---- the code


@lru_cache(maxsize=None)
def used() -> dict[str, list[str]]:
    """What each crate of crates.txt uses, in its order."""
    lines = (TOP / "crates.txt").read_text().split("\n")
    found = [line.partition(":") for line in lines if re.match(r"\w+:", line)]
    return {crate: libraries.split() for crate, _, libraries in found}


def crates() -> list[str]:
    return list(used())


@dataclass(frozen=True)
class File:
    """A file of a crate: its name from the crate's folder on, and its text."""

    crate: str
    name: str
    text: str

    def is_test(self) -> bool:
        return self.crate in ("cs_rows", "cs_calls") or re.search(r"[/_]tests\.rt\Z", self.name) is not None

    def is_sample(self) -> bool:
        name = self.name.rpartition("/")[2]
        return self.name.startswith("proofs/") and ("Sample" in name or "Rows" in name or self.text.startswith("-- Samples"))

    def lines(self) -> list[str]:
        """The lines, without those of `use` items and those that are comments."""
        kept, depth = [], 0
        for line in self.text.split("\n"):
            if depth or USE.match(line):
                depth += line.count("{") - line.count("}")
            elif not COMMENT.match(line):
                kept.append(line)
        return kept


@lru_cache(maxsize=None)
def files() -> list[File]:
    """The files of code, definitions and proofs, in the order of the crates."""
    found = []
    for crate in crates():
        top = TOP / "crates" / crate
        for folder, ending in ENDINGS.items():
            paths = sorted((top / folder).rglob("*" + ending))
            found += [File(crate, path.relative_to(top).as_posix(), path.read_text()) for path in paths]
    return found


def pattern(word: str) -> str:
    """What finds a word."""
    front = r"(?<!\w)" if re.match(r"\w", word) else ""
    back = r"(?!\w)" if re.search(r"\w\Z", word) else ""
    return front + re.escape(word.strip("…")) + back


@lru_cache(maxsize=None)
def lines_with(thing: Thing) -> dict[tuple[str, str], int]:
    """How many lines with a word each file has that has one, by its crate and its name; samples and tests too."""
    found = {}
    for file in files():
        words = thing.words_in(file.crate)
        if any(word.strip("…") in file.text for word in words):
            finder = re.compile("|".join(pattern(word) for word in words))
            count = sum(1 for line in file.lines() if finder.search(line))
            if count:
                found[file.crate, file.name] = count
    return found


@lru_cache(maxsize=None)
def places(thing: Thing) -> dict[tuple[str, str], int]:
    """How many places each file has that has one, by its crate and its name."""
    counted = {(file.crate, file.name) for file in files() if not file.is_test() and not file.is_sample()}
    return {file: count for file, count in lines_with(thing).items() if file in counted}


@lru_cache(maxsize=None)
def functions() -> dict[str, int]:
    """How many functions each crate has."""
    found = dict.fromkeys(crates(), 0)
    for file in files():
        if file.name.startswith("src/"):
            found[file.crate] += sum(1 for line in file.text.split("\n") if FUNCTION.match(line))
    return found


# ---- what the page has to say


def joined(texts: list[str]) -> str:
    """Texts with commas between them, and `and` before the last one."""
    return " and ".join([", ".join(texts[:-1]), texts[-1]]) if len(texts) > 1 else "".join(texts)


def spans(words: tuple[str, ...]) -> list[str]:
    return [f"`{word}`" for word in words]


def counted(thing: Thing) -> str:
    """The sentence of a section's count."""
    lines: Counter[str] = Counter()
    number: Counter[str] = Counter()
    for (_, name), count in places(thing).items():
        folder = name.partition("/")[0]
        lines[folder] += count
        number[folder] += 1
    words = f", by {', '.join(spans(thing.words))}" if thing.words != (thing.example,) else ""
    for some, further in thing.in_some:
        words += f"; in {joined(spans(some))} also {', '.join(spans(further))}"
    parts = joined([f"{lines[folder]} in {number[folder]} of {kind}" for folder, kind in KINDS])
    return f"Counted on `{thing.example}`{words}: {sum(lines.values())} lines in {sum(number.values())} files, {parts}."


def largest() -> str:
    """The sentence on the crates that have many functions."""
    many = sorted((-count, crate) for crate, count in functions().items() if count > MANY_FUNCTIONS)
    return f"More than {MANY_FUNCTIONS} have {joined([f'`{crate}` ({-count})' for count, crate in many])}."


# ---- the page


@dataclass(frozen=True)
class Row:
    """A row of a table: its crate, its cells by the heads of their columns, and for each name of files those that it stands for."""

    crate: str
    cells: dict[str, str]
    named: list[list[str]]

    def files(self) -> list[str]:
        return [name for group in self.named for name in group]


def section(page: str, heading: str) -> str:
    """The text below a heading, up to the next one."""
    return re.split(r"\n#+ ", page.partition(f"# {heading}\n")[2])[0]


def backticked(text: str) -> list[str]:
    return re.findall(r"`([^`]+)`", text)


def cells(line: str) -> list[str]:
    return [cell.strip().replace("\\|", "|") for cell in re.split(r"(?<!\\)\|", line)[1:-1]]


def tables(text: str) -> list[list[Row]]:
    """The tables of a text, each with its rows."""
    found: list[list[Row]] = []
    head: list[str] = []
    for line in text.split("\n"):
        if not line.startswith("|"):
            head = []
        elif not head:
            head = [cell.strip("`") for cell in cells(line)]
            found.append([])
        elif not line.startswith("|--"):
            row = dict(zip(head, cells(line)))
            above = found[-1][-1].crate if found[-1] else ""
            crate = "".join(backticked(row.get("crate", ""))[:1]) or above
            found[-1].append(Row(crate, row, named(crate, row)))
    return found


def named(crate: str, row: dict[str, str]) -> list[list[str]]:
    """For each name of files in a row those that it stands for; one that isn't there stays as it is."""
    names = backticked(row.get("file", ""))
    for folder in ENDINGS:
        names += [f"{folder}/{name}" for name in backticked(row.get(folder, ""))]
    return [meant(crate, name) for name in names]


def meant(crate: str, name: str) -> list[str]:
    if name.endswith("/"):
        return [file.name for file in files() if file.crate == crate and file.name.startswith(name)] or [name]
    ending = ENDINGS.get(name.partition("/")[0], "")
    return [name if name.endswith(ending) else name + ending]


# ---- the differences


def missing_sentences(page: str) -> list[str]:
    """Each sentence with figures that the page lacks."""
    wanted = [(thing.section, counted(thing)) for thing in THINGS] + [("What a check costs", largest())]
    return [f"{heading}: lacks: {text}" for heading, text in wanted if text not in " ".join(section(page, heading).split())]


def unnamed(thing: Thing, rows: list[Row]) -> list[str]:
    """The files with a place that no table names."""
    known = {(row.crate, name) for row in rows for name in row.files()}
    return [f"no table names {crate}/{name}" for crate, name in places(thing) if (crate, name) not in known]


def not_there(row: Row) -> list[str]:
    """The files that a row names and that aren't there."""
    return [f"there is no {row.crate}/{name}" for name in row.files() if not (TOP / "crates" / row.crate / name).is_file()]


def absent(row: Row) -> list[str]:
    """What gets a line by what a row says, and isn't in its files."""
    texts = [file.text for file in files() if file.crate == row.crate and file.name in row.files()]
    names = [name.strip(".") for name in backticked(row.cells.get("what gets a line", ""))]
    return [f"`{name}` isn't in {row.crate}/{joined(row.files())}" for name in names if not any(name in text for text in texts)]


def needless(thing: Thing, table: list[Row]) -> list[str]:
    """The names of files without a word and those that are named twice, in a table that holds without a condition."""
    lines, seen = [], set()
    there = {(file.crate, file.name) for file in files()}
    for row in table:
        for group in row.named:
            found = [(row.crate, name) for name in group if (row.crate, name) in there]
            if found and not any(file in lines_with(thing) for file in found):
                lines.append(f"{row.crate}/{group[0]} has no place")
            lines += [f"{crate}/{name} is named twice" for crate, name in found if (crate, name) in seen]
            seen.update(found)
    return lines


def in_order(table: list[Row]) -> bool:
    order = [crates().index(row.crate) for row in table if row.crate in crates()]
    return order == sorted(order)


def in_prose(text: str) -> list[str]:
    """The files outside of tables that aren't there: those of a crate are in the one that is named last before them."""
    lines, crate = [], ""
    for name in backticked("\n".join(line for line in text.split("\n") if not line.startswith("|"))):
        if name in crates():
            crate = name
        path = f"crates/{crate}/{name}" if re.match(r"(?:src|specs|proofs)/", name) else name
        if re.match(r"(?:crates|cases|docs|examples|tools)/[\w./-]+\Z", path) and not (TOP / path).exists():
            lines.append(f"there is no {path}")
    return lines


def in_section(thing: Thing, page: str) -> list[str]:
    """The differences of a section."""
    text = section(page, thing.section)
    found = tables(text)
    rows = [row for table in found for row in table]
    lines = unnamed(thing, rows)
    for row in rows:
        lines += not_there(row) + absent(row)
    for table in found:
        if table and "if" not in table[0].cells:
            lines += needless(thing, table)
            lines += [] if in_order(table) else ["a table's crates aren't in the order of crates.txt"]
    return [f"{thing.section}: {line}" for line in lines + in_prose(text)]


def in_crates(page: str) -> list[str]:
    """The differences of the list of crates."""
    rows = [row for table in tables(section(page, "The crates")) for row in table]
    names = [row.crate for row in rows]
    lines = [f"lacks {crate}" for crate in crates() if crate not in names]
    lines += [f"there is no crate {name}" for name in names if name not in crates()]
    if not lines and names != crates():
        lines.append("the order isn't that of crates.txt")
    for row in rows:
        count = functions().get(row.crate, 0)
        if row.cells.get("functions") != str(count):
            lines.append(f"{row.crate} has {count} functions")
        if not re.fullmatch(r"\d+(?:\.\d+)?|\?", row.cells.get(MINUTES, "")):
            lines.append(f"the minutes of {row.crate} are no number")
    return [f"The crates: {line}" for line in lines]


def in_layers(page: str) -> list[str]:
    """The differences of the page of layers: each crate is in one, and uses none of a later one; the files that it names are there."""
    rows = [line for line in section(page, "The layers").split("\n") if line.startswith("| ")][1:]
    layer = {crate: place for place, row in enumerate(rows) for crate in backticked(cells(row)[1])}
    named = [crate for row in rows for crate in backticked(cells(row)[1])]
    lines = [f"lacks {crate}" for crate in crates() if crate not in layer]
    lines += [f"there is no crate {crate}" for crate in layer if crate not in crates()]
    lines += [f"{crate} is in two layers" for crate in layer if named.count(crate) > 1]
    for crate, libraries in used().items():
        lines += [f"{crate} uses {it} of a later layer" for it in libraries if layer.get(it, 0) > layer.get(crate, len(rows))]
    paths = re.findall(r"`((?:crates|cases|docs|tools)/[\w./-]+)`", page)
    return lines + [f"there is no {path}" for path in paths if not (TOP / path).exists()]


def differences(page: str) -> list[str]:
    lines = missing_sentences(page)
    for thing in THINGS:
        lines += in_section(thing, page)
    return lines + in_crates(page)


def print_counts(page: str) -> None:
    for thing in THINGS:
        print(f"### {thing.section}\n\n{paragraph(counted(thing))}\n")
        for (crate, name), count in places(thing).items():
            print(f"{count:4} {crate}/{name}")
        print()
    print(f"{paragraph(largest())}\n")
    listed = {row.crate: row.cells for table in tables(section(page, "The crates")) for row in table}
    for crate, count in functions().items():
        row = listed.get(crate, {})
        print(f"| `{crate}` | {row.get('what it does', '')} | {row.get(MINUTES, '?')} | {count} |")


def paragraph(text: str) -> str:
    """A text on lines of the page."""
    return textwrap.fill(text, 160, break_long_words=False, break_on_hyphens=False)


def main(arguments: list[str]) -> int:
    page = PAGE.read_text()
    if arguments == ["--count"]:
        print_counts(page)
        return 0
    lines = [f"docs/CONTRIBUTING.md: {line}" for line in differences(page)]
    lines += [f"docs/LAYERS.md: {line}" for line in in_layers(LAYERS.read_text())]
    print("\n".join(lines), end="\n" if lines else "")
    return 1 if lines else 0


if __name__ == "__main__":
    sys.exit(main(sys.argv[1:]))
