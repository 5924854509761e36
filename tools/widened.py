#!/usr/bin/env python3
"""Tries the model of tools/widening.py, and a program by it. A line for each difference, and a closing count.

    tools/widened.py [--random N] [--random-names N] [--seed N]
    tools/widened.py [--random N] [--random-names N] [--seed N] --program PROGRAM

- Each row of tools/widening.rows, tools/naming.rows and tools/conditions.rows: a source, what it stands for (`=>`) or the number by which it
  is refused, and documents that are instances of `#P` and that aren't, also by the reading of tools/named_reading.py. Where they have names
  a program may refuse by 11 what the model takes, and a line `program` says how else its answer differs from the model's: by `names` it
  makes a definition of what the model puts in the place of a name.
- Random packages, 200 where no number is given: each document has to be an instance by a direct reading of the source exactly where it is
  one of the package that is meant. By that reading a document is an instance of a literal with embedded expressions when, for some choice
  of an alternative for each, one for a name, every declared field is as all of them ask, and every other key is allowed by one of them.
- Random packages of tools/named_packages.py, with names, selectors and conditions, as many as `--random-names` says, or 200 where no number is
  given: those that the model takes are compared in the same way with the reading of tools/named_reading.py, on documents that are near to
  instances.
- With a program: the rows, by `widen --profile wide` and `vet --profile wide`. Then random packages with defaults, embeddings and conditions,
  every third one without embeddings, every second one without conditions, every fifth one in a file for each declaration, and every tenth one
  in two files. Where the model refuses,
  the program has to. Where it doesn't, `widen --profile wide` has to say of the package what `widen` says of the one that the model means:
  the number of the same refusal, or a text that is read as the same package; `export` writes the same schemas, to the byte, and `vet`
  judges documents as the model does. More than 64 values of a label, or bodies of a definition, aren't joined. `check` has to tell the same
  number first. Then random packages with names: of those that the program takes `vet` judges documents as the direct reading does, and the
  model refuses none by 5 or 9.

Numbers are compared in the order of the program's conditions: what an `if` asks (5, 10), then what can't be embedded (9, 11), then what an
embedding brings together (11) or too many nodes with it (14), then marks (5), then the package that is meant, where 9 and 10 come before 11.
They aren't told apart in two cases: 5 and 10 where several conditions are refused, and 9 and 11 where some name isn't declared.
"""
from __future__ import annotations

import argparse
import json
import os
import random
import subprocess
import sys
import tempfile
from collections import Counter
from collections.abc import Iterator
from concurrent.futures import ThreadPoolExecutor
from dataclasses import dataclass, field
from pathlib import Path

sys.path.insert(0, str(Path(__file__).resolve().parent))
from conditions import Conditions  # noqa: E402
from declared_again import refuse_cycles  # noqa: E402
from named_packages import ASKED, Sources as NamedSources, mutated  # noqa: E402
from named_reading import Reading as NamedReading  # noqa: E402
from profile_of_cue import Package, admits, is_instance, parsed, text  # noqa: E402
from wide_forms import MOST_NODES, Alternative, Declaration, asks_joining, breaks_opening, is_plain, is_shut, parts  # noqa: E402
from wide_source import Quoted, Refused, WideReader  # noqa: E402
from widening import Widening, spelled, together, widened  # noqa: E402

ROWS = Path(__file__).resolve().parent / "widening.rows"
CONDITION_ROWS = ROWS.with_name("conditions.rows")
NAME_ROWS = ROWS.with_name("naming.rows")
LABELS = ["a", "b", "c"]
DOCUMENTS = 60
# What is closed is told to be opened, and a name to be declared again.
NOT_OPENED = "error 11"


# Rows.


@dataclass
class Row:
    """A row of the file: a source, the lines that say what it stands for or how it is refused, and documents with what they are. Where a program answers
    otherwise, how it refuses the source, or that it is accepted."""

    source: str
    wanted: list[str] = field(default_factory=list)
    documents: list[tuple[object, str]] = field(default_factory=list)
    answered: str = ""

    def __str__(self) -> str:
        return " ".join(self.source.split())

    def refusal(self) -> str:
        """How it is refused by the rules."""
        return self.wanted[0] if self.wanted[0].startswith("error") else ""

    def refused(self) -> str:
        """How a program refuses it."""
        return "" if self.answered in ("accepted", "names") else self.answered or self.refusal()

    def is_told_alike(self) -> bool:
        """Whether a program says what the row says it stands for."""
        return not self.refusal() and self.answered != "names"

    def differs(self, meant: Package) -> bool:
        """Whether the definitions that the row has are others in the package."""
        wanted = parsed("\n".join(self.wanted))
        return not wanted or any(name not in meant or spelled({name: meant[name]}) != spelled({name: bodies}) for name, bodies in wanted.items())


def row_of(lines: list[str]) -> Row:
    row = Row("\n".join(it for it in lines if it.partition(" ")[0] not in ("=>", "valid", "invalid", "program")))
    for line in lines:
        word, _, rest = line.partition(" ")
        if word == "=>":
            row.wanted.append(rest)
        elif word == "program":
            row.answered = rest
        elif word in ("valid", "invalid"):
            row.documents += [(it, word) for it in read_all(rest)]
    return row


def rows(path: Path = ROWS) -> list[Row]:
    """The rows of a file; a line that begins with `# ` says something of those below it."""
    parted = [[it for it in part.split("\n") if it and not it.startswith("# ")] for part in path.read_text().split("\n\n")]
    return [row_of(lines) for lines in parted if lines]


def has_names(source: str) -> bool:
    """Whether the source has a name beside definitions: of a field at the top, nested or hidden, of a `let`, or with a selector."""
    try:
        package = WideReader(source).package()
    except Refused:
        return False
    return any(not name.startswith("#") or any(is_naming(body) for body in bodies) for name, bodies in package.items())


def all_rows() -> list[Row]:
    return [row for path in (ROWS, NAME_ROWS, CONDITION_ROWS) for row in rows(path)]


def is_naming(it: tuple) -> bool:
    is_one = it[0] == "selector" or it[0] == "struct" and any(mark in ("named", "let") for _label, mark, _value in it[1])
    return is_one or any(is_naming(part) for part in parts(it))


def faults_of_row(row: Row) -> Iterator[str]:
    """How the model differs from a row."""
    try:
        meant = widened(row.source)
    except Refused as why:
        if f"error {why.number}" != row.refusal():
            yield str(why)
        return
    if row.refusal() or row.differs(meant):
        yield f"stands for {spelled(meant)}"
        return
    reading = NamedReading(WideReader(row.source).package())
    for document, verdict in row.documents:
        if is_instance(meant, "#P", document) != (verdict == "valid"):
            yield f"{json.dumps(document)} isn't {verdict}"
        if reading.is_named("#P", document) != (verdict == "valid"):
            yield f"{json.dumps(document)} isn't {verdict} by the direct reading"


def read_all(texts: str) -> Iterator:
    """The JSON texts that stand one behind the other."""
    reader = json.JSONDecoder()
    while texts:
        document, place = reader.raw_decode(texts)
        yield document
        texts = texts[place:].lstrip()


# Random packages.


def atom(chance: random.Random) -> tuple:
    kinds = [("kind", it) for it in ("int", "string", "bool")]
    return chance.choice([*kinds, ("value", 1), ("value", "x"), ("value", None), ("bound", ">", 0), ("not", 1), ("top",)])


def literal(chance: random.Random, names: list[str], depth: int) -> tuple:
    fields = []
    for _ in range(chance.randint(0, 3)):
        form = chance.random()
        if form < 0.55:
            fields.append((chance.choice(LABELS), chance.choice(["", "", "?", "!"]), value(chance, names, depth - 1)))
        elif form < 0.62:
            fields.append(("", "[string]", value(chance, names, depth - 1)))
        elif depth > 0:
            fields.append(("", "embed", embedded(chance, names, depth - 1)))
    return ("struct", fields, chance.random() < 0.3)


def embedded(chance: random.Random, names: list[str], depth: int) -> tuple:
    form = chance.random()
    if form < 0.5:
        return ("ref", chance.choice(names))
    if form < 0.7 or depth <= 0:
        return literal(chance, names, depth)
    if form < 0.85:
        return ("or", [embedded(chance, names, depth - 1), embedded(chance, names, depth - 1)])
    if form < 0.92:
        return ("and", [embedded(chance, names, depth - 1), literal(chance, names, depth - 1)])
    return ("close", literal(chance, names, depth - 1))


def value(chance: random.Random, names: list[str], depth: int) -> tuple:
    form = chance.random()
    if depth <= 0 or form < 0.35:
        return atom(chance)
    if form < 0.6:
        return literal(chance, names, depth)
    if form < 0.7:
        return ("ref", chance.choice(names))
    if form < 0.78:
        default = ("marked", chance.choice([("value", 1), ("value", "x"), ("list", [], None)]))
        return ("or", [default, value(chance, names, depth - 1)])
    if form < 0.86:
        return ("or", [value(chance, names, depth - 1), value(chance, names, depth - 1)])
    if form < 0.94:
        return ("and", [literal(chance, names, depth - 1), literal(chance, names, depth - 1)])
    return ("list", [value(chance, names, depth - 1)], chance.choice([None, ("top",), value(chance, names, depth - 1)]))


def package_of(chance: random.Random) -> Package:
    """A random package. A definition refers to those behind it most of the time, since few that reach themselves are accepted."""
    names = ["#P", "#A", "#B", "#C"][: chance.randint(1, 4)]
    package: Package = {}
    for place, name in enumerate(names):
        known = names[place + 1 :] if chance.random() < 0.9 else names
        package[name] = [literal(chance, known or ["#P"], 3) if chance.random() < 0.7 else value(chance, known or ["#P"], 3)]
    if chance.random() < 0.2:
        package["#P"].append(literal(chance, names[1:] or names, 2))
    return package


def document(chance: random.Random, depth: int):
    form = chance.random()
    if depth <= 0 or form < 0.4:
        return chance.choice([1, 0, 2, "x", "y", None, True])
    if form < 0.9:
        return {label: document(chance, depth - 1) for label in chance.sample([*LABELS, "z"], chance.randint(0, 3))}
    return [document(chance, depth - 1) for _ in range(chance.randint(0, 2))]


class Direct:
    """The direct reading of a package."""

    def __init__(self, package: Package) -> None:
        self.package, self.widening = package, Widening(package)

    def is_named(self, name: str, doc) -> bool:
        return self.is_all(self.package[name], doc)

    def is_one(self, it: tuple, doc) -> bool:
        form = it[0]
        if form in ("close", "marked"):
            return self.is_one(it[1], doc)
        if form == "or":
            return any(self.is_one(part, doc) for part in it[1])
        if form == "and":
            return self.is_all(it[1], doc)
        if form == "ref":
            return self.is_named(it[1], doc)
        if form == "struct":
            return any(self.is_chosen(fields, opened, doc) for fields, opened, _chosen in self.choices(it, frozenset()))
        if form == "list":
            return self.is_list(it, doc)
        return admits(self.package, it, doc)

    def is_list(self, it: tuple, doc) -> bool:
        _form, front, end = it
        if not isinstance(doc, list) or len(doc) < len(front) or end is None and len(doc) > len(front):
            return False
        ahead = all(self.is_one(part, element) for part, element in zip(front, doc))
        return ahead and all(self.is_one(end, element) for element in doc[len(front) :])

    def is_all(self, operands: list[tuple], doc) -> bool:
        """What `&` joins, also the values of a label and the bodies of a definition: where the opening rule refuses them, the literals of one
        choice ask together."""
        joined = [it for it in operands if not is_plain(it)]
        if not breaks_opening([self.widening.stands_for(it) for it in joined]):
            return all(self.is_one(it, doc) for it in operands)
        is_joined = any(self.is_chosen(fields, opened, doc) for fields, opened, _chosen in self.choices_of_all(joined, frozenset()))
        return is_joined and all(self.is_one(it, doc) for it in operands if is_plain(it))

    def is_chosen(self, fields: list[tuple], opened: bool, doc) -> bool:
        """All that was chosen asks, and one of it allows each other key."""
        if not isinstance(doc, dict):
            return False
        every = [it for _label, mark, it in fields if mark == "[string]"]
        named: dict[str, list[tuple]] = {}
        for label, mark, it in fields:
            if mark != "[string]":
                named.setdefault(str(label), []).append((mark, it))
        for label, asked in named.items():
            may_miss = all(mark == "?" or mark == "" and self.widening.has_default(it) for mark, it in asked)
            if not (self.is_all([it for _mark, it in asked], doc[label]) if label in doc else may_miss):
                return False
        are_allowed = opened or bool(every) or doc.keys() <= named.keys()
        return are_allowed and all(self.is_one(it, inner) for it in every for inner in doc.values())

    def choices(self, it: tuple, chosen: frozenset) -> Iterator[tuple]:
        """The fields of each choice, whether it is open, and the names that have their choice now."""
        form = it[0]
        if form in ("close", "marked"):
            yield from self.choices(it[1], chosen)
        elif form == "or":
            for part in it[1]:
                yield from self.choices(part, chosen)
        elif form == "and":
            yield from self.choices_of_all(it[1], chosen)
        elif form == "struct":
            own = [field for field in it[1] if field[1] != "embed"]
            for fields, opened, further in self.choices_of_all([field[2] for field in it[1] if field[1] == "embed"], chosen):
                yield own + fields, opened or it[2], further
        elif it[1] in chosen:
            yield [], False, chosen
        else:
            yield from self.choices_of_all(self.package[it[1]], chosen | {it[1]})

    def choices_of_all(self, parts: list[tuple], chosen: frozenset) -> Iterator[tuple]:
        if not parts:
            yield [], False, chosen
            return
        for fields, opened, further in self.choices(parts[0], chosen):
            for others, are_opened, last in self.choices_of_all(parts[1:], further):
                yield fields + others, opened or are_opened, last


def fault_of_package(chance: random.Random, package: Package) -> str | None:
    """A document that the package and what it stands for judge differently; nothing where it is refused."""
    try:
        meant = Widening(package).whole()
    except Refused:
        return ""
    direct = Direct(package)
    for _ in range(DOCUMENTS):
        doc = document(chance, 3)
        try:
            if is_instance(meant, "#P", doc) != direct.is_named("#P", doc):
                return f"{spelled(package)}{json.dumps(doc)} is judged differently by\n{spelled(meant)}"
        except RecursionError:
            return ""
    return None


def fault_of_names(chance: random.Random, verdicts: Counter, refused: Counter) -> str | None:
    """A document that the model and the direct reading of a random source with names judge differently; nothing where it is refused."""
    source = NamedSources(chance).package()
    try:
        meant = widened(source)
        # The model leaves cycles to the program where a package has no form of names or conditions.
        refuse_cycles(meant)
    except Refused as why:
        refused[why.number] += 1
        return ""
    reading = NamedReading(WideReader(source).package())
    last: object = {}
    for number in range(DOCUMENTS):
        try:
            found = (near(chance, meant, ("ref", "#P"), 9) for _ in range(5))
            doc = mutated(chance, last) if number % 3 else next((it for it in found if is_instance(meant, "#P", it)), last)
            verdict = is_instance(meant, "#P", doc)
            last = doc if verdict else last
            if verdict != reading.is_named("#P", doc):
                return f"{source}\n{json.dumps(doc)} is {'valid' if verdict else 'invalid'} by\n{spelled(meant)}"
        except RecursionError:
            return f"{source}\nnothing can be judged by\n{spelled(meant)}"
        verdicts[verdict] += 1
    return None


def try_names(seeds: range) -> tuple[int, int]:
    """How many random packages with names pass, and how many fail."""
    verdicts: Counter[bool] = Counter()
    refused: Counter[int] = Counter()
    passed = failed = 0
    for seed in seeds:
        fault = fault_of_names(random.Random(seed), verdicts, refused)
        passed, failed = passed + (fault is None), failed + bool(fault)
        if fault:
            print(f"seed {seed}: {fault}")
    said = ", ".join(f"{many} by {number}" for number, many in sorted(refused.items()))
    print(f"{len(seeds) - refused.total()} of {len(seeds)} random packages with names are taken, {refused.total()} are refused: {said}")
    print(f"{verdicts[True]} documents are instances of those that are taken, {verdicts[False]} aren't")
    return passed, failed


# A program, on the rows, and on random packages with defaults, embeddings and conditions.

ATOMS = ["int", "string", "bool", "uint8", "1", '"x"', "null", ">0", "!=1", "-1", "true", "_"]
DEFAULTS = ["1", '"x"', "null", "-1", "false", "[]", "{}", '[1, ["x"], {}]', "(1)"]


class Sources:
    """Random sources whose only forms of the wide profile are marks of defaults, most of them in place, and embeddings and conditions, where the
    package has some: so many of the declarations of a literal are embedded expressions then, and so many literals have conditions. Where it has
    embeddings, there are fewer literals and references among the values, as those of one label are refused where they meet."""

    def __init__(self, chance: random.Random, names: list[str], has_embeddings: bool) -> None:
        self.chance, self.names, self.has_embeddings = chance, names, has_embeddings
        self.embedded_share = chance.choice([0.3, 0.45, 0.6]) if has_embeddings else 0
        self.asked_share = chance.choice([0, 0, 0.2, 0.4])

    def value(self, depth: int) -> str:
        form = self.chance.random()
        if depth <= 0 or form < (0.6 if self.has_embeddings else 0.25):
            return self.chance.choice(ATOMS)
        form = self.chance.random()
        if form < 0.27:
            return self.struct(depth)
        if form < 0.45:
            return self.name()
        if form < 0.77:
            return self.disjunction(depth)
        if form < 0.84:
            return " & ".join(self.operand(depth) for _ in range(2)) if self.chance.random() < 0.4 else self.joined(depth - 1)
        if form < 0.95:
            return self.listing(depth)
        return f"({self.value(depth - 1)})"

    def name(self) -> str:
        return self.chance.choice(self.names) if self.chance.random() < 0.997 else "#Z"

    def operand(self, depth: int) -> str:
        found = self.value(depth - 1)
        return f"({found})" if any(it in found for it in "|&*") and found[0] not in "{[" else found

    def disjunction(self, depth: int) -> str:
        # A mark in parentheses is refused in an operand.
        inside = 0 if self.has_embeddings and self.chance.random() < 0.8 else depth
        operands = [self.operand(inside) for _ in range(self.chance.randint(1, 2))]
        form = self.chance.random()
        if form < 0.75:
            operands.insert(self.chance.randint(0, len(operands)), "*" + self.chance.choice(DEFAULTS))
        elif form < 0.8:
            operands.append("*" + self.operand(depth))
        return " | ".join(operands)

    def struct(self, depth: int) -> str:
        declared = [self.declaration(depth) for _ in range(self.chance.randint(0, 4 if self.has_embeddings else 3))]
        if depth > 1 and self.chance.random() < 0.1:
            declared += self.in_parts(depth - 1)
            self.chance.shuffle(declared)
        if depth > 0 and self.chance.random() < self.asked_share:
            declared += self.asked(depth - 1)
            self.chance.shuffle(declared)
        between = self.chance.choice([", ", ", ", "\n"])
        return "{" + between.join(declared + ["..."] * (self.chance.random() < 0.4)) + "}"

    def asked(self, depth: int) -> list[str]:
        """A field, and literals under conditions on it, some of which declare it again or ask about another one."""
        kind = self.chance.choice(list(ASKED)) if self.chance.random() < 0.9 else self.value(depth)
        label, mark = self.chance.choice("klm"), self.chance.choice(["", "", "", "!", "?"])
        found = [f"{label}{mark}: {kind}"]
        for _ in range(self.chance.choice([1, 1, 2])):
            asked = self.chance.choice(ASKED.get(kind, ["F == 1", "F != _|_", "F"])).replace("F", label)
            first = f"{label} != _|_ if " if mark == "?" and self.chance.random() < 0.95 else ""
            found.append(f"if {first}{asked} {self.struct(depth)}")
        if self.chance.random() < 0.1:
            found.append(f"{self.chance.choice('klm')}{self.chance.choice(['', '?'])}: {self.value(depth)}")
        return found

    def in_parts(self, depth: int) -> list[str]:
        """Declarations of one label, which are put together where nothing in them is shut."""
        label = self.chance.choice("abc")
        marks = [self.chance.choice(["", "", "?", "!"]) for _ in range(self.chance.randint(2, 3))]
        return [f"{json.dumps(label) if self.chance.random() < 0.2 else label}{mark}: {self.struct(depth)}" for mark in marks]

    def declaration(self, depth: int) -> str:
        return self.embedded(depth - 1) if self.chance.random() < self.embedded_share else self.field(depth)

    def joined(self, depth: int) -> str:
        """Literals and disjunctions of literals, joined by `&`."""
        operands = [self.struct(depth) for _ in range(self.chance.randint(2, 3))]
        if self.chance.random() < 0.3:
            operands.append(f"({self.struct(depth)} | {self.struct(depth)})")
        return " & ".join(operands)

    def embedded(self, depth: int) -> str:
        """A definition, a literal, a disjunction or parentheses; a few that can't be embedded."""
        form = self.chance.random()
        if depth <= 0 or form < 0.45:
            return self.narrowing() if form > 0.4 else self.name()
        if form < 0.67:
            return self.struct(depth)
        if form < 0.89:
            return " | ".join(self.embedded(depth - 1) for _ in range(self.chance.randint(2, 3)))
        if form < 0.94:
            return f"({self.embedded(depth - 1)})"
        if form < 0.97:
            return self.joined(depth - 1)
        if form < 0.98:
            return f"{self.name()} & {self.struct(depth)}"
        if form < 0.995:
            return self.narrowing()
        return self.chance.choice([f"*{{}} | {self.struct(depth)}", "int", '"x"', "[...int]", f"{self.struct(depth)} | 1"])

    def narrowing(self) -> str:
        """A definition and a literal that narrows it, where it has the labels."""
        fields = [f"{label}{self.chance.choice(['', '', '?', '!'])}: {self.chance.choice(ATOMS)}" for label in self.chance.choice(["a", "b", "ab", "ac"])]
        operands = [self.name(), "{" + ", ".join(fields) + "}"]
        self.chance.shuffle(operands)
        return " & ".join(operands)

    def base(self) -> str:
        """A closed literal of plain values, which may be narrowed."""
        return "{" + ", ".join(f"{label}: {self.chance.choice(ATOMS)}" for label in "abc") + "}"

    def field(self, depth: int) -> str:
        label = self.chance.choice("abcdef" if self.has_embeddings else LABELS)
        form = self.chance.random()
        if form < 0.06:
            return f"[string]: {self.value(depth - 1)}"
        # A name of a kind that is a label, which names that field where it isn't quoted.
        label = "int" if form < 0.07 else json.dumps(label) if form < 0.2 else label
        return f"{label}{self.chance.choice(['', '', '', '?', '!'])}: {self.field(depth) if form > 0.95 else self.value(depth - 1)}"

    def listing(self, depth: int) -> str:
        front = [self.value(depth - 1) for _ in range(self.chance.randint(0, 2))]
        each = self.value(depth - 1)
        # The model writes `..._` as `...`, which has another schema.
        end = self.chance.choice(["", "...", "..." + each * (each.strip("()") != "_")])
        return f"[{', '.join(front + [end] * bool(end))}]"

    def body(self, name: str) -> str:
        """The body of a definition: where there are embeddings most are literals and disjunctions of such."""
        form = self.chance.random()
        if self.has_embeddings:
            one = self.struct(3) if name == "#P" or form < 0.8 else f"{self.struct(2)} | {self.struct(2)}"
            if form < 0.15:
                return self.value(3) if form < 0.05 else self.joined(2)
            return self.base() if name != "#P" and form < 0.3 else one
        return self.value(3) if form < 0.3 else self.struct(3) if name == "#P" else self.disjunction(3)

    def further_body(self, name: str) -> str:
        """One of several bodies: those of a file are put together where nothing in them is shut, and those of several have to be opened."""
        form = self.chance.random()
        if form < 0.2:
            return self.body(name)
        if form < 0.5:
            return "{" + f"{self.chance.choice(LABELS)}?: {self.chance.choice(ATOMS)}, ..." + "}"
        share, self.embedded_share = self.embedded_share, self.chance.choice([0, 0, self.embedded_share])
        found = self.struct(2) if form < 0.85 else f"{self.struct(2)} | {self.struct(2)}"
        self.embedded_share = share
        return found


def files_of(chance: random.Random, lines: list[str]) -> list[str]:
    """The files of declarations: one of all, one for each, or two."""
    form = chance.random()
    if form < 0.2:
        return lines
    place = chance.randint(1, len(lines)) if form < 0.3 else len(lines)
    return ["".join(it) for it in (lines[:place], lines[place:]) if it]


def sources_of(chance: random.Random) -> list[str]:
    """The files of a random package. A definition refers to those behind it most of the time, and most have one body; a further one may
    stand behind other definitions. Every third package has no embeddings."""
    has_embeddings = chance.random() < 0.67
    names = ["#P", "#A", "#B", "#C"][: chance.randint(1 + has_embeddings, 4)]
    lines, last = [], []
    for place, name in enumerate(names):
        behind = names[place + 1 :]
        sources = Sources(chance, (behind if chance.random() < 0.96 else names) or ["int"], has_embeddings)
        # Nothing stands behind the last one that it could embed.
        sources.embedded_share = sources.embedded_share if behind or chance.random() < 0.05 else 0
        bodies = [sources.body(name)]
        if chance.random() < 0.12:
            bodies = [sources.further_body(name) for _ in range(chance.choice([2, 2, 3]))]
        near = chance.randint(1, len(bodies))
        lines += [f"{name}: {it}\n" for it in bodies[:near]]
        last += [f"{name}: {it}\n" for it in bodies[near:]]
    return files_of(chance, lines + last)


class Reading(WideReader):
    """The reader, which goes on behind a mark that is refused: what is embedded is looked at before marks are."""

    def __init__(self, source: str) -> None:
        self.has_wrong_mark = False
        super().__init__(source)

    def refuse_mark(self, why: str) -> None:
        self.has_wrong_mark = True


class Asked(Conditions):
    """The model, which goes on behind a condition that is refused."""

    def __init__(self, package: Package) -> None:
        self.numbers: set[int] = set()
        super().__init__(package)

    def choice(self, literal: tuple, conditions: list[tuple], then: tuple, present: frozenset) -> tuple:
        try:
            return super().choice(literal, conditions, then, present)
        except Refused as why:
            self.numbers.add(why.number)
            return then


# So many values of a label, or bodies in a file, are joined at most.
MOST_GATHERED = 64


class Taken(Widening):
    """The model, which leaves what can't be joined as it is: whether literals are opened, and which names name fields, is asked of the package
    that is meant."""

    def conjunction(self, operands: list[tuple], copied: frozenset) -> tuple:
        if self.is_taken(operands, copied):
            return self.joined([(it, copied) for it in operands], [self.stands_for(it, copied) if is_plain(it) else it for it in operands])
        return ("and", [self.stands_for(it, copied) for it in operands])

    def of_name(self, name: str, copied: frozenset, before: Alternative, reaching: tuple, brought: tuple) -> list[Alternative] | None:
        """A name that isn't declared is at fault where it is embedded, and behind a definition it brings nothing, and is found later."""
        return [before] if reaching and name not in self.package else super().of_name(name, copied, before, reaching, brought)

    def together(self, same: list[Declaration]) -> tuple | None:
        values = [it.value for it in same]
        if len(values) <= MOST_GATHERED and self.is_taken(values, frozenset().union(*(it.copied for it in same))):
            return self.joined([(it.value, it.copied) for it in same], [])
        return None

    def of_definition(self, bodies: list[tuple]) -> Iterator[tuple]:
        """What the bodies of a definition stand for: they are put together as the values of a label are."""
        held = [it for it in bodies if not is_plain(it)]
        if len(held) > MOST_GATHERED or not self.is_taken(bodies, frozenset()):
            yield from (self.stands_for(it) for it in bodies)
            return
        is_met = False
        for body in bodies:
            if is_plain(body):
                yield self.stands_for(body)
            elif not is_met:
                is_met = True
                yield self.joined([(it, frozenset()) for it in held], [])

    def is_taken(self, operands: list[tuple], copied: frozenset) -> bool:
        """The program joins operands of `&`, values of a label and bodies of a definition, all that aren't plain."""
        held = [it for it in operands if not is_plain(it)]
        is_taken = asks_joining(operands) and not any(is_shut(it) for it in held)
        return is_taken and all(self.alternatives(it, copied, Alternative((), False, frozenset()), (), False) is not None for it in held)

    def refuse_names(self, one: Alternative) -> None:
        pass


def references(it: tuple) -> set[str]:
    """The definitions that an expression refers to."""
    return {it[1]} if it[0] == "ref" else set().union(*(references(part) for part in parts(it)))


def size(it: tuple) -> int:
    """The nodes of an expression; a mark is none."""
    return (it[0] != "marked") + sum(size(part) for part in parts(it))


@dataclass
class Meaning:
    """What the model says of a source: the numbers that it may be refused by, or the package that is meant, which says why."""

    numbers: set[int] = field(default_factory=set)
    package: Package = field(default_factory=dict)


def meaning_of(sources: list[str]) -> Meaning:
    """What files mean, by the order of the program's conditions: what is asked, what is embedded, then marks, then the package that is meant."""
    readers = [Reading(source) for source in sources]
    files = [reader.package() for reader in readers]
    asked = Asked(together(files))
    package = asked.whole()
    if asked.numbers:
        return Meaning(asked.numbers)
    taken = Taken(package)
    meaning, meant = Meaning(), {name: [] for name in package}
    for name, bodies in package.items():
        try:
            meant[name] += taken.of_definition(bodies)
        except Refused as why:
            meaning.numbers.add(why.number)
    if sum(size(body) for bodies in meant.values() for body in bodies) > MOST_NODES:
        meaning.numbers.add(14)
    if meaning.numbers:
        named = set().union(*(references(body) for bodies in package.values() for body in bodies))
        # The program tells the first one by text, and a name that isn't declared where it is embedded itself.
        meaning.numbers |= set() if named <= package.keys() else {9, 11}
        return meaning
    return with_marks_taken(any(reader.has_wrong_mark for reader in readers), taken, meaning, meant)


def with_marks_taken(has_wrong_mark: bool, taken: Taken, meaning: Meaning, meant: Package) -> Meaning:
    for name, bodies in meant.items():
        try:
            meaning.package[name] = [taken.unmarked(body, True) for body in bodies]
        except Refused as why:
            meaning.numbers.add(why.number)
    if has_wrong_mark:
        meaning.numbers.add(5)
    return meaning


def as_written(package: Package) -> str:
    """A source of the package whose labels are bare where they were, so that names name the same fields."""

    def labelled(label: str) -> str:
        return json.dumps(label) if isinstance(label, Quoted) else label

    return "".join(f"{name}: {text(body, labelled)}\n" for name, bodies in package.items() for body in bodies)


def near(chance: random.Random, package: Package, it: tuple, depth: int):
    """A document that often is an instance of an expression."""
    if depth <= 0 or chance.random() < 0.06:
        return document(chance, 1)
    if it[0] == "or":
        return near(chance, package, chance.choice(it[1]), depth)
    if it[0] in ("and", "ref"):
        found = [near(chance, package, part, depth - 1) for part in (it[1] if it[0] == "and" else package.get(it[1], [("top",)]))]
        return {label: inner for part in found for label, inner in part.items()} if all(isinstance(part, dict) for part in found) else found[0]
    if it[0] == "struct":
        fields = [(label, value) for label, mark, value in it[1] if mark != "[string]" and chance.random() < (0.5 if mark == "?" else 0.97)]
        return {str(label): near(chance, package, value, depth - 1) for label, value in fields}
    if it[0] == "list":
        return [near(chance, package, part, depth - 1) for part in it[1]]
    if it[0] == "kind":
        return {"string": "x", "bool": True}.get(it[1], 1)
    return it[1] if it[0] == "value" else document(chance, 1)


class Tried:
    """A program, with the files of a package."""

    def __init__(self, program: str, room: Path) -> None:
        self.program, self.room = program, room

    def run(self, words: list[str], sources: list[str], given: str = "") -> tuple[str, str]:
        """What it prints of sources, and the refusal that it says."""
        names = [f"{number}.cue" for number in range(1, len(sources) + 1)]
        for name, source in zip(names, sources, strict=True):
            (self.room / name).write_text(source)
        words = [self.program, *words, "--", *names]
        ran = subprocess.run(words, cwd=self.room, input=given, capture_output=True, encoding="utf-8", timeout=60)
        return ran.stdout, " ".join(ran.stderr.split()[:2])

    def widen(self, sources: list[str]) -> tuple[str, str]:
        return self.run(["widen", "--profile", "wide"], sources)

    def faults(self, chance: random.Random, sources: list[str]) -> Iterator[str]:
        """How the package is answered, and then what differs."""
        printed, refusal = self.widen(sources)
        meaning = meaning_of(sources)
        wanted = {f"error {it}" for it in meaning.numbers} or {self.run(["widen"], [as_written(meaning.package)])[1]}
        yield refusal or "accepted"
        said = f"the program says {refusal!r} {printed}"
        if refusal not in wanted:
            yield f"wanted {sorted(wanted)} {as_written(meaning.package)}and {said}"
        if is_refused(sources) and not refusal:
            yield f"is refused by the model, and {said}"
        if refusal:
            yield from self.other_first(sources, refusal)
        elif not wanted - {""}:
            yield from self.differences(chance, sources, printed, meaning.package)

    def other_first(self, sources: list[str], refusal: str) -> Iterator[str]:
        """What `check` tells first, where that is another refusal."""
        told = self.run(["check", "--profile", "wide"], sources)[0].partition("\n")[0]
        if f"{refusal}:" not in told:
            yield f"is refused by {refusal}, and `check` tells first {told!r}"

    def differences(self, chance: random.Random, sources: list[str], printed: str, meant: Package) -> Iterator[str]:
        if parsed(printed) != parsed(spelled(meant)):
            yield f"means {spelled(meant)}and is written as {printed}"
        schemas, wanted = self.run(["export", "--all", "--profile", "wide"], sources), self.run(["export", "--all"], [as_written(meant)])
        if schemas != wanted:
            yield f"means {spelled(meant)}and is exported as {schemas}, in place of {wanted}"
        docs = [document(chance, 3) if number % 2 else near(chance, meant, ("ref", "#P"), 6) for number in range(DOCUMENTS)]
        try:
            yield from self.misjudged(sources, [(it, "valid" if is_instance(meant, "#P", it) else "invalid") for it in docs])
        except RecursionError:
            yield f"means {spelled(meant)}which the model can't judge by"

    def misjudged(self, sources: list[str], docs: list[tuple[object, str]]) -> Iterator[str]:
        """The documents that get another verdict than they should."""
        lines = "".join(json.dumps(doc) + "\n" for doc, _wanted in docs)
        verdicts = self.run(["vet", "--profile", "wide", "--root", "#P", "--lines"], sources, lines)[0].split()
        for (doc, wanted), verdict in zip(docs, verdicts, strict=True):
            if verdict != wanted:
                yield f"{json.dumps(doc)} is {wanted}, and the program says {verdict}"

    def faults_of_row(self, row: Row) -> Iterator[str]:
        """How the program differs from a row."""
        printed, refusal = self.widen([row.source])
        is_named = has_names(row.source)
        if refusal != row.refused() and not (is_named and refusal == NOT_OPENED):
            yield f"wanted {row.refusal()!r}, and the program says {refusal!r} {printed}"
        elif not refusal:
            if row.is_told_alike() and row.differs(parsed(printed)):
                yield f"is written as {printed}"
            yield from self.misjudged([row.source], row.documents)

    def faults_of_names(self, chance: random.Random, source: str) -> Iterator[str]:
        """How a package with names is answered, and then what differs."""
        printed, refusal = self.widen([source])
        yield refusal or "accepted"
        if refusal:
            yield from self.other_first([source], refusal)
            return
        try:
            widened(source)
        except Refused as why:
            # What the model can't put in the place of a name may well have a definition.
            if why.number == 9 or (why.number == 5 and "mark" not in str(why)):
                yield f"is refused by the model, {why}, and the program means {printed}"
        meant = parsed(printed)
        reading = NamedReading(WideReader(source).package())
        docs: list[object] = [{}]
        for number in range(DOCUMENTS):
            docs.append(mutated(chance, docs[-1]) if number % 3 else near(chance, meant, ("ref", "#P"), 9))
        try:
            yield from self.misjudged([source], [(it, "valid" if reading.is_named("#P", it) else "invalid") for it in docs])
        except RecursionError:
            yield f"can't be judged, and the program means {printed}"


def is_refused(sources: list[str]) -> bool:
    """Whether the model as it stands refuses the files."""
    try:
        widened(*sources)
    except Refused:
        return True
    return False


def try_program(given: tuple[str, int]) -> tuple[str, list[str]]:
    """How the random package of a seed is answered, and what differs."""
    program, seed = given
    chance = random.Random(seed)
    sources = sources_of(chance)
    with tempfile.TemporaryDirectory() as room:
        answer, *faults = Tried(program, Path(room)).faults(chance, sources)
    return answer, [f"seed {seed}: {'% '.join(sources)}{it}" for it in faults]


def try_names_of_program(given: tuple[str, int]) -> tuple[str, list[str]]:
    """How the random package of a seed with names is answered, and what differs."""
    program, seed = given
    chance = random.Random(seed)
    source = NamedSources(chance).package()
    with tempfile.TemporaryDirectory() as room:
        answer, *faults = Tried(program, Path(room)).faults_of_names(chance, source)
    return answer, [f"seed {seed}: {source}\n{it}" for it in faults]


def try_rows(program: str) -> list[list[str]]:
    """What differs of each row."""
    with tempfile.TemporaryDirectory() as room:
        tried = Tried(program, Path(room))
        return [[f"{row}: {it}" for it in tried.faults_of_row(row)] for row in all_rows()]


def on_program(words: argparse.Namespace) -> int:
    program = str(words.program.resolve())
    seeds = range(words.seed, words.seed + words.random)
    named_seeds = range(words.seed, words.seed + words.random_names)
    of_rows = try_rows(program)
    with ThreadPoolExecutor(int(os.environ.get("JOBS") or len(os.sched_getaffinity(0)))) as pool:
        answers = list(pool.map(try_program, [(program, it) for it in seeds]))
        of_names = list(pool.map(try_names_of_program, [(program, it) for it in named_seeds]))
    faults = [*of_rows, *(it for _answer, it in [*answers, *of_names])]
    for it in (it for some in faults for it in some):
        print(it)
    print(f"{len(of_rows)} rows")
    for told in (Counter(answer for answer, _faults in answers), Counter(answer for answer, _faults in of_names)):
        print(", ".join(f"{many} {said}" for said, many in told.most_common()))
    failed = sum(bool(it) for it in faults)
    print(f"{len(faults) - failed} passed, {failed} failed")
    return 1 if failed or not answers else 0


def main(words: argparse.Namespace) -> int:
    if words.program:
        return on_program(words)
    passed = failed = refused = 0
    for row in all_rows():
        faults = list(faults_of_row(row))
        passed, failed = passed + (not faults), failed + bool(faults)
        for it in faults:
            print(f"{row}: {it}")
    for seed in range(words.seed, words.seed + words.random):
        chance = random.Random(seed)
        fault = fault_of_package(chance, package_of(chance))
        passed, refused, failed = passed + (fault is None), refused + (fault == ""), failed + bool(fault)
        if fault:
            print(f"seed {seed}: {fault}")
    print(f"{refused} random packages are refused")
    named_passed, named_failed = try_names(range(words.seed, words.seed + words.random_names))
    passed, failed = passed + named_passed, failed + named_failed
    print(f"{passed} passed, {failed} failed")
    return 1 if failed or not passed else 0


if __name__ == "__main__":
    parser = argparse.ArgumentParser(description=__doc__, formatter_class=argparse.RawDescriptionHelpFormatter)
    parser.add_argument("--random", type=int, default=200)
    parser.add_argument("--random-names", type=int, default=200)
    parser.add_argument("--seed", type=int, default=1)
    parser.add_argument("--program", type=Path)
    sys.exit(main(parser.parse_args()))
