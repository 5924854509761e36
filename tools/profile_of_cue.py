"""Packages of the part of CUE that docs/PROFILE.md describes: read from sources, written again, and judged by the meaning that the table
there gives each form. It shares nothing with the program, so that `questions.py` can compare both. It refuses nothing that the program
takes, and takes more: what is refused is asked of the program.

An expression is a tuple that begins with its form: `top`, `bottom`, `kind NAME`, `value V`, `not V`, `bound OP N`, `and [..]`, `or [..]`,
`ref NAME`, `struct [(label, mark, value)] opened`, where the mark `[string]` has no label, `list [..] END`, where END is nothing, or
what further elements are, and of the wide profile `length FORM N` (see tools/lengths.py).
"""
from __future__ import annotations

import json
import re
from collections.abc import Callable

Package = dict[str, list[tuple]]

RANGES = {
    "int": (-(2**63), 2**63 - 1),
    "number": (-(2**63), 2**63 - 1),
    "uint": (0, 2**63 - 1),
    "int64": (-(2**63), 2**63 - 1),
    **{f"int{bits}": (-(2 ** (bits - 1)), 2 ** (bits - 1) - 1) for bits in (8, 16, 32)},
    **{f"uint{bits}": (0, 2**bits - 1) for bits in (8, 16, 32)},
}
# The forms of lengths: what they are about, and how its length stands to the number.
LENGTHS = {
    "strings.MinRunes": (str, ">="),
    "strings.MaxRunes": (str, "<="),
    "list.MinItems": (list, ">="),
    "list.MaxItems": (list, "<="),
    "struct.MinFields": (dict, ">="),
    "struct.MaxFields": (dict, "<="),
}
TOKEN = re.compile(r'\s+|//[^\n]*|("(?:[^"\\]|\\.)*"|_\|_|#?[A-Za-z_][A-Za-z_0-9]*\b|-?\d+|\.\.\.|<=|>=|!=|[_<>&|{}\[\]():,?!;])')


class Reader:
    """Reads a source. A newline ends a declaration as a comma does, unless a value goes on behind it."""

    def __init__(self, source: str) -> None:
        self.tokens = self.tokens_of(source)
        self.place = 0

    @staticmethod
    def tokens_of(source: str) -> list[str]:
        tokens: list[str] = []
        place = 0
        while place < len(source):
            found = TOKEN.match(source, place)
            if not found:
                raise ValueError(f"no token: {source[place:place + 20]!r}")
            place = found.end()
            if found.group(1):
                tokens.append(found.group(1))
            elif "\n" in found.group(0) and tokens and re.match(r'["#\w\])}-]|\.\.\.', tokens[-1]):
                tokens.append(",")
        return [*tokens, ""]

    def peek(self, ahead: int = 0) -> str:
        return self.tokens[min(self.place + ahead, len(self.tokens) - 1)]

    def take(self, wanted: str | None = None) -> str:
        token = self.peek()
        if wanted is not None and token != wanted:
            raise ValueError(f"{wanted!r} and not {token!r}")
        self.place += 1
        return token

    def skips(self, *tokens: str) -> bool:
        if self.peek() in tokens:
            self.place += 1
            return True
        return False

    def package(self) -> Package:
        package: Package = {}
        while self.peek():
            if self.skips(",", ";"):
                continue
            if self.skips("package"):
                self.take()
                continue
            name = self.take()
            self.take(":")
            package.setdefault(name, []).append(self.field_value())
        return package

    def alternatives(self) -> tuple:
        operands = [self.conjunction()]
        while self.skips("|"):
            operands.append(self.conjunction())
        return operands[0] if len(operands) == 1 else ("or", operands)

    def conjunction(self) -> tuple:
        operands = [self.operand()]
        while self.skips("&"):
            operands.append(self.operand())
        return operands[0] if len(operands) == 1 else ("and", operands)

    def operand(self) -> tuple:
        token = self.take()
        if token == "(":
            inner = self.alternatives()
            self.take(")")
            return inner
        if token == "{":
            return self.struct()
        if token == "[":
            return self.listing()
        if token == "!=":
            return ("not", self.literal(self.take()))
        if token in ("<", "<=", ">", ">="):
            return ("bound", token, int(self.take()))
        if token == "_":
            return ("top",)
        if token == "_|_":
            return ("bottom",)
        if token.startswith("#"):
            return ("ref", token)
        if token in RANGES or token in ("string", "bool"):
            return ("kind", token)
        return ("value", self.literal(token))

    @staticmethod
    def literal(token: str):
        return json.loads(token)

    def struct(self) -> tuple:
        fields: list[tuple] = []
        opened = False
        while not self.skips("}"):
            if self.skips(",", ";"):
                continue
            if self.skips("..."):
                opened = True
                continue
            fields.append(self.field())
        return ("struct", fields, opened)

    def field(self) -> tuple:
        if self.skips("["):
            self.take("string")
            self.take("]")
            self.take(":")
            return ("", "[string]", self.field_value())
        token = self.take()
        label = json.loads(token) if token.startswith('"') else token
        mark = self.take() if self.peek() in ("?", "!") else ""
        self.take(":")
        return (label, mark, self.field_value())

    def field_value(self) -> tuple:
        """The value, or a struct of one field where another label follows."""
        if self.peek() == "[" and self.peek(1) == "string" and self.peek(2) == "]" and self.peek(3) == ":":
            return ("struct", [self.field()], False)
        if re.match(r'[A-Za-z_"]', self.peek()) and (self.peek(1) == ":" or self.peek(1) in ("?", "!") and self.peek(2) == ":"):
            return ("struct", [self.field()], False)
        return self.alternatives()

    def listing(self) -> tuple:
        front: list[tuple] = []
        end = None
        while not self.skips("]"):
            if self.skips(",", ";"):
                continue
            if self.skips("..."):
                end = ("top",) if self.peek() in ("]", ",") else self.alternatives()
                continue
            front.append(self.alternatives())
        return ("list", front, end)


def parsed(source: str) -> Package:
    return Reader(source).package()


def spelled(package: Package) -> str:
    """A source of the package in one line, whose `;` stand for newlines."""
    return ";".join(f"{name}: {text(body)}" for name, bodies in package.items() for body in bodies)


def text(it: tuple, labelled: Callable[[str], str] = json.dumps) -> str:
    """A source of the expression, with labels as `labelled` writes them; what is in `close` is of the wide profile."""
    form = it[0]
    if form in ("and", "or"):
        mark = " & " if form == "and" else " | "
        return mark.join(f"({text(part, labelled)})" if part[0] in ("and", "or") else text(part, labelled) for part in it[1])
    if form == "struct":
        fields = [text_of_field(*declared, labelled) for declared in it[1]]
        return "{" + ", ".join(fields + ["..."] * it[2]) + "}"
    if form == "list":
        end = [] if it[2] is None else ["..."] if it[2] == ("top",) else [f"...{text(it[2], labelled)}"]
        return "[" + ", ".join([text(part, labelled) for part in it[1]] + end) + "]"
    if form in ("value", "not"):
        return ("!=" if form == "not" else "") + json.dumps(it[1])
    if form == "bound":
        return f"{it[1]}{it[2]}"
    if form == "close":
        return f"close({text(it[1], labelled)})"
    if form == "length":
        return f"{it[1]}({it[2]})"
    return {"top": "_", "bottom": "_|_"}.get(form) or it[1]


def text_of_field(label: str, mark: str, value: tuple, labelled: Callable[[str], str]) -> str:
    """A source of a declaration; one with the mark `embed` is an embedded expression."""
    front = "" if mark == "embed" else "[string]: " if mark == "[string]" else f"{labelled(label)}{mark}: "
    return front + text(value, labelled)


def is_integer(doc) -> bool:
    return isinstance(doc, int) and not isinstance(doc, bool)


def is_value(value, doc) -> bool:
    return type(value) is type(doc) and value == doc


def is_within(doc: int, mark: str, limit: int) -> bool:
    return {"<": doc < limit, "<=": doc <= limit, ">": doc > limit, ">=": doc >= limit}[mark]


def admits_kind(kind: str, doc) -> bool:
    if kind == "string":
        return isinstance(doc, str)
    if kind == "bool":
        return isinstance(doc, bool)
    least, greatest = RANGES[kind]
    return is_integer(doc) and least <= doc <= greatest


def excludes(value, doc) -> bool:
    """`!=null` admits all others, `!=n` other integers, `!="s"` other texts."""
    return doc is not None if value is None else type(doc) is type(value) and doc != value


def admits_struct(package: Package, fields: list[tuple], opened: bool, doc) -> bool:
    if not isinstance(doc, dict):
        return False
    has_every = any(mark == "[string]" for _label, mark, _value in fields)
    labels = {label for label, mark, _value in fields if mark != "[string]"}
    if not opened and not has_every and not doc.keys() <= labels:
        return False
    for label, mark, value in fields:
        if mark == "[string]":
            if not all(admits(package, value, inner) for inner in doc.values()):
                return False
        elif label in doc:
            if not admits(package, value, doc[label]):
                return False
        elif mark != "?":
            return False
    return True


def admits_list(package: Package, front: list[tuple], end: tuple | None, doc) -> bool:
    if not isinstance(doc, list) or len(doc) < len(front) or (end is None and len(doc) > len(front)):
        return False
    behind = doc[len(front) :]
    return all(admits(package, it, inner) for it, inner in zip(front, doc)) and all(admits(package, end, inner) for inner in behind)


def admits(package: Package, it: tuple, doc) -> bool:
    form = it[0]
    if form == "and":
        return all(admits(package, part, doc) for part in it[1])
    if form == "or":
        return any(admits(package, part, doc) for part in it[1])
    if form == "ref":
        return is_instance(package, it[1], doc)
    if form == "struct":
        return admits_struct(package, it[1], it[2], doc)
    if form == "list":
        return admits_list(package, it[1], it[2], doc)
    if form == "kind":
        return admits_kind(it[1], doc)
    if form == "bound":
        return is_integer(doc) and is_within(doc, it[1], it[2])
    if form == "value":
        return is_value(it[1], doc)
    if form == "not":
        return excludes(it[1], doc)
    if form == "length":
        kind, mark = LENGTHS[it[1]]
        return isinstance(doc, kind) and is_within(len(doc), mark, it[2])
    return form == "top"


def is_instance(package: Package, name: str, doc) -> bool:
    return all(admits(package, body, doc) for body in package[name])


def values_of(packages: list[Package]) -> tuple[list[str], list]:
    """The labels of packages, and the scalars that they compare with, their neighbours, and some others."""
    labels: set[str] = set()
    texts, integers = {"other"}, {0}

    def visit(it: tuple) -> None:
        if it[0] in ("value", "not") and isinstance(it[1], str):
            texts.add(it[1])
        elif it[0] in ("value", "not", "bound") and is_integer(it[-1]):
            integers.update((it[-1] - 1, it[-1], it[-1] + 1))
        elif it[0] == "kind" and it[1] in RANGES:
            integers.update(n for limit in RANGES[it[1]] for n in (limit - 1, limit, limit + 1))
        labels.update(field[0] for field in it[1] if field[1] != "[string]") if it[0] == "struct" else None
        for part in inner(it):
            visit(part)

    for package in packages:
        for body in (body for bodies in package.values() for body in bodies):
            visit(body)
    integers = {n for n in integers if -(2**63) <= n < 2**63}
    return sorted(labels), [None, False, True, *sorted(integers), *sorted(texts)]


def inner(it: tuple) -> list[tuple]:
    if it[0] in ("and", "or"):
        return it[1]
    if it[0] == "struct":
        return [field[2] for field in it[1]]
    if it[0] == "list":
        return it[1] + ([it[2]] if it[2] else [])
    return []
