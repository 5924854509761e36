"""Reads sources of the wide profile, the ordinary CUE that tools/widening.py is a model of, and refuses by a number what isn't of it.

Beside the forms of tools/profile_of_cue.py an expression is `marked IT` (the default of its disjunction), `close IT`, `name N` for a name that
is no reference to a definition, and `selector IT LABEL`. A declaration of a literal has as its mark also `embed` (an embedded expression),
`named` (a nested definition or a hidden field, which is no data), `let`, and `if`, whose label is the list of its conditions and whose value
is a literal. A condition is `(field, what is asked, scalar)`; what is asked is `==`, `!=`, `<` and its like, `is` for a
truth value without an operator, or `present` and `absent`, with no scalar. At the top a `let` of a file has the key `let NAME`.
"""
from __future__ import annotations

import json
import re
import sys
from pathlib import Path

sys.path.insert(0, str(Path(__file__).resolve().parent))
from profile_of_cue import RANGES, Package, Reader  # noqa: E402

ATTRIBUTE = re.compile(r"@[A-Za-z_]\w*\(")
WIDE_TOKEN = re.compile(
    r'\s+|//[^\n]*|("(?:[^"\\]|\\.)*"|_\|_|_?#?[A-Za-z_][A-Za-z_0-9]*\b|-?\d+|\.\.\.|<=|>=|!=|==|[_<>&|{}\[\]():,?!;*.=])'
)
IDENTIFIER = re.compile(r"_?#?[A-Za-z_]\w*")
FLOAT = re.compile(r"\d+\.\d")
RELATIONS = ("<", "<=", ">", ">=")
RESERVED = ("for", "if", "let")


class Refused(Exception):
    """The number by which a package is refused, and why."""

    def __init__(self, number: int, why: str) -> None:
        super().__init__(f"error {number}: {why}")
        self.number = number


class Quoted(str):
    """A label in quotes, which no name refers to."""


class WideReader(Reader):
    """Reads a source of the wide profile. Of an operand `(`marked`, it)` says that it is the default, `(`close`, it)` that it is closed;
    a field with the mark `embed` is an embedded expression."""

    @staticmethod
    def tokens_of(source: str) -> list[str]:
        tokens: list[str] = []
        place = 0
        while place < len(source):
            attribute = ATTRIBUTE.match(source, place)
            if attribute:
                place = end_of_attribute(source, attribute.end())
                tokens.append("@")
                continue
            if FLOAT.match(source, place):
                raise Refused(3, "a number with a fraction")
            found = WIDE_TOKEN.match(source, place)
            if not found:
                raise ValueError(f"no token: {source[place:place + 20]!r}")
            place = found.end()
            if re.match(r'"(?:[^"\\]|\\[^(])*\\\(', found.group(1) or ""):
                raise Refused(3, "a text with an expression in it")
            if found.group(1):
                tokens.append(found.group(1))
            elif "\n" in found.group(0) and tokens and re.match(r'["#\w\])}@-]|\.\.\.', tokens[-1]):
                tokens.append(",")
        return [*tokens, ""]

    def alternatives(self) -> tuple:
        operands = [self.marked()]
        while self.skips("|"):
            operands.append(self.marked())
        if len(operands) == 1:
            if operands[0][0] == "marked":
                self.refuse_mark("a mark outside of a disjunction")
            return operands[0]
        if sum(it[0] == "marked" for it in operands) > 1:
            self.refuse_mark("two defaults in one disjunction")
        return ("or", operands)

    def marked(self) -> tuple:
        if not self.skips("*"):
            return self.conjunction()
        operand = self.conjunction()
        if not is_default_literal(operand):
            self.refuse_mark("a default that is no literal")
        return ("marked", operand)

    def refuse_mark(self, why: str) -> None:
        raise Refused(5, why)

    def operand(self) -> tuple:
        found = self.operand_alone()
        if self.peek() == ".":
            raise Refused(5, "a selector from what is no name")
        return found

    def operand_alone(self) -> tuple:
        if self.peek() == "close" and self.peek(1) == "(":
            self.take()
            self.take()
            closed = self.alternatives()
            self.skips(",")
            self.take(")")
            return ("close", closed)
        if self.peek() == "(":
            self.take()
            kept = self.alternatives()
            self.skips(",")
            self.take(")")
            return kept
        if IDENTIFIER.fullmatch(self.peek()) and self.peek() not in ("_", "true", "false", "null"):
            return self.selectors(self.name())
        return super().operand()

    def name(self) -> tuple:
        if self.peek() in RANGES or self.peek() in ("string", "bool") or self.peek().startswith("#"):
            return super().operand()
        return ("name", self.take())

    def selectors(self, it: tuple) -> tuple:
        """An operand with the labels that are selected from it, one from the other."""
        while self.skips("."):
            token = self.take()
            it = ("selector", it, Quoted(json.loads(token)) if token.startswith('"') else token)
        return it

    def struct(self) -> tuple:
        fields: list[tuple] = []
        opened = False
        while not self.skips("}"):
            if self.skips(",", ";", "@"):
                continue
            if self.skips("..."):
                opened = True
                continue
            fields.append(self.declaration())
            while self.skips("@"):
                pass
        return ("struct", fields, opened)

    def declaration(self) -> tuple:
        if self.begins_field():
            return self.field()
        if self.peek() == "let" and self.peek(2) == "=":
            return self.let()
        if self.peek() == "if":
            return self.conditional()
        if self.peek() == "for":
            raise Refused(4, "`for`")
        return ("", "embed", self.alternatives())

    def begins_field(self) -> bool:
        if self.peek() == "[":
            return self.peek(1) == "string" and self.peek(2) == "]" and self.peek(3) == ":"
        return bool(re.match(r'[A-Za-z_"#]', self.peek())) and (self.peek(1) == ":" or self.peek(1) in ("?", "!") and self.peek(2) == ":")

    def field_value(self) -> tuple:
        return ("struct", [self.field()], False) if self.begins_field() else self.alternatives()

    def let(self) -> tuple:
        self.take("let")
        name = self.take()
        if not IDENTIFIER.fullmatch(name):
            raise Refused(5, "a let that isn't an identifier")
        self.take("=")
        return (name, "let", self.alternatives())

    def conditional(self) -> tuple:
        conditions: list[tuple] = []
        while self.skips("if"):
            asked: list[str] = []
            while self.peek() not in ("{", "if", ""):
                asked.append(self.take())
            conditions.append(condition_of(asked))
        self.take("{")
        return (tuple(conditions), "if", self.struct())

    def field(self) -> tuple:
        is_quoted = self.peek().startswith('"')
        label, mark, value = super().field()
        while self.skips("@"):
            pass
        if label[:1] in ("#", "_") and not is_quoted:
            return self.named(label, mark, value)
        return (Quoted(label) if is_quoted else label, mark, value)

    @staticmethod
    def named(label: str, mark: str, value: tuple) -> tuple:
        """A nested definition or a hidden field, which can't be optional or required."""
        if mark:
            raise Refused(5, "a hidden field or a definition that may be absent")
        return (label, "named", value)

    def package(self) -> Package:
        package: Package = {}
        while self.peek():
            if self.skips(",", ";", "@"):
                continue
            if self.skips("package"):
                self.take()
                continue
            if self.peek() == "let" and self.peek(2) == "=":
                name, _mark, value = self.let()
                package.setdefault(f"let {name}", []).append(value)
                continue
            name = self.take()
            if name == "_" or not IDENTIFIER.fullmatch(name) or self.peek() != ":":
                raise Refused(5, "a declaration of a file that no name stands for")
            self.take(":")
            package.setdefault(name, []).append(self.field_value())
        return package


def condition_of(asked: list[str]) -> tuple:
    """What is asked of a field of the literal: the field, an operator, and a scalar."""
    left = [*asked, ""]
    is_denied = left[0] == "!"
    label = left.pop(is_denied)
    if not is_label(label):
        raise misplaced(label, "what is no label of a field")
    if is_denied or len(left) == 1:
        expect_end(left[is_denied:])
        return (label, "is", not is_denied)
    operator = left.pop(0)
    if operator not in ("==", "!=", *RELATIONS):
        raise misplaced(operator, "what is no comparison")
    token = left.pop(0)
    expect_scalar(operator, token)
    expect_end(left)
    if token == "_|_":
        return (label, "absent" if operator == "==" else "present", None)
    return (label, operator, json.loads(token))


def expect_scalar(operator: str, token: str) -> None:
    """Refuses what no condition compares with: by `<` and its like integers alone are."""
    is_number = bool(re.fullmatch(r"-?\d+", token))
    if not is_number and (operator in RELATIONS or not token.startswith('"') and token not in ("true", "false", "null", "_|_")):
        raise misplaced(token, "what is no scalar, or a bound that is no integer")


def expect_end(left: list[str]) -> None:
    if left[0]:
        raise misplaced(left[0], "more than one field and a scalar")


def misplaced(token: str, why: str) -> Refused:
    """A token out of place is refused by 5 where other forms alone have it, as a selector or a hidden name has."""
    is_left_out = token in (".", "=", "*", *RESERVED) or bool(re.match(r"_[A-Za-z_#]", token))
    return Refused(5 if is_left_out else 4, f"a condition with {why}")


def is_label(token: str) -> bool:
    return bool(re.fullmatch(r"[A-Za-z]\w*", token)) and token not in ("true", "false", "null", *RESERVED)


def end_of_attribute(source: str, place: int) -> int:
    """Behind the parenthesis that closes an attribute; those in its texts don't count."""
    depth = 1
    while depth:
        found = re.compile(r'"(?:[^"\\]|\\.)*"|.', re.S).match(source, place)
        if not found:
            raise Refused(3, "an attribute without an end")
        depth += {"(": 1, ")": -1}.get(found.group(0), 0)
        place = found.end()
    return place


def is_default_literal(it: tuple) -> bool:
    if it[0] == "list":
        return it[2] is None and all(is_default_literal(part) for part in it[1])
    return it[0] == "value" or it == ("struct", [], False)
