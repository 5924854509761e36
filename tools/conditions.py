"""The conditions of the wide profile, for the model of tools/widening.py: `if C {..}` in a literal becomes an embedded expression.

C asks something of a field of the same literal: `f == v`, `f != v`, `f < n` and its like, `f`, `!f`, `f == _|_`, `f != _|_`, where f is an
identifier label, v a scalar and n an integer. Several may stand one behind the other.

- With Y the value that C asks of f, and N what is asked where it fails, a condition is the embedded `({f: Y} joined with the literal) |
  {f: N}`. Where another C follows, it stands with the literal inside of the first. For `f == v` N is "not v", any document but v: one
  alternative for the kind of v, without v, and the other kinds in the order of numbers, texts, truth values, `null`, lists, structs. What a
  declaration of f in the literal excludes by its kind is left out. For `f` and `!f` documents that are no truth value are in none.
- A field with a default may be missing in the alternative that has the default, and only there. For `f != _|_` f is there or not.
- Refused are: by 5 another label than such a one of the literal itself, a literal under the condition that declares f with a value that
  isn't plain or where f has a default, and a struct literal that f's value holds beside the `{...}` of "not v", which would open it; by 10 a
  field that may be absent, where C isn't about that and no `f != _|_` stands before it.
"""
from __future__ import annotations

import sys
from dataclasses import dataclass
from pathlib import Path

sys.path.insert(0, str(Path(__file__).resolve().parent))
from profile_of_cue import RANGES, Package, admits  # noqa: E402
from wide_forms import Made, is_plain, joined_by, parts, rebuilt  # noqa: E402
from wide_source import Quoted, Refused  # noqa: E402

# The kinds of documents, with all of a kind.
KINDS = {
    "number": ("kind", "number"),
    "string": ("kind", "string"),
    "bool": ("kind", "bool"),
    "null": ("value", None),
    "list": ("list", [], ("top",)),
    "struct": ("struct", [], True),
}
OPPOSITE = {"<": ">=", "<=": ">", ">": "<=", ">=": "<"}


def kind_of(value) -> str:
    if value is None:
        return "null"
    return "bool" if isinstance(value, bool) else "string" if isinstance(value, str) else "number"


@dataclass
class Asked:
    """A field that a condition asks of: the values that the literal declares for it, its default as a document in a list, and whether it is
    always there."""

    values: list[tuple]
    default: list
    is_always: bool


class Conditions:
    def __init__(self, package: Package) -> None:
        self.package = package

    def whole(self) -> Package:
        """The package without conditions. What names hold is changed with it."""
        for bodies in self.package.values():
            bodies[:] = [self.embedded(body) for body in bodies]
        return self.package

    def embedded(self, it: tuple) -> tuple:
        """The expression in which conditions are embedded expressions."""
        if it[0] != "struct":
            return rebuilt(it, self.embedded)
        fields: list[tuple] = []
        for label, mark, value in it[1]:
            if mark == "if":
                fields.append(("", "embed", self.choice(it, list(label), self.embedded(value), frozenset())))
            else:
                fields.append((label, mark, self.embedded(value)))
        return ("struct", fields, it[2])

    def choice(self, literal: tuple, conditions: list[tuple], then: tuple, present: frozenset) -> tuple:
        """What conditions stand for, of which some before said that a field is there."""
        label, asked, value = conditions[0]
        about = self.asked(literal, label)
        self.refuse_declared(then, label, about)
        if asked in ("present", "absent"):
            yes, no = self.presence(label, about)
            yes, no = (yes, no) if asked == "present" else (no, yes)
        else:
            if not about.is_always and not about.default and label not in present:
                raise Refused(10, f"{label} may be absent")
            yes, no = self.comparison(label, asked, value, about)
        present |= {label} if asked == "present" else frozenset()
        inside = then if len(conditions) == 1 else self.choice(literal, conditions[1:], then, present)
        taken = ("struct", [yes, ("", "embed", inside)], False)
        return ("or", [taken, ("struct", [no], False)])

    def asked(self, literal: tuple, label: str) -> Asked:
        declared = [(it, mark, value) for it, mark, value in literal[1] if it == label and mark in ("", "?", "!")]
        if all(isinstance(it, Quoted) for it, _mark, _value in declared):
            raise Refused(5, f"{label} isn't an identifier label of the literal")
        defaults = [self.default_of(value) if mark == "" else [] for _it, mark, value in declared]
        is_always = any(mark == "!" or mark == "" and not default for (_it, mark, _value), default in zip(declared, defaults, strict=True))
        return Asked([value for _it, _mark, value in declared], next((it for it in defaults if it), []), is_always)

    def refuse_declared(self, then: tuple, label: str, about: Asked) -> None:
        values = self.declared_in(then, label)
        if values and about.default or not all(is_plain(it) for it in values):
            raise Refused(5, "a field is declared under a condition on it, with a default or with what isn't plain")

    def declared_in(self, it: tuple, label: str) -> list[tuple]:
        """The values that literals which are put together declare for a label, but for those of what a name stands for."""
        if it[0] in ("ref", "held", "list"):
            return []
        if it[0] == "struct":
            own = [value for other, mark, value in it[1] if other == label and mark in ("", "?", "!") and not isinstance(mark, Made)]
            return own + [each for _label, mark, value in it[1] if mark in ("embed", "if") for each in self.declared_in(value, label)]
        return [value for part in parts(it) for value in self.declared_in(part, label)]

    # What is asked.

    @staticmethod
    def presence(label: str, about: Asked) -> tuple[tuple, tuple]:
        """That the field is there, and that it isn't. With a default it always is."""
        if about.default:
            return (label, Made("?"), ("top",)), (label, Made("!"), ("bottom",))
        return (label, Made("!"), ("top",)), (label, Made("?"), ("bottom",))

    def comparison(self, label: str, asked: str, value, about: Asked) -> tuple[tuple, tuple]:
        """The declarations where the condition holds, and where it fails."""
        if asked in OPPOSITE:
            yes, no = ("bound", asked, value), ("bound", OPPOSITE[asked], value)
        elif asked == "is":
            yes, no = ("value", value), ("value", not value)
        else:
            yes, no = ("value", value), self.other_than(value, about)
            yes, no = (yes, no) if asked == "==" else (no, yes)
        return (label, self.mark(asked, value, True, about), yes), (label, self.mark(asked, value, False, about), no)

    @staticmethod
    def mark(asked: str, value, is_met: bool, about: Asked) -> Made:
        """A field with a default may be missing where the default is as it is asked, and only there."""
        if not about.default:
            return Made("")
        return Made("?") if passes(asked, value, is_met, about.default[0]) else Made("!")

    def other_than(self, value, about: Asked) -> tuple:
        """Any document but a value, without the kinds that the field excludes."""
        kinds = self.kinds_of_all(about.values)
        own = kind_of(value)
        if own == "null":
            return ("not", None) if kinds - {"null"} else ("bottom",)
        if "struct" in kinds and any(self.holds_literal(it) for it in about.values):
            raise Refused(5, "a struct literal beside `{...}`")
        other = ("value", not value) if own == "bool" else ("not", value)
        found = ([other] if own in kinds else []) + [KINDS[kind] for kind in KINDS if kind in kinds and kind != own]
        return joined_by("or", found) if found else ("bottom",)

    def holds_literal(self, it: tuple) -> bool:
        """A struct literal is one of what an expression, by itself, admits; what definitions hold is closed already."""
        if it[0] == "held":
            return self.holds_literal(it[1].content())
        return it[0] == "struct" or it[0] in ("and", "or", "close", "marked") and any(self.holds_literal(part) for part in parts(it))

    # Kinds.

    def kinds_of_all(self, values: list[tuple], seen: frozenset = frozenset()) -> frozenset:
        return frozenset(KINDS).intersection(*(self.kinds_of(it, seen) for it in values))

    def kinds_of(self, it: tuple, seen: frozenset = frozenset()) -> frozenset:
        """The kinds of documents that an expression may admit, all of them where a name is reached again."""
        form = it[0]
        if form in ("ref", "held"):
            name = it[1] if form == "ref" else it[1].name
            return frozenset(KINDS) if name in seen else self.kinds_of_all(self.package.get(name, []), seen | {name})
        if form == "and":
            return self.kinds_of_all(it[1], seen)
        if form in ("or", "close", "marked"):
            return frozenset().union(*(self.kinds_of(part, seen) for part in parts(it)))
        if form in ("struct", "list"):
            return frozenset({form})
        return kinds_of_atom(it)

    # Defaults.

    def default_of(self, it: tuple, seen: frozenset = frozenset()) -> list:
        """The default of a value as a document, in a list that is empty where there is none."""
        if it[0] == "or":
            return [as_document(part[1]) for part in it[1] if part[0] == "marked"]
        if it[0] == "close":
            return self.default_of(it[1], seen)
        if it[0] not in ("ref", "held"):
            return []
        name = it[1] if it[0] == "ref" else it[1].name
        bodies = self.package.get(name, [])
        return self.default_of(bodies[0], seen | {name}) if len(bodies) == 1 and name not in seen else []


def passes(asked: str, value, is_met: bool, document) -> bool:
    """Whether a document meets what is asked, or doesn't, where that is so. Only a number is compared, and only a truth value is true or isn't."""
    if asked in OPPOSITE:
        return admits({}, ("bound", asked if is_met else OPPOSITE[asked], value), document)
    if asked == "is":
        return document is (value if is_met else not value)
    is_it = not isinstance(document, (list, dict)) and kind_of(document) == kind_of(value) and document == value
    return is_it is (is_met is (asked == "=="))


def kinds_of_atom(it: tuple) -> frozenset:
    if it[0] == "top":
        return frozenset(KINDS)
    if it[0] == "kind":
        return frozenset({"number"} if it[1] in RANGES else {it[1]})
    if it[0] == "bound":
        return frozenset({"number"})
    if it[0] == "not" and it[1] is None:
        return frozenset(KINDS) - {"null"}
    return frozenset({kind_of(it[1])}) if it[0] in ("value", "not") else frozenset()


def as_document(it: tuple):
    if it[0] == "list":
        return [as_document(part) for part in it[1]]
    return {} if it[0] == "struct" else it[1]
