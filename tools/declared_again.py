"""What names of a package can't stand beside each other, for tools/naming.py: a nested or a hidden name that two literals declare which are joined,
since what names it in one of them would be changed by the other; and definitions that reach themselves without an end.
"""
from __future__ import annotations

import sys
from collections.abc import Iterator
from itertools import combinations
from pathlib import Path

sys.path.insert(0, str(Path(__file__).resolve().parent))
from profile_of_cue import Package  # noqa: E402
from wide_forms import parts  # noqa: E402
from wide_source import Refused  # noqa: E402


class DeclaredAgain:
    """Refuses by 11 a name that two literals declare which a package joins. All alternatives of one operand are looked at with all of the other."""

    def __init__(self, package: Package) -> None:
        self.package = package
        # The operands that were looked at, by their identities, which stay theirs while they are here.
        self.done: dict[tuple[int, int], tuple] = {}

    def refuse(self) -> None:
        for bodies in self.package.values():
            for one, other in combinations(bodies, 2):
                self.refuse_beside(one, other)
            for body in bodies:
                self.refuse_inside(body)

    def refuse_inside(self, it: tuple) -> None:
        """Looks at all that an expression joins, at any depth."""
        if it[0] == "and":
            for one, other in combinations(it[1], 2):
                self.refuse_beside(one, other)
        if it[0] == "struct":
            self.refuse_in_literal(it)
        for part in parts(it) if it[0] != "held" else []:
            self.refuse_inside(part)

    def refuse_in_literal(self, it: tuple) -> None:
        """A literal joins the values of a label, and what it declares with what it embeds."""
        declared = [each for each in it[1] if not is_embedded(each[1])]
        embedded = [value for _label, mark, value in it[1] if is_embedded(mark)]
        for (label, mark, value), (other_label, other_mark, other) in combinations(declared, 2):
            if "named" not in (mark, other_mark) and ("[string]" in (mark, other_mark) or label == other_label):
                self.refuse_beside(value, other)
        for one, other in combinations([("struct", declared, it[2]), *embedded], 2):
            self.refuse_beside(one, other)

    def refuse_beside(self, one: tuple, other: tuple) -> None:
        """Two operands that are joined."""
        if one is other or (id(one), id(other)) in self.done:
            return
        self.done[id(one), id(other)] = (one, other)
        for first in self.literals(one):
            for second in self.literals(other):
                if first is not second:
                    self.compare(first, second)

    def compare(self, first: tuple, second: tuple) -> None:
        for label, mark, value in first[1]:
            for other_label, other_mark, other in second[1]:
                if is_embedded(mark) or is_embedded(other_mark):
                    continue
                if "named" in (mark, other_mark):
                    if label == other_label and mark == other_mark and value[1] is not other[1]:
                        raise Refused(11, "a nested or a hidden name that two literals declare which are joined")
                elif label == other_label or "[string]" in (mark, other_mark):
                    self.refuse_beside(value, other)

    def literals(self, it: tuple, seen: frozenset = frozenset()) -> Iterator[tuple]:
        """The literals that an expression puts together at its own level."""
        if it[0] in ("ref", "held"):
            name = it[1] if it[0] == "ref" else it[1].name
            for body in [] if name in seen else self.package.get(name, []):
                yield from self.literals(body, seen | {name})
        elif it[0] == "struct":
            yield it
            for value in (value for _label, mark, value in it[1] if is_embedded(mark)):
                yield from self.literals(value, seen)
        elif it[0] != "list":
            for part in parts(it):
                yield from self.literals(part, seen)


def is_embedded(mark: str) -> bool:
    return mark in ("embed", "if")


# Cycles.


def refuse_cycles(package: Package) -> None:
    """A definition reaches itself through `&` and `|` alone, or without `|` through what a document has to have."""
    for followed in (followed_at_once, followed_always):
        graph = {name: set().union(*(followed(body) for body in bodies)) for name, bodies in package.items()}
        for name in graph:
            if name in reached(graph, name):
                raise Refused(12, f"{name} reaches itself")


def followed_at_once(it: tuple) -> set[str]:
    if it[0] == "ref":
        return {it[1]}
    return set().union(*(followed_at_once(part) for part in it[1])) if it[0] in ("and", "or") else set()


def followed_always(it: tuple) -> set[str]:
    if it[0] == "ref":
        return {it[1]}
    if it[0] == "struct":
        return set().union(*(followed_always(value) for _label, mark, value in it[1] if mark in ("", "!")))
    return set().union(*(followed_always(part) for part in it[1])) if it[0] in ("and", "list") else set()


def reached(graph: dict[str, set[str]], name: str) -> set[str]:
    found: set[str] = set()
    further = set(graph[name])
    while further:
        found |= further
        further = set().union(*(graph.get(it, set()) for it in further)) - found
    return found
