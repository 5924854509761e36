"""What expressions of the wide profile are, as tools/widening.py reads them, and the alternatives that an expression is put together from.

Where names are resolved (tools/naming.py), a name that is no definition, of a `let`, a hidden field or a field of a file, is `held H`. It is a
definition by itself, but nothing has closed what it holds.
"""
from __future__ import annotations

import sys
from collections.abc import Callable, Iterator
from dataclasses import dataclass, field, replace
from pathlib import Path

sys.path.insert(0, str(Path(__file__).resolve().parent))
from profile_of_cue import Package, inner  # noqa: E402
from wide_source import Quoted, Refused  # noqa: E402

MOST_NODES = 50_000


# What expressions are.


@dataclass(eq=False)
class Held:
    """What a name was declared as: the name that it has as a definition, its bodies, and those that are declared inside of them."""

    name: str
    is_definition: bool
    bodies: list[tuple] = field(default_factory=list)
    inside: list[Held] = field(default_factory=list)
    is_named: bool = False
    # Whether it is put in its place, once that was asked.
    in_place: bool | None = None

    def content(self) -> tuple:
        return joined_by("and", self.bodies)


class Made(str):
    """The mark of a declaration that a condition makes."""


def is_plain(it: tuple) -> bool:
    """It holds no struct literal and no reference."""
    return it[0] not in ("struct", "ref", "held", "selector") and all(is_plain(part) for part in parts(it))


def parts(it: tuple) -> list[tuple]:
    return [it[1]] if it[0] in ("close", "marked", "selector") else inner(it)


def rebuilt(it: tuple, change: Callable[[tuple], tuple]) -> tuple:
    """The expression with its parts changed."""
    form = it[0]
    if form in ("close", "marked", "selector"):
        return (form, change(it[1]), *it[2:])
    if form in ("and", "or"):
        return (form, [change(part) for part in it[1]])
    if form == "list":
        return (form, [change(part) for part in it[1]], it[2] and change(it[2]))
    if form == "struct":
        return (form, [(label, mark, change(value)) for label, mark, value in it[1]], it[2])
    return it


def is_shut(it: tuple, seen: frozenset = frozenset()) -> bool:
    """A reference or `close(..)`, or what holds one through `&` and `|`, or in what a literal embeds at any depth. A name that is no
    definition is shut where what it holds is."""
    if it[0] in ("ref", "close", "selector"):
        return True
    if it[0] == "struct":
        return any(holds_shut(value, seen) for _label, mark, value in it[1] if mark == "embed")
    if it[0] == "held":
        return it[1] not in seen and is_shut(it[1].content(), seen | {it[1]})
    return it[0] in ("and", "or", "marked") and any(is_shut(part, seen) for part in parts(it))


def holds_shut(it: tuple, seen: frozenset = frozenset()) -> bool:
    """Something shut stands in it at any depth, also in what it names that nothing has closed."""
    if it[0] == "held":
        return it[1] not in seen and holds_shut(it[1].content(), seen | {it[1]})
    return is_shut(it, seen) or any(holds_shut(part, seen) for part in parts(it))


def literals_in(it: tuple, seen: frozenset = frozenset()) -> Iterator[tuple]:
    """The struct literals in it at any depth, with those that it names and that nothing has closed."""
    if it[0] == "struct":
        yield it
    if it[0] == "held" and it[1] not in seen:
        yield from literals_in(it[1].content(), seen | {it[1]})
    for part in parts(it):
        yield from literals_in(part, seen)


def are_opened(it: tuple) -> bool:
    """Each struct literal in it ends with `...`."""
    return all(literal[2] for literal in literals_in(it))


def stays_open(it: tuple) -> bool:
    """Each struct literal in it ends with `...` as it is written, and embeds nothing."""
    return all(literal[2] and all(mark != "embed" for _label, mark, _value in literal[1]) for literal in literals_in(it))


def reaches(it: tuple, held: Held, seen: frozenset = frozenset()) -> bool:
    """A name is reached from an expression through names that nothing has closed."""
    if it[0] == "held":
        return it[1] is held or it[1] not in seen and reaches(it[1].content(), held, seen | {it[1]})
    return any(reaches(part, held, seen) for part in parts(it))


def in_place(it: tuple) -> tuple:
    """An operand beside another one, with what a name that nothing has closed holds in its place."""
    if it[0] == "held":
        if reaches(it[1].content(), it[1]):
            raise Refused(12, "a name that is reached again in its own place")
        return in_place(it[1].content())
    return rebuilt(it, in_place) if it[0] in ("and", "or", "marked") else it


def asks_joining(operands: list[tuple]) -> bool:
    """Several operands of `&` hold a literal or a reference, and not each literal stays open."""
    return sum(not is_plain(it) for it in operands) > 1 and not all(stays_open(it) for it in operands)


def breaks_opening(values: list[tuple]) -> bool:
    return sum(not is_plain(it) for it in values) > 1 and not all(are_opened(it) for it in values)


def closed_fields(it: tuple) -> list[tuple] | None:
    """The fields of a literal without `...` and without `[string]`."""
    is_closed = it[0] == "struct" and not it[2] and all(mark != "[string]" for _label, mark, _value in it[1])
    return it[1] if is_closed else None


def narrowing(it: tuple) -> tuple[str, list[tuple]] | None:
    """The definition that a conjunction of a reference and a closed literal narrows, and the fields of that literal."""
    if it[0] == "and" and len(it[1]) == 2:
        for one, other in (it[1], it[1][::-1]):
            if one[0] == "ref" and closed_fields(other) is not None:
                return one[1], closed_fields(other)
    return None


def base_labels(package: Package, name: str, reaching: tuple = ()) -> set[str] | None:
    """The labels of a definition whose one body is a closed literal, or narrows such a definition."""
    bodies = package.get(name, [])
    if len(bodies) != 1 or name in reaching:
        return None
    fields = closed_fields(bodies[0])
    if fields is not None:
        return {label for label, _mark, _value in fields}
    return narrowed_labels(package, bodies[0], (*reaching, name))


def narrowed_labels(package: Package, it: tuple, reaching: tuple = ()) -> set[str] | None:
    """The labels of the definition that an expression narrows by plain values of some of its labels."""
    found = narrowing(it)
    labels = found and base_labels(package, found[0], reaching)
    fits = labels is not None and all(label in labels and is_plain(value) for label, _mark, value in found[1])
    return labels if fits else None


def breaks_rule_inside(package: Package, it: tuple) -> bool:
    """A conjunction, or the values of a label, in an expression break the opening rule."""
    if it[0] == "and" and narrowed_labels(package, it) is None and breaks_opening(it[1]):
        return True
    for label, mark, _value in it[1] if it[0] == "struct" else []:
        same = [field[2] for field in it[1] if field[1] == "[string]" or mark != "[string]" and field[0] == label]
        if breaks_opening(same):
            return True
    return any(breaks_rule_inside(package, part) for part in parts(it))


def nodes(it: tuple) -> int:
    return 1 + sum(nodes(part) for part in parts(it))


def names_in(it: tuple) -> set[str]:
    return {it[1]} if it[0] == "kind" else set().union(*(names_in(part) for part in parts(it)), set())


def joined_by(mark: str, operands: list[tuple]) -> tuple:
    return operands[0] if len(operands) == 1 else (mark, operands)


@dataclass(frozen=True)
class Declaration:
    """A declaration in a join: what it says, the names that it was copied from, the embeddings, one inside of the other, that brought it (none
    where it stands in the literal itself; those of a definition that is embedded are one with its own embedding), and the labels of the
    literal that it was written in."""

    label: str
    mark: str
    value: tuple
    copied: frozenset
    brought: tuple
    home: frozenset


@dataclass(frozen=True)
class Alternative:
    """Some declarations that are joined, and whether any other key is allowed."""

    declarations: tuple
    opened: bool
    chosen: frozenset


def labels_of(fields: list[tuple]) -> frozenset:
    return frozenset(label for label, mark, _value in fields if mark not in ("embed", "[string]") and not isinstance(label, Quoted))


class Alternatives:
    def __init__(self, package: Package) -> None:
        self.package, self.count = package, 0

    # Alternatives.

    def alternatives(self, it: tuple, copied: frozenset, before: Alternative, reaching: tuple, embedded: bool, brought: tuple = ()) -> list[Alternative] | None:
        """What joins the declarations before with one alternative of an expression; none where it isn't put together from literals."""
        form = it[0]
        if form == "close":
            found = self.alternatives(it[1], copied, before, reaching, embedded, brought)
            return None if embedded and found is not None and len(found) > 1 else found
        if form == "or":
            found = [self.alternatives(part, copied, before, reaching, embedded, brought) for part in it[1]]
            return None if None in found else [one for some in found for one in some]
        if form == "and":
            return self.of_operands(it[1], copied, before, reaching, embedded, brought)
        if form == "struct":
            return self.of_literal(it, copied, before, reaching, brought)
        if form == "held":
            return self.of_held(it[1], copied, before, reaching, embedded, brought)
        if form == "ref" and embedded:
            return self.of_name(it[1], copied, before, reaching, brought)
        return None

    def of_held(self, held: Held, copied: frozenset, before: Alternative, reaching: tuple, embedded: bool, brought: tuple) -> list[Alternative] | None:
        if not embedded and reaches(held.content(), held):
            raise Refused(12, "a name that is reached again in its own place")
        return self.of_name(held.name, copied, before, reaching, brought)

    def of_literal(self, it: tuple, copied: frozenset, before: Alternative, reaching: tuple, brought: tuple) -> list[Alternative] | None:
        home = labels_of(it[1])
        states = [replace(before, opened=before.opened or it[2])]
        for place, (label, mark, value) in enumerate(it[1]):
            if mark != "embed":
                one = Declaration(label, mark, value, copied, brought, home)
                states = [replace(state, declarations=(*state.declarations, one)) for state in states]
                continue
            further: list[Alternative] = []
            for state in states:
                found = self.alternatives(value, copied, state, reaching, True, brought if reaching else (*brought, place))
                if found is None:
                    return None
                further += found
                self.bound(further)
            states = further
        return states

    def bound(self, states: list[Alternative]) -> None:
        if sum(1 + len(state.declarations) for state in states) > MOST_NODES:
            raise Refused(14, "too many alternatives")

    def of_operands(
        self, operands: list[tuple], copied: frozenset, before: Alternative, reaching: tuple, embedded: bool, brought: tuple
    ) -> list[Alternative] | None:
        shut = [it for it in operands if is_shut(it)]
        if shut and not (embedded and len(shut) == 1 and self.add_nothing(shut[0], operands, copied, reaching)):
            return None
        states = [before]
        for it in operands:
            further: list[Alternative] = []
            for state in states:
                found = self.alternatives(it, copied, state, reaching, embedded, brought)
                if found is None:
                    return None
                further += found
                self.bound(further)
            states = further
        return states

    def add_nothing(self, shut: tuple, operands: list[tuple], copied: frozenset, reaching: tuple) -> bool:
        """The other operands have labels of the shut one alone, with plain values."""
        nothing = Alternative((), False, frozenset())
        kept = self.alternatives(shut, copied, nothing, reaching, True)
        if kept is None:
            return False
        for it in operands:
            added = [] if it is shut else self.alternatives(it, copied, nothing, reaching, True)
            if added is None:
                return False
            for one in added:
                if one.opened or any(each.mark == "[string]" or not is_plain(each.value) for each in one.declarations):
                    return False
                if any({each.label for each in one.declarations} - {each.label for each in other.declarations} for other in kept):
                    return False
        return True

    def of_name(self, name: str, copied: frozenset, before: Alternative, reaching: tuple, brought: tuple) -> list[Alternative] | None:
        if name in reaching or name in copied:
            return None
        if name not in self.package:
            raise Refused(9, f"{name} isn't declared")
        if name in before.chosen:
            return [before]
        states = [replace(before, chosen=before.chosen | {name})]
        for body in self.package[name]:
            further: list[Alternative] = []
            for state in states:
                found = self.alternatives(body, copied | {name}, state, (*reaching, name), True, brought)
                if found is None:
                    return None
                further += found
            states = further
        return states
