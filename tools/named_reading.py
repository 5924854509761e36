"""A direct reading of sources with nested and hidden names, lets, selectors and conditions, which tools/widened.py compares the model with.

It shares nothing with the model but the reader of sources, and expands nothing into a package: it judges a document by the tree of the source,
in which each literal has its scope. What the model refuses isn't asked of it.

- A name stands for what it was declared as in the innermost scope. What is a definition, a selector or in `close` is judged by itself, and
  what any other name holds as if it were written in its place.
- A document is an instance of literals that stand beside each other, each with what it embeds, for some choice of an alternative for each
  embedded expression, one for a name: every declared field is as all of them ask, and every other key is allowed by one of them.
- It is one of a literal with `if C {S}` where C holds of its field and it is one of that literal joined with S, or C doesn't hold and it is
  one of the literal without. A truth value that is none, and an order of what is no integer, neither hold nor don't.
- A field may be missing where all that declare it are optional or have a default. C holds of a missing field as of its default.
"""
from __future__ import annotations

import sys
from collections.abc import Iterator
from dataclasses import dataclass, field, replace
from pathlib import Path

sys.path.insert(0, str(Path(__file__).resolve().parent))
from profile_of_cue import Package, admits, is_integer, is_value, is_within  # noqa: E402
from wide_source import Quoted  # noqa: E402


@dataclass(eq=False)
class Scope:
    """The names of a literal or of files, with what each was declared as, and the scope around it. A field is declared as nothing."""

    names: dict[str, Declared]
    outer: Scope | None = None

    def find(self, name: str) -> Declared | None:
        found = self.names.get(name)
        return found if found or self.outer is None else self.outer.find(name)


@dataclass(eq=False)
class Declared:
    """What a name was declared as, each expression in its scope."""

    is_definition: bool
    bodies: list[tuple] = field(default_factory=list)


@dataclass
class Choice:
    """What one choice of alternatives asks: some expressions by themselves, and the declarations of literals that stand beside each other."""

    asked: list[tuple] = field(default_factory=list)
    fields: list[tuple] = field(default_factory=list)
    has_literal: bool = False
    opened: bool = False
    chosen: frozenset = frozenset()

    def with_asked(self, it: tuple, scope: Scope) -> Choice:
        return replace(self, asked=[*self.asked, (it, scope)])

    def with_chosen(self, declared: Declared) -> Choice:
        return replace(self, chosen=self.chosen | {declared})

    def with_literal(self, fields: list[tuple], opened: bool) -> Choice:
        return replace(self, fields=self.fields + fields, has_literal=True, opened=self.opened or opened)


class Reading:
    """The direct reading of a package of one file."""

    def __init__(self, package: Package) -> None:
        self.top = Scope({})
        for name, bodies in package.items():
            written = name.removeprefix("let ")
            inside = self.without(self.top, written) if name != written else self.top
            self.top.names[written] = Declared("#" in written, [(body, inside) for body in bodies])
        self.scopes: dict[tuple[int, int], tuple] = {}

    @staticmethod
    def without(scope: Scope, name: str) -> Scope:
        """The scope in which a `let` itself isn't declared; it goes on where the scope does."""
        return Scope(Hiding(scope.names, name), scope.outer)

    def is_named(self, name: str, doc) -> bool:
        return self.is_all(self.top.names[name].bodies, doc)

    def is_all(self, operands: list[tuple], doc) -> bool:
        """The document is one of all operands, that stand beside each other."""
        return any(self.is_chosen(choice, doc) for choice in self.choices(operands, False, doc, Choice()))

    def is_chosen(self, choice: Choice, doc) -> bool:
        return all(self.is_one(it, scope, doc) for it, scope in choice.asked) and (not choice.has_literal or self.is_struct(choice, doc))

    def is_one(self, it: tuple, scope: Scope, doc) -> bool:
        """The document is one of what is judged by itself."""
        if it[0] == "list":
            _form, front, end = it
            if not isinstance(doc, list) or len(doc) < len(front) or end is None and len(doc) > len(front):
                return False
            parts = [*front, *[end] * (len(doc) - len(front))]
            return all(self.is_all([(part, scope)], element) for part, element in zip(parts, doc, strict=True))
        bodies = self.held(it, scope)
        return admits({}, it, doc) if bodies is None else self.is_all(bodies, doc)

    def held(self, it: tuple, scope: Scope) -> list[tuple] | None:
        """What a name, a selector or `close` holds; nothing where it is none of these."""
        if it[0] == "close":
            return [(it[1], scope)]
        if it[0] == "selector":
            return self.selected(it, scope)
        declared = scope.find(it[1]) if it[0] in ("name", "ref", "kind") else None
        return declared.bodies if declared else None

    def selected(self, it: tuple, scope: Scope) -> list[tuple]:
        choice = next(self.choices([(it[1], scope)], True, None, Choice()))
        if it[2][:1] in ("#", "_") and not isinstance(it[2], Quoted):
            return next(inside.names[it[2]].bodies for _label, _mark, _value, inside in choice.fields if it[2] in inside.names)
        return [(value, inside) for label, mark, value, inside in choice.fields if mark == "[string]" or mark != "name" and label == it[2]]

    def is_struct(self, choice: Choice, doc) -> bool:
        """All that was chosen asks, and one of it allows each other key."""
        if not isinstance(doc, dict):
            return False
        every = [(value, scope) for _label, mark, value, scope in choice.fields if mark == "[string]"]
        labelled: dict[str, list[tuple]] = {}
        for label, mark, value, scope in choice.fields:
            if mark in ("", "?", "!"):
                labelled.setdefault(str(label), []).append((mark, value, scope))
        for label, declared in labelled.items():
            if label in doc:
                if not self.is_all([(value, scope) for _mark, value, scope in declared], doc[label]):
                    return False
            elif not all(mark == "?" or mark == "" and self.default_of(value, scope) for mark, value, scope in declared):
                return False
        if not choice.opened and not every and not doc.keys() <= labelled.keys():
            return False
        return all(self.is_all([one], inner) for one in every for inner in doc.values())

    # Choices.

    def choices(self, operands: list[tuple], embedded: bool, doc, before: Choice) -> Iterator[Choice]:
        """What stood before, with each choice from operands that stand beside each other."""
        if not operands:
            yield before
            return
        for choice in self.choices_of(*operands[0], embedded, doc, before):
            yield from self.choices(operands[1:], embedded, doc, choice)

    def choices_of(self, it: tuple, scope: Scope, embedded: bool, doc, before: Choice) -> Iterator[Choice]:
        form = it[0]
        if form == "or":
            for part in it[1]:
                yield from self.choices_of(part, scope, embedded, doc, before)
        elif form == "and":
            yield from self.choices([(part, scope) for part in it[1]], embedded, doc, before)
        elif form == "marked":
            yield from self.choices_of(it[1], scope, embedded, doc, before)
        elif form == "struct":
            yield from self.choices_of_literal(it, scope, doc, before)
        elif form in ("close", "selector") and embedded:
            yield from self.choices(self.held(it, scope), embedded, doc, before)
        elif form in ("name", "ref", "kind") and self.is_in_place(scope.find(it[1]), embedded):
            declared = scope.find(it[1])
            if declared in before.chosen:
                yield before
            else:
                yield from self.choices(declared.bodies, embedded, doc, before.with_chosen(declared))
        else:
            yield before.with_asked(it, scope)

    @staticmethod
    def is_in_place(declared: Declared | None, embedded: bool) -> bool:
        return declared is not None and (embedded or not declared.is_definition)

    def choices_of_literal(self, it: tuple, outer: Scope, doc, before: Choice) -> Iterator[Choice]:
        scope = self.scope_of(it, outer)
        # A declaration of no label carries the scope, in which selectors find nested names.
        own = [("", "name", None, scope), *((label, mark, value, scope) for label, mark, value in it[1] if mark in ("", "?", "!", "[string]"))]
        inside: list[tuple] = [(value, scope) for _label, mark, value in it[1] if mark == "embed"]
        for label, mark, value in it[1]:
            holds = self.holds(it, scope, label, doc) if mark == "if" else False
            if holds is None:
                return
            inside += [(value, scope)] if holds else []
        yield from self.choices(inside, True, doc, before.with_literal(own, it[2]))

    def scope_of(self, it: tuple, outer: Scope) -> Scope:
        if (id(it), id(outer)) not in self.scopes:
            scope = Scope({}, outer)
            for label, mark, value in it[1]:
                if mark in ("named", "let"):
                    within = self.without(scope, label) if mark == "let" else scope
                    scope.names.setdefault(label, Declared("#" in label)).bodies.append((value, within))
            self.scopes[id(it), id(outer)] = (scope, it, outer)
        return self.scopes[id(it), id(outer)][0]

    # Conditions and defaults.

    def holds(self, it: tuple, scope: Scope, conditions: tuple, doc) -> bool | None:
        """Whether all conditions hold, or one doesn't; nothing where the first such one neither holds nor doesn't."""
        if not isinstance(doc, dict):
            return False
        for label, asked, value in conditions:
            defaults = [found for other, mark, each in it[1] if other == label and mark == "" for found in self.default_of(each, scope)]
            known = [doc[label]] if label in doc else defaults
            holds = (bool(known) == (asked == "present")) if asked in ("present", "absent") else known and is_true(asked, value, known[0])
            if holds is not True:
                return False if holds is False else None
        return True

    def default_of(self, it: tuple, scope: Scope) -> list:
        """The default as a document, in a list that is empty where there is none."""
        if it[0] == "or":
            return [[] if part[1][0] == "list" else part[1][1] for part in it[1] if part[0] == "marked"]
        bodies = self.held(it, scope)
        return self.default_of(*bodies[0]) if bodies and len(bodies) == 1 else []


class Hiding(dict):
    """The names of a scope but for one, also those that are declared later."""

    def __init__(self, names: dict[str, Declared], hidden: str) -> None:
        super().__init__()
        self.names, self.hidden = names, hidden

    def get(self, name: str, default: Declared | None = None) -> Declared | None:
        return default if name == self.hidden else self.names.get(name, default)


def is_true(asked: str, value, doc) -> bool | None:
    if asked in ("==", "!="):
        return is_value(value, doc) == (asked == "==")
    if asked == "is":
        return doc == value if isinstance(doc, bool) else None
    return is_within(doc, asked, value) if is_integer(doc) else None
