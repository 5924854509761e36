"""The names of the wide profile, for the model of tools/widening.py: resolves them, and lifts what is declared inside of literals.

A name is declared at the top of a file, as `_#N: v`, `_x: v`, `x: v` or `let x = e`, or in a literal, as `#N: v`, `_x: v` or `let x = e`. It is
reached in the innermost scope that declares it, and is no part of the data.

- Each is a definition of its own, with its name without `_` and `#` before it, and in a literal of `#P` with `P_` before it, where the least
  number from 1 stands behind a name that is taken. Names of files are named first, then the others, both in the order of the text. A
  definition is followed by those that are declared inside of it.
- What is plain and no definition is put in the place of its name. What isn't plain is `held` where it is named; see tools/wide_forms.py. A
  name whose value has a selector isn't plain.
- A selector is the conjunction of all that the one alternative of its operand declares for the label, `[string]` among it, and is closed,
  as by `close`; or it is the nested definition or the hidden field of that name. A condition is a choice of two alternatives, but not for
  such a name, which doesn't depend on it.
- Refused are: by 5 a selector from several alternatives; by 9 a name that isn't declared, a `let` that nothing names, a `let` beside another
  declaration of its name in one scope, and a selector of a label that isn't declared, also from what isn't put together from literals;
  by 10 a name or a selector that leads to a field of a literal around it, a selector of a label of which no declaration is regular, and
  what would name a field of the literal that it is put into; by 11 a nested or hidden name that two literals declare that are joined;
  by 12 definitions that reach themselves without an end, and a selector that reaches itself.
"""
from __future__ import annotations

import sys
from collections.abc import Callable
from pathlib import Path
from typing import TypeVar

sys.path.insert(0, str(Path(__file__).resolve().parent))
from declared_again import DeclaredAgain  # noqa: E402
from profile_of_cue import Package  # noqa: E402
from wide_forms import Alternative, Alternatives, Held, joined_by, labels_of, names_in, parts, rebuilt  # noqa: E402
from wide_source import Quoted, Refused  # noqa: E402

T = TypeVar("T")

# What the names of a scope lead to: nothing stands for a field of a literal.
Scope = dict[str, Held | None]


def has_names(package: Package) -> bool:
    """The package has some form that this file or tools/conditions.py is about."""
    return any(not name.startswith("#") or any(has_new_form(body) for body in bodies) for name, bodies in package.items())


def has_new_form(it: tuple) -> bool:
    is_new = it[0] in ("name", "selector") or it[0] == "struct" and any(mark in ("named", "let", "if") for _label, mark, _value in it[1])
    return is_new or any(has_new_form(part) for part in parts(it))


def named(files: list[Package]) -> Package:
    """The package of files, with names and selectors resolved."""
    package = Naming(files).package()
    Selecting(package).replace()
    DeclaredAgain(package).refuse()
    for bodies in package.values():
        bodies[:] = [without_names(body) for body in bodies]
    return package


def without_names(it: tuple) -> tuple:
    """The expression without its nested and hidden names, which are definitions now."""
    if it[0] == "struct":
        it = ("struct", [declared for declared in it[1] if declared[1] != "named"], it[2])
    return rebuilt(it, without_names)


class Naming:
    """The names of files: first each is resolved, then those that aren't put in place are named, then the others are put in their places."""

    def __init__(self, files: list[Package]) -> None:
        self.tops: list[Held] = []
        self.lets: list[Held] = []
        shared: Scope = {}
        lets = [self.scopes_of(file, shared) for file in files]
        for file, own in zip(files, lets, strict=True):
            if own.keys() & shared.keys():
                raise Refused(9, "a let beside a field of its name")
            for name, bodies in file.items():
                written = name.removeprefix("let ")
                held = shared[name] if name == written else own[written]
                scopes = [own if name == written else without(own, written), shared]
                held.bodies += [self.scoped(body, scopes, held) for body in bodies]
        if not all(held.is_named for held in self.lets):
            raise Refused(9, "a let that nothing names")
        self.taken = {held.name for held in self.tops if held.name.startswith("#")}
        for held in self.tops:
            self.lift(held, "")
        for held in self.tops:
            self.lift_inside(held)
        for held in self.tops:
            self.settle(held)

    def scopes_of(self, file: Package, shared: Scope) -> Scope:
        """The lets of a file, whose other names are shared."""
        own: Scope = {}
        for name, bodies in file.items():
            written = name.removeprefix("let ")
            is_let = name != written
            if is_let and len(bodies) > 1:
                raise Refused(9, "two lets of one name")
            held = (own if is_let else shared).setdefault(written, Held(written, "#" in written))
            self.tops += [] if held in self.tops else [held]
            self.lets += [held] if is_let else []
        return own

    # What names lead to.

    def scoped(self, it: tuple, scopes: list[Scope], owner: Held) -> tuple:
        """The expression with each name resolved, which stands in a declaration of `owner`."""
        if it[0] in ("name", "ref", "kind"):
            return self.found(it, scopes)
        if it[0] != "struct":
            return rebuilt(it, lambda part: self.scoped(part, scopes, owner))
        scope = self.scope_of(it[1])
        fields: list[tuple] = []
        for label, mark, value in it[1]:
            if mark not in ("named", "let"):
                fields.append((label, mark, self.scoped(value, [scope, *scopes], owner)))
                continue
            held = scope[label]
            if held not in owner.inside:
                owner.inside.append(held)
                fields += [(label, mark, ("held", held))] if mark == "named" else []
            held.bodies.append(self.scoped(value, [without(scope, label) if mark == "let" else scope, *scopes], held))
        return ("struct", fields, it[2])

    def scope_of(self, fields: list[tuple]) -> Scope:
        scope: Scope = dict.fromkeys(label for label, mark, _value in fields if mark in ("", "?", "!") and not isinstance(label, Quoted))
        for label, mark, _value in fields:
            if mark == "let" and label in scope:
                raise Refused(9, "a let beside another declaration of its name")
            if mark in ("named", "let"):
                held = scope.setdefault(label, Held(label, "#" in label))
                self.lets += [held] if mark == "let" else []
                if mark == "named" and held in self.lets:
                    raise Refused(9, "a let beside another declaration of its name")
        return scope

    @staticmethod
    def found(it: tuple, scopes: list[Scope]) -> tuple:
        scope = next((scope for scope in scopes if it[1] in scope), None)
        if scope is None:
            if it[0] == "kind":
                return it
            raise Refused(9, f"{it[1]} isn't declared")
        held = scope[it[1]]
        if held is None:
            raise Refused(10, f"{it[1]} is a field")
        held.is_named = True
        return ("held", held)

    # Which names definitions have.

    def lift(self, held: Held, before: str) -> None:
        """Names what isn't put in its place."""
        if held.name in self.taken and not before or is_put_in_place(held):
            return
        bare = f"#{before}{held.name.lstrip('_#')}"
        name, number = bare, 0
        while name in self.taken:
            number += 1
            name = f"{bare}{number}"
        held.name = name
        self.taken.add(name)

    def lift_inside(self, held: Held) -> None:
        for it in held.inside:
            self.lift(it, f"{held.name.removeprefix('#')}_")
            self.lift_inside(it)

    # What is put in place.

    def settle(self, held: Held) -> None:
        held.bodies[:] = [settled(body, frozenset()) for body in held.bodies]
        for it in held.inside:
            self.settle(it)

    def package(self) -> Package:
        """Each definition with those that are declared inside of it behind it."""
        package: Package = {}

        def add(held: Held) -> None:
            if not is_put_in_place(held):
                package[held.name] = held.bodies
            for it in held.inside:
                add(it)

        for held in self.tops:
            add(held)
        return package


def without(scope: Scope, name: str) -> Scope:
    return {other: held for other, held in scope.items() if other != name}


def is_put_in_place(held: Held, reaching: tuple = ()) -> bool:
    """It is no definition, and holds no literal, no reference and no selector, nor itself."""
    if held.in_place is None:
        is_other = not held.is_definition and held not in reaching
        held.in_place = is_other and all(holds_nothing(body, (*reaching, held)) for body in held.bodies)
    return held.in_place


def holds_nothing(it: tuple, reaching: tuple) -> bool:
    if it[0] == "held":
        return is_put_in_place(it[1], reaching)
    return it[0] not in ("struct", "ref", "selector") and all(holds_nothing(part, reaching) for part in parts(it))


def settled(it: tuple, around: frozenset) -> tuple:
    """The expression with references to definitions, and with what is plain in place, in literals that have the labels `around`."""
    if it[0] == "struct":
        around |= labels_of([declared for declared in it[1] if declared[1] in ("", "?", "!")])
        # Each value is one of its own, by which a declaration is told from others.
        return ("struct", [(label, mark, value if mark == "named" else (*settled(value, around),)) for label, mark, value in it[1]], it[2])
    if it[0] != "held":
        return rebuilt(it, lambda part: settled(part, around))
    if it[1].is_definition:
        return ("ref", it[1].name)
    if not is_put_in_place(it[1]):
        return it
    content = settled(it[1].content(), around)
    if names_in(content) & around:
        raise Refused(10, "a name would name a field of the literal that it is put into")
    return content


class Selecting(Alternatives):
    """The selectors of a package whose names are resolved."""

    def __init__(self, package: Package) -> None:
        super().__init__(package)
        # Of each selector, the values that are declared for its label, and what they are together, with the selectors in them.
        self.declared: dict[str, tuple[list[tuple], tuple]] = {}
        self.on_way: list[str] = []
        # A condition is a choice, but not for a nested definition, which is there by itself.
        self.has_choices = True

    def replace(self) -> None:
        replaced = {name: [self.replaced(body, ()) for body in bodies] for name, bodies in self.package.items()}
        for name, bodies in self.package.items():
            bodies[:] = replaced[name]

    def replaced(self, it: tuple, around: tuple) -> tuple:
        """The expression without selectors, in the literals `around`."""
        if it[0] == "selector":
            return self.selected(it, around)
        around = (*around, it) if it[0] == "struct" else around
        return rebuilt(it, lambda part: self.replaced(part, around))

    def selected(self, it: tuple, around: tuple) -> tuple:
        """What a selector stands for in the literals `around`."""
        declared, value = self.found(it)
        if any(each is value_around for each in declared for literal in around for _label, _mark, value_around in literal[1]):
            raise Refused(10, "a selector leads to a field of a literal around it")
        value = self.on_way_to(f"value of {path_of(it)}", lambda: closed(self.replaced(value, ())))
        if names_in(value) & frozenset().union(*(labels_of(literal[1]) for literal in around)):
            raise Refused(10, "a name would name a field of the literal that it is put into")
        return value

    def found(self, it: tuple) -> tuple[list[tuple], tuple]:
        path = path_of(it)
        if path not in self.declared:
            self.declared[path] = self.on_way_to(f"label of {path}", lambda: self.selection(it[1], it[2]))
        return self.declared[path]

    def on_way_to(self, what: str, found: Callable[[], T]) -> T:
        if what in self.on_way:
            raise Refused(12, "a selector that reaches itself")
        self.on_way.append(what)
        result = found()
        self.on_way.pop()
        return result

    def selection(self, base: tuple, label: str) -> tuple[list[tuple], tuple]:
        is_name = label[:1] in ("#", "_") and not isinstance(label, Quoted)
        before, self.has_choices = self.has_choices, not is_name
        states = self.alternatives(base, frozenset(), Alternative((), False, frozenset()), (), True)
        self.has_choices = before
        if states is not None and len(states) > 1:
            raise Refused(5, "a selector from several alternatives")
        declared = [each for one in states or [] for each in one.declarations if each.mark == "[string]" or each.label == label]
        if is_name:
            return self.name_selected([each.value for each in declared if each.mark == "named"])
        declared = [each for each in declared if each.mark != "named"]
        if not declared:
            raise Refused(9, f"{label} isn't declared")
        if all(each.mark != "" for each in declared):
            raise Refused(10, f"{label} may be absent")
        value = joined_by("and", [each.value for each in declared])
        return [each.value for each in declared if each.mark != "[string]"], value

    def name_selected(self, values: list[tuple]) -> tuple[list[tuple], tuple]:
        if not values:
            raise Refused(9, "a name that isn't declared is selected")
        if len({it[1] for it in values}) > 1:
            raise Refused(11, "a name that two literals declare")
        return [], settled(values[0], frozenset())

    def alternatives(self, it: tuple, *rest) -> list[Alternative] | None:
        if it[0] == "selector":
            return self.on_way_to(f"alternatives of {path_of(it)}", lambda: self.alternatives(self.found(it)[1], *rest))
        if it[0] == "struct":
            it = ("struct", [self.with_choice(*declared) for declared in it[1]], it[2])
        return super().alternatives(it, *rest)

    def with_choice(self, label: str, mark: str, value: tuple) -> tuple:
        """What is under a condition, which may be there or not, as an embedded expression with these two alternatives."""
        nothing = ("struct", [], False)
        return ("", "embed", ("or", [value, nothing]) if self.has_choices else nothing) if mark == "if" else (label, mark, value)


def closed(it: tuple) -> tuple:
    return it if it[0] == "ref" or holds_nothing(it, ()) else ("close", it)


def path_of(it: tuple) -> str:
    """A text that is of one operand alone."""
    if it[0] == "selector":
        return f"{path_of(it[1])}.{it[2]!r}{isinstance(it[2], Quoted)}"
    return it[1].name if it[0] == "held" else it[1] if it[0] == "ref" else str(id(it))
