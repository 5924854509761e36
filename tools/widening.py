#!/usr/bin/env python3
"""A model of ordinary CUE that the program doesn't take, or didn't when the model was written: names, conditions, embedded expressions, literals
that are joined, `close`, attributes and defaults. It says which package of the profile such a source stands for, knows nothing of the
program, and is there before it, so that the rules are tried before code stands on them.

    tools/widening.py [FILE..]      the package that is meant by the files, or by standard input, or `error N`

- First names are resolved (tools/naming.py), then conditions become embedded expressions (tools/conditions.py). Sources are read by
  tools/wide_source.py, and what is said of expressions below is in tools/wide_forms.py.
- A literal with embedded expressions stands for its alternatives. Each has the declarations of the literal and those of one alternative of
  each embedded expression, and is open where one of them is. A name has one choice in a join, and its declarations stand once, at the
  first place.
- Where the opening rule refuses a conjunction, the values of a label or the bodies of a definition, the operands are joined in the same
  way, if each that isn't plain is put together from literals that nothing has closed: no reference and no `close`. What is plain stays
  beside them. This is asked as they are written, where a literal that embeds something doesn't end with `...`.
- A field may be missing where its value has a default, which is one marked operand of its disjunction. Such a disjunction is a value, and
  not what a literal is put together from.
- What a name that nothing has closed holds, of a `let`, a hidden field or a field of a file, is put in its place where it stands beside another
  operand that isn't plain, also where that is seen in a join only. Elsewhere such a name is a reference.
- Refused are: by 5 a mark elsewhere, a second one, and a default beside another declaration that may be absent; by 10 a name that would
  name a field of the literal that it is joined into; by 11 an embedded expression without alternatives, as a definition in itself, what
  can't be joined, and what an embedding brought and closed beside a value from elsewhere; by 14 too many alternatives.
"""
from __future__ import annotations

import sys
from pathlib import Path

sys.path.insert(0, str(Path(__file__).resolve().parent))
from conditions import Conditions  # noqa: E402
from declared_again import refuse_cycles  # noqa: E402
from naming import has_names, named  # noqa: E402
from profile_of_cue import Package, text  # noqa: E402
from wide_forms import (  # noqa: E402
    MOST_NODES,
    Alternative,
    Alternatives,
    Declaration,
    Made,
    asks_joining,
    breaks_opening,
    breaks_rule_inside,
    holds_shut,
    in_place,
    is_plain,
    is_shut,
    joined_by,
    names_in,
    nodes,
    rebuilt,
)
from wide_source import Quoted, Refused, WideReader  # noqa: E402


class Widening(Alternatives):
    # What expressions stand for.

    def stands_for(self, it: tuple, copied: frozenset = frozenset()) -> tuple:
        form = it[0]
        self.count += 1
        if self.count > 40 * MOST_NODES:
            raise Refused(14, "too large")
        if form == "close":
            return self.stands_for(it[1], copied)
        if form == "marked":
            return ("marked", self.stands_for(it[1], copied))
        if form == "or":
            return ("or", [self.stands_for(part, copied) for part in it[1]])
        if form == "and":
            return self.conjunction(it[1], copied)
        if form == "list":
            return ("list", [self.stands_for(part, copied) for part in it[1]], it[2] and self.stands_for(it[2], copied))
        if form == "struct":
            found = self.of_literal(it, copied, Alternative((), False, frozenset()), (), ())
            if found is None:
                raise Refused(11, "an embedding without alternatives")
            return joined_by("or", [self.literal(one) for one in found])
        return it

    def conjunction(self, operands: list[tuple], copied: frozenset) -> tuple:
        """A conjunction of what is shut stays: whether it narrows a definition is seen where all is meant."""
        meant = self.beside(operands, [copied] * len(operands))
        if not asks_joining(operands) or any(is_shut(it) for it in operands if not is_plain(it)):
            return ("and", meant)
        try:
            return self.joined([(it, copied) for it in operands], meant)
        except Refused:
            if breaks_opening(meant):
                raise
            return ("and", meant)

    def beside(self, operands: list[tuple], copied: list[frozenset]) -> list[tuple]:
        """What operands stand for that aren't joined: where several aren't plain, a name that nothing has closed is in its place."""
        are_several = sum(not is_plain(it) for it in operands) > 1
        return [self.stands_for(in_place(it) if are_several else it, names) for it, names in zip(operands, copied, strict=True)]

    def joined(self, operands: list[tuple], meant: list[tuple]) -> tuple:
        """Operands that the opening rule refuses, joined: refused where one of them that isn't plain is shut or has no alternatives."""
        states = [Alternative((), False, frozenset())]
        for it, copied in operands:
            if is_plain(it):
                continue
            further: list[Alternative] = []
            for state in states:
                found = None if is_shut(it) else self.alternatives(it, copied, state, (), False)
                if found is None:
                    raise Refused(11, "what isn't opened can't be joined")
                further += found
                self.bound(further)
            states = further
        together = joined_by("or", [self.literal(one) for one in states])
        first = next(place for place, (it, _copied) in enumerate(operands) if not is_plain(it))
        kept = [together if place == first else meant[place] for place, (it, _copied) in enumerate(operands) if place == first or is_plain(it)]
        return joined_by("and", kept)

    def literal(self, one: Alternative) -> tuple:
        """The literal of declarations that are joined, with the values of a label joined where the opening rule asks for it."""
        self.refuse_names(one)
        held = [it for it in one.declarations if not is_plain(it.value) and not isinstance(it.mark, Made)]
        self.refuse_relaxed(held)
        fields: list[tuple] = []
        done: set[str] = set()
        for it in one.declarations:
            others = [other for other in held if other is not it and (it.label == other.label or "[string]" in (it.mark, other.mark))]
            beside = in_place(it.value) if others and not is_plain(it.value) else it.value
            if it.mark == "[string]":
                fields.append((it.label, it.mark, self.stands_for(beside, it.copied)))
                continue
            same = [other for other in held if other.mark != "[string]" and other.label == it.label]
            value = self.together(same) if any(other is it for other in held) else None
            if value is None:
                fields.append((it.label, it.mark, self.stands_for(beside, it.copied)))
            elif it.label not in done:
                done.add(it.label)
                fields.append((it.label, next((other.mark for other in same if other.mark != "?"), "?"), value))
        return ("struct", fields, one.opened)

    def together(self, same: list[Declaration]) -> tuple | None:
        """What the values of a label stand for where they are joined."""
        meant = self.beside([it.value for it in same], [it.copied for it in same])
        if not asks_joining([it.value for it in same]):
            return None
        try:
            return self.joined([(it.value, it.copied) for it in same], meant)
        except Refused:
            if breaks_opening(meant):
                raise
            return None

    def refuse_names(self, one: Alternative) -> None:
        labels = frozenset(it.label for it in one.declarations if it.mark != "[string]" and not isinstance(it.label, Quoted))
        for it in one.declarations:
            if names_in(it.value) & labels - it.home:
                raise Refused(10, "a name would name a field of another literal")

    @staticmethod
    def refuse_relaxed(held: list[Declaration]) -> None:
        """Two values of a label, as `[string]` is one of each: one was brought by an embedding and holds something shut, and the other comes
        from elsewhere. There cue opens what is shut."""
        for it in held:
            if not it.brought or not holds_shut(it.value):
                continue
            for other in held:
                is_of_one = "[string]" in (it.mark, other.mark) or it.label == other.label
                is_one = it.value[0] == "ref" and it.value == other.value
                if is_of_one and it.brought != other.brought and not is_one:
                    raise Refused(11, "what an embedding closes would be opened")

    # Defaults.

    def has_default(self, it: tuple, reaching: tuple = ()) -> bool:
        if it[0] == "or":
            return any(part[0] == "marked" for part in it[1])
        if it[0] == "held":
            return self.has_default(("ref", it[1].name), reaching)
        if it[0] == "ref" and it[1] not in reaching and len(self.package.get(it[1], [])) == 1:
            return self.has_default(self.package[it[1]][0], (*reaching, it[1]))
        return False

    def unmarked(self, it: tuple, whole: bool) -> tuple:
        """The expression with fields that have a default optional, and without marks, which stand in the whole value of something alone."""
        form = it[0]
        if form == "or":
            if not whole and any(part[0] == "marked" for part in it[1]):
                raise Refused(5, "a mark that isn't in the whole value")
            return ("or", [self.unmarked(part[1] if part[0] == "marked" else part, False) for part in it[1]])
        if form == "and":
            return ("and", [self.unmarked(part, False) for part in it[1]])
        if form == "list":
            return ("list", [self.unmarked(part, True) for part in it[1]], it[2] and self.unmarked(it[2], True))
        if form != "struct":
            return it
        fields = []
        for label, mark, value in it[1]:
            others = [field for field in it[1] if field[2] is not value and (field[0] == label or field[1] == "[string]")]
            others = [field for field in others if not isinstance(field[1], Made)]
            if mark == "" and self.has_default(value):
                if any(field[1] in ("?", "[string]") or field[1] == "" and self.has_default(field[2]) for field in others):
                    raise Refused(5, "another declaration that may be absent beside a default")
                mark = "?"
            fields.append((label, mark, self.unmarked(value, True)))
        return ("struct", fields, it[2])

    def of_bodies(self, bodies: list[tuple]) -> list[tuple]:
        """What bodies of a definition stand for: those that aren't plain are one where the opening rule refuses them."""
        found = self.beside(bodies, [frozenset()] * len(bodies))
        held = [place for place, body in enumerate(bodies) if not is_plain(body)]
        if not asks_joining(bodies):
            return found
        try:
            together = self.joined([(bodies[place], frozenset()) for place in held], [found[place] for place in held])
        except Refused:
            if breaks_opening(found):
                raise
            return found
        return [together if place == held[0] else it for place, it in enumerate(found) if place not in held[1:]]

    def whole(self) -> Package:
        meant = {name: [self.unmarked(body, True) for body in self.of_bodies(bodies)] for name, bodies in self.package.items()}
        if any(breaks_opening(bodies) or any(breaks_rule_inside(meant, body) for body in bodies) for bodies in meant.values()):
            raise Refused(11, "a literal that has to be opened")
        if len(meant) > 1000 or sum(nodes(body) for bodies in meant.values() for body in bodies) > MOST_NODES:
            raise Refused(14, "too large")
        return {name: [with_references(body) for body in bodies] for name, bodies in meant.items()}


def with_references(it: tuple) -> tuple:
    """The expression in which names that nothing has closed are references to what they hold."""
    return ("ref", it[1].name) if it[0] == "held" else rebuilt(it, with_references)


def together(files: list[Package]) -> Package:
    """The package of files, with the bodies of each definition in their order."""
    package: Package = {}
    for name, bodies in (it for file in files for it in file.items()):
        package[name] = [*package.get(name, []), *bodies]
    return package


def widened(*sources: str) -> Package:
    """What the files stand for: first names are resolved, then conditions are embedded, then literals are joined."""
    files = [WideReader(source).package() for source in sources]
    if not any(has_names(file) for file in files):
        return Widening(together(files)).whole()
    meant = Widening(Conditions(named(files)).whole()).whole()
    refuse_cycles(meant)
    return meant


def spelled(package: Package) -> str:
    return "".join(f"{name}: {text(body)}\n" for name, bodies in package.items() for body in bodies)


def main(paths: list[str]) -> int:
    sources = [Path(it).read_text() for it in paths] if paths else [sys.stdin.read()]
    try:
        sys.stdout.write(spelled(widened(*sources)))
    except Refused as why:
        print(why)
        return 1
    return 0


if __name__ == "__main__":
    sys.exit(main(sys.argv[1:]))
