"""Random sources with nested and hidden names, lets, selectors and conditions, on which tools/widened.py compares the model of tools/widening.py
with the direct reading of tools/named_reading.py.
"""
from __future__ import annotations

import random

PLAIN = ["int", "string", "bool", "1", '"x"', "null | int", ">0", '"x" | "y"', "_", "[...int]"]
DEFAULTS = ["*1 | int", '*"x" | string', "bool | *false"]
# Fields of which conditions ask, with conditions on them.
ASKED = {
    "bool": ["F", "!F", "F == true", "F != false"],
    "int": ["F == 1", "F != 1", "F > 0", "F <= 1"],
    '"x" | "y"': ['F == "x"', 'F != "x"'],
    "null | int": ["F == null", "F != null", "F == 1"],
    "_": ["F == 1", 'F != "x"', "F == null"],
    "string | bool": ["F", "F == true", 'F == "x"'],
    "*1 | int": ["F == 1", "F != 1", "F > 1", "F != _|_"],
    "bool | *false": ["F", "!F", "F == _|_"],
}


class Sources:
    """Random sources. A name refers most of the time to what was declared before it, since few cycles are taken."""

    def __init__(self, chance: random.Random) -> None:
        self.chance = chance
        # The labels and the names that a definition has, for selectors.
        self.within: dict[str, list[str]] = {}
        # The names of literals, which may be embedded.
        self.literals: set[str] = set()

    def has(self, share: float) -> bool:
        return self.chance.random() < share

    def package(self) -> str:
        known: list[str] = []
        lines = []
        for name in self.chance.sample(["let L", "_t", "T", "_#D", "#A", "#B", "#C"], self.chance.choice([0, 1, 1, 2, 2, 3])):
            is_plain = name in ("let L", "_t", "T") and self.has(0.5)
            body = self.chance.choice(PLAIN + DEFAULTS) if is_plain else self.body(name, known, 2)
            lines.append(f"{name} = {body}" if name == "let L" else f"{name}: {body}")
            known.append(name.removeprefix("let "))
            self.note(name, body)
        lines.append(f"#P: {self.literal('#P', known, self.chance.choice([1, 1, 2, 2, 3]))}")
        if self.has(0.1):
            lines.append(f"#P: {self.literal('', known, 1)}")
        # A name that hides a kind.
        lines += ["int: string"] if self.has(0.04) else []
        source = "\n".join(reversed(lines) if self.has(0.5) else lines)
        return source if "let L" not in source or "L" in source.replace("let L", "") else source + "\n#Z: L"

    def note(self, name: str, body: str) -> None:
        """Whether a name may be embedded, which hides what was noted of another one of that name."""
        name = name.removeprefix("let ")
        self.literals.discard(name)
        if body.startswith("{") and " & " not in body.rpartition("}")[2]:
            self.literals.add(name)

    def body(self, name: str, known: list[str], depth: int) -> str:
        form = self.chance.random()
        known = [*known, name] if self.has(0.06) and "let" not in name else known
        if form < 0.7:
            return self.literal(name, known, depth)
        return f"{self.literal('', known, depth - 1)} | {self.literal('', known, depth - 1)}" if form < 0.8 else self.value(known, depth)

    def literal(self, name: str, known: list[str], depth: int) -> str:
        """A literal, whose labels and names are noted for selectors where it has a name. What is noted of those inside of it is forgotten."""
        noted = dict(self.within), set(self.literals)
        declared, own, labels = [], [], self.chance.sample("abcdeijmnopqrstu", self.chance.randint(1, 3))
        pool = ["#K", "#Q", "#S", "#A", "#B", "_h", "_i", "_t", "let N", "let M", "let L"]
        for it in self.chance.sample(pool, self.chance.choice([0, 0, 1, 1, 2]) if depth > 0 else 0):
            inner = self.chance.choice(PLAIN + DEFAULTS[:1]) if self.has(0.4) else self.body(it, [*known, *own], depth - 1)
            declared.append(f"{it} = {inner}" if "let" in it else f"{it}: {inner}")
            own.append(it.removeprefix("let "))
            self.note(it, inner)
        names = [it for it in known if it not in own] + own * 3
        used = [it for it in own if self.has(0.4 if it[0] in "#_" else 0.97)]
        declared += [f"{label}{self.chance.choice(['', '', '?'])}: {it}" for label, it in zip("fgh", used)]
        declared += [f"{label}{self.chance.choice(['', '', '', '?', '!'])}: {self.value(names, depth - 1)}" for label in labels]
        declared += [f"{label}: {self.chance.choice(PLAIN)}" for label in labels if self.has(0.08)]
        further = self.further(names, depth)
        inside, (self.within, self.literals) = self.within, noted
        if name and (not any("|" in it or it.startswith("if") for it in further) or self.has(0.1)):
            found = [it.split(":")[0] for it in declared if it[1] in ":KQSAB"]
            self.within[name.removeprefix("let ")] = found + [f"{it}.{label}" for it in found for label in inside.get(it, [])]
        declared += further
        self.chance.shuffle(declared)
        return "{" + ", ".join(declared + ["..."] * self.has(0.15)) + "}"

    def further(self, names: list[str], depth: int) -> list[str]:
        """Embedded expressions and conditions of a literal."""
        found = [self.embedded(names, depth - 1)] if depth > 0 and self.has(0.25) else []
        found += [f"[string]: {self.value(names, 0)}"] if self.has(0.03) else []
        if depth > 0 and self.has(0.4):
            kind = self.chance.choice(list(ASKED))
            mark = self.chance.choice(["", "", "", "!", "?"])
            label = self.chance.choice("klvwxyz")
            found.append(f"{label}{mark}: {kind}")
            first = f"{label} != _|_ if " if mark == "?" and self.has(0.95) else ""
            asked = [first + self.chance.choice(ASKED[kind]).replace("F", label) for _ in range(self.chance.choice([1, 1, 2]))]
            found += [f"if {it} {self.literal('', names, self.chance.choice([0, 0, depth - 1]))}" for it in asked]
        return found

    def embedded(self, names: list[str], depth: int) -> str:
        form = self.chance.random()
        fitting = [it for it in names if it in self.literals]
        if form < 0.5 and fitting:
            return self.chance.choice(fitting) if self.has(0.9) else self.name(names)
        return self.literal("", names, depth) if form < 0.8 else f"{self.literal('', names, depth)} | {self.literal('', names, depth)}"

    def name(self, names: list[str]) -> str:
        """A name, or a chain of selectors from one."""
        found = self.chance.choice(names)
        labels = self.within.get(found, [])
        return f"{found}.{self.chance.choice(labels)}" if labels and self.has(0.6) else found

    def joined(self, names: list[str]) -> str:
        """Two operands of `&`, most of them literals that nothing has closed, where there are such."""
        fitting = [it for it in names if it in self.literals and "#" not in it]
        first, second = (self.chance.choice(fitting) if fitting and self.has(0.8) else self.name(names) for _ in range(2))
        return f"{first} & {second if self.has(0.4) else self.literal('', names, 0)}"

    def value(self, names: list[str], depth: int) -> str:
        form = self.chance.random()
        if names and form < 0.4:
            return self.name(names)
        if form < 0.6 or depth <= 0 and form < 0.9:
            return self.chance.choice(PLAIN + DEFAULTS[:1])
        if form < 0.8 and depth > 0:
            return self.literal("", names, depth)
        if form < 0.94 and names:
            return self.joined(names)
        return f"[...{self.value(names, depth - 1)}]" if form < 0.97 else f"{self.name(names) if names else 'null'} | {self.chance.choice(PLAIN)}"


SCALARS = [0, 1, 2, "x", "y", None, True, False, {}, []]


def places(doc, before: tuple = ()) -> list[tuple]:
    """The paths to all that is in a document."""
    inner = doc.items() if isinstance(doc, dict) else enumerate(doc) if isinstance(doc, list) else []
    return [before, *(place for key, part in inner for place in places(part, (*before, key)))]


def mutated(chance: random.Random, doc):
    """A document that differs at one place: something is another scalar, is missing, or is there."""
    return changed(chance, doc, chance.choice(places(doc)))


def changed(chance: random.Random, doc, place: tuple):
    if len(place) > 1 or place and isinstance(doc, list) or place and chance.random() < 0.55:
        parts = dict(doc) if isinstance(doc, dict) else list(doc)
        parts[place[0]] = changed(chance, doc[place[0]], place[1:])
        return parts
    if place:
        return {label: inner for label, inner in doc.items() if label != place[0]}
    if isinstance(doc, dict) and chance.random() < 0.9:
        return {**doc, chance.choice("abcdefghklnpz"): chance.choice(SCALARS)}
    return chance.choice(SCALARS)
