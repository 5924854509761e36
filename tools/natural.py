#!/usr/bin/env python3
"""Counts how many of the faults of ordinary CUE two runs of `check` tell, and how many definitions are taken as they were first written.
Two lines for each package and one for each thing that is wrong, the share of all faults and of all definitions, and a closing count.

    tools/natural.py PROGRAM [FOLDER..]        folders of packages; those of cases/natural where none is named

A folder has the files of a package, as somebody writes them who doesn't know the profile, and `mends`: what is changed in
them, one fault after the other, until `export` accepts them. Where it has none, its definitions are counted alone. `taken` names the
definitions that are taken. cases/README.md says how both are written.

- The mends are made in turn. Each time `export` has to refuse with the number of the mend, at a place in the lines that it
  changes, and the first fault that `check` tells has to be the same one. After the last mend `check` tells nothing.
- `check` is run on the package as it is, and once more with the mends of all the faults that this run told.

A fault is a number and a place in the package as it is. Two runs have to tell 85 % of the faults, and nothing else.

The definitions are those at the top of the files, hidden ones among them; those inside of others are parts of these. A definition is taken
where `export` accepts it as the root of a file that has its declarations, and those of all that it refers to, directly or by others; names
in comments and texts are no references, and imports and the names of packages are left out. It is asked without further words and with
`--profile wide`: that has to take what is taken without it, and just those that `taken` names, where there is that file. Each is asked once
more by itself, where the definitions that it refers to are structs with any keys, `{...}`, and with the fields that it selects from them: so are
the forms of its own text counted alone.
"""
from __future__ import annotations

import os
import re
import subprocess
import sys
import tempfile
from pathlib import Path
from typing import NamedTuple

PACKAGES = Path(__file__).resolve().parent.parent / "cases" / "natural"
WANTED_PERCENT = 85
MEND = re.compile(r"(\d+| ) ([^ :]+): (.*?) =>(?: (.*))?")
REFUSED = re.compile(r"error (\d+)(?: at (\d+))?\n")
TOLD = re.compile(r"(?:([^ :]+):(?:(\d+):(\d+):)? )?error (\d+): (.*)")
NO_NAMES = re.compile(r'//[^\n]*|"(?:[^"\\\n]|\\.)*"')
# A bracket, or a name that is declared where no bracket is open.
AT_TOP = re.compile(r"(?P<opens>[{(\[])|(?P<closes>[})\]])|(?:^|,)[ \t]*(?P<name>_?#?[A-Za-z_]\w*)[ \t]*:", re.M)
IS_DEFINITION = re.compile(r"_?#\w+")


class Asked(NamedTuple):
    """How definitions are asked: with which words, and whether each is by itself."""

    words: list[str]
    is_alone: bool


# How the lists of definitions in `taken` begin, and how the definitions of each are asked.
WIDE = ["--profile", "wide"]
LISTS = {"default": Asked([], False), "wide": Asked(WIDE, False), "default-alone": Asked([], True), "wide-alone": Asked(WIDE, True)}


class Change(NamedTuple):
    """A text of a file that becomes another one. `…` in both is what is between, as little as there is."""

    file: str
    before: str
    after: str


class Mend(NamedTuple):
    """What mends a refusal with a number. The first change is in the lines of its place."""

    number: int
    changes: list[Change]

    def __str__(self) -> str:
        first = self.changes[0]
        return f"`{self.number} {first.file}: {first.before} => {first.after}`"


class Fault(NamedTuple):
    """The number of a refusal, and its file and place there. A fault without a place has what `check` says of it."""

    number: int
    file: str
    place: int | None
    words: str


class Wrong(Exception):
    """What is wrong with a package, its mends or an answer."""


class Draft:
    """The text of a file that is being mended, and for each character its place in the text that was read."""

    def __init__(self, text: str):
        self.first = text
        self.text = text
        self.origins = list(range(len(text) + 1))

    def match(self, change: Change) -> re.Match[str]:
        pattern = "(.*?)".join(re.escape(part) for part in change.before.split("…"))
        found = list(re.finditer(pattern, self.text, re.DOTALL))
        if len(found) != 1:
            raise Wrong(f"`{change.before}` is {len(found)} times in {change.file}")
        return found[0]

    def lines_of(self, change: Change) -> tuple[int, int]:
        """From where to where the lines go that a change is in."""
        match = self.match(change)
        end = self.text.find("\n", match.end())
        return self.text.rfind("\n", 0, match.start()) + 1, end if end >= 0 else len(self.text)

    def replace(self, start: int, end: int, put: str) -> None:
        """Puts a text in the place of another one. What both begin and end with stays as it is."""
        taken = self.text[start:end]
        most = min(len(taken), len(put))
        same = next((at for at in range(most) if taken[at] != put[at]), most)
        most -= same
        tail = next((at for at in range(most) if taken[-1 - at] != put[-1 - at]), most)
        start, end, put = start + same, end - tail, put[same : len(put) - tail]
        self.text = self.text[:start] + put + self.text[end:]
        self.origins[start:end] = [self.origins[start]] * len(put)

    def apply(self, change: Change) -> None:
        match = self.match(change)
        before, after = change.before.split("…"), change.after.split("…")
        if len(after) == 1:
            self.replace(match.start(), match.end(), change.after)
            return
        if len(before) != len(after):
            raise Wrong(f"`{change.before}` and `{change.after}` have not as many …")
        end = match.end()
        for group in range(len(before) - 1, -1, -1):
            start = match.end(group) if group else match.start()
            self.replace(start, end, after[group])
            end = match.start(group) if group else start

    def place(self, line: int, column: int) -> int:
        """The place of a line and a column, which count from 1."""
        return sum(len(it) + 1 for it in self.text.split("\n")[: line - 1]) + column - 1


class Package:
    """A package that is being mended, in a folder of its own."""

    def __init__(self, program: str, folder: Path, room: str, root: str):
        self.program, self.room, self.root = program, room, root
        self.drafts = {path.name: Draft(path.read_text(encoding="utf-8")) for path in sorted(folder.glob("*.cue"))}

    def run(self, *words: str) -> subprocess.CompletedProcess[str]:
        for name, draft in self.drafts.items():
            Path(self.room, name).write_text(draft.text, encoding="utf-8")
        run = [self.program, *words, *self.drafts]
        return subprocess.run(run, cwd=self.room, stdin=subprocess.DEVNULL, capture_output=True, encoding="utf-8", timeout=int(os.environ.get("PATIENCE", 20)))

    def export(self) -> tuple[int, int | None] | None:
        """The number and the offset that `export` refuses with; none where it accepts the package."""
        run = self.run("export", "--root", self.root)
        if run.returncode == 0:
            return None
        match = REFUSED.fullmatch(run.stderr)
        if run.returncode != 2 or not match:
            raise Wrong(f"export ended with status {run.returncode} and said {run.stderr!r}")
        return int(match[1]), int(match[2]) if match[2] else None

    def check(self) -> list[Fault]:
        """What `check` tells, by places in the files as they are now."""
        run = self.run("check")
        matches = [TOLD.fullmatch(line) for line in run.stdout.splitlines()]
        if run.returncode != (2 if matches else 0) or None in matches:
            raise Wrong(f"check ended with status {run.returncode} and told {run.stdout!r}")
        return [self.fault(*match.groups()) for match in matches if match]

    def fault(self, file: str | None, line: str | None, column: str | None, number: str, words: str) -> Fault:
        if file and line and column:
            return Fault(int(number), file, self.drafts[file].place(int(line), int(column)), "")
        return Fault(int(number), file or "", None, words)

    def original(self, fault: Fault) -> Fault:
        """The fault by its place in the files that were read."""
        if fault.place is None:
            return fault
        return fault._replace(place=self.drafts[fault.file].origins[fault.place])

    def told(self) -> list[Fault]:
        """The faults that `check` tells, by their places in the files that were read; none of them twice."""
        told = [self.original(fault) for fault in self.check()]
        if len(set(told)) < len(told):
            raise Wrong("check told a fault twice")
        return told

    def mend(self, mend: Mend) -> None:
        for change in mend.changes:
            self.drafts[change.file].apply(change)

    def show(self, fault: Fault) -> str:
        """The fault as a person finds it in the package as it was read."""
        if fault.place is None:
            return f"{fault.file} error {fault.number}: {fault.words}"
        before = self.drafts[fault.file].first[: fault.place].split("\n")
        line = self.drafts[fault.file].first.split("\n")[len(before) - 1]
        return f"{fault.file}:{len(before)}:{len(before[-1]) + 1}: error {fault.number}: {line.strip()}"


def read_mends(folder: Path) -> tuple[str, list[Mend]]:
    """The root, and the mends in their order."""
    head, *lines = (folder / "mends").read_text(encoding="utf-8").splitlines()
    if not head.startswith("root #"):
        raise Wrong("mends doesn't begin with `root #NAME`")
    mends: list[Mend] = []
    for line in lines:
        match = MEND.fullmatch(line)
        if not match:
            raise Wrong(f"mends has a line of another form: {line}")
        change = Change(match[2], match[3], match[4] or "")
        if match[1] == " ":
            mends[-1].changes.append(change)
        else:
            mends.append(Mend(int(match[1]), [change]))
    return head[len("root ") :], mends


def met_fault(package: Package, mend: Mend) -> Fault:
    """The fault that `export` and `check` meet first, which has to be the one of the mend."""
    refused, told = package.export(), package.check()
    if refused is None or not told:
        raise Wrong(f"nothing is refused before {mend}")
    fault, original = told[0], package.original(told[0])
    offset = None if fault.place is None else len(package.drafts[fault.file].text[: fault.place].encode())
    # `check` has a place for some refusals for which `export` prints no offset.
    if refused[0] != fault.number or refused[1] not in (None, offset):
        raise Wrong(f"export refuses with {refused}, and check tells first {package.show(original)}")
    change = mend.changes[0]
    start, end = package.drafts[change.file].lines_of(change)
    inside = refused[1] is None or fault.place is None or fault.file == change.file and start <= fault.place <= end
    if fault.number != mend.number or not inside:
        raise Wrong(f"{package.show(original)}: the mend that comes then is {mend}")
    return original


def meet(package: Package, mends: list[Mend]) -> list[Fault]:
    """The faults that are met by whoever makes the mends in turn."""
    met: list[Fault] = []
    for mend in mends:
        fault = met_fault(package, mend)
        if fault in met:
            raise Wrong(f"{package.show(fault)}: the mend before doesn't mend it")
        met.append(fault)
        package.mend(mend)
    if package.export() is not None or package.check():
        raise Wrong("the package is still refused or warned of when all is mended")
    return met


def without_texts(text: str) -> str:
    """The text with blanks in place of its comments and texts."""
    return NO_NAMES.sub(lambda found: " " * len(found[0]), text)


def declarations(text: str) -> list[tuple[str, str]]:
    """The names that are declared at the top of a file, each with the text up to the next one."""
    starts, depth = [], 0
    for found in AT_TOP.finditer(without_texts(text)):
        depth += bool(found["opens"]) - bool(found["closes"])
        if found["name"] and depth == 0:
            starts.append((found["name"], found.start("name")))
    ends = [start for _name, start in starts[1:]] + [len(text)]
    return [(name, text[start:end].strip().rstrip(",")) for (name, start), end in zip(starts, ends)]


class Written:
    """The declarations at the top of a package as it was first written."""

    def __init__(self, folder: Path) -> None:
        self.declared: dict[str, list[str]] = {}
        for path in sorted(folder.glob("*.cue")):
            for name, declared in declarations(path.read_text(encoding="utf-8")):
                self.declared.setdefault(name, []).append(declared)

    def definitions(self) -> list[str]:
        return [name for name in self.declared if IS_DEFINITION.fullmatch(name)]

    def named_in(self, name: str) -> list[str]:
        """The other names that are declared and stand in the declarations of a name."""
        text = without_texts("\n".join(self.declared[name]))
        return [it for it in self.declared if it != name and re.search(rf"(?<![\w#]){re.escape(it)}(?!\w)", text)]

    def source_of(self, root: str, is_alone: bool) -> str:
        """The declarations of a definition with those of what it refers to, directly or by others, or with a struct for each of these."""
        found = [root]
        for name in found:
            found += [it for it in self.named_in(name) if it not in found and not (is_alone and name != root)]
        lines = [declared for name in (found[:1] if is_alone else found) for declared in self.declared[name]]
        others = [f"{name}: {self.stand_in(root, name)}" for name in found[1:] if is_alone]
        return "".join(f"{it}\n" for it in lines + others)

    def stand_in(self, root: str, name: str) -> str:
        """A struct with any keys, and with the fields that the declarations of a definition select from another one."""
        text = without_texts("\n".join(self.declared[root]))
        selected = set(re.findall(rf"(?<![\w#]){re.escape(name)}\.([A-Za-z]\w*)", text))
        return "{" + ", ".join([*(f"{label}: _" for label in sorted(selected)), "..."]) + "}"

    def is_taken(self, program: str, root: str, asked: Asked) -> bool:
        """Whether `export` accepts the definition."""
        source = self.source_of(root, asked.is_alone)
        run = [program, "export", "--root", root, *asked.words]
        ran = subprocess.run(run, input=source, capture_output=True, encoding="utf-8", timeout=int(os.environ.get("PATIENCE", 20)))
        if ran.returncode not in (0, 2):
            raise Wrong(f"export of {root} ended with status {ran.returncode} and said {ran.stderr!r}")
        return ran.returncode == 0


class Taken(NamedTuple):
    """The definitions of a package, those of them that are taken for each list, and what is wrong with that."""

    definitions: list[str]
    lists: dict[str, list[str]]
    wrong: list[str]


def taken_of(program: str, folder: Path) -> Taken:
    written = Written(folder)
    definitions = written.definitions()
    lists = {name: [it for it in definitions if written.is_taken(program, it, asked)] for name, asked in LISTS.items()}
    pairs = [("default", "wide"), ("default-alone", "wide-alone")]
    wrong = [f"{it} is taken without `--profile wide` alone" for less, more in pairs for it in lists[less] if it not in lists[more]]
    named = folder / "taken"
    for line in named.read_text(encoding="utf-8").splitlines() if named.exists() else []:
        name, *wanted = line.split()
        if sorted(wanted) != sorted(lists[name]):
            wrong.append(f"of the list {name} are taken {' '.join(lists[name])}, and have to be {' '.join(wanted)}")
    return Taken(definitions, lists, wrong)


class Measured(NamedTuple):
    """The faults of a package that are met one after the other, those that each of two runs of `check` tells, and the
    package in its second run."""

    met: list[Fault]
    first: list[Fault]
    second: list[Fault]
    package: Package

    def caught(self) -> list[Fault]:
        return [fault for fault in self.met if fault in self.first or fault in self.second]

    def others(self) -> list[Fault]:
        """What is told and never met."""
        return [fault for fault in dict.fromkeys(self.first + self.second) if fault not in self.met]


def measure(program: str, folder: Path) -> Measured:
    root, mends = read_mends(folder)
    with tempfile.TemporaryDirectory() as room:
        met = meet(Package(program, folder, room, root), mends)
        package = Package(program, folder, room, root)
        first = package.told()
        for fault, mend in zip(met, mends):
            if fault in first:
                package.mend(mend)
        return Measured(met, first, package.told(), package)


def report(name: str, measured: Measured) -> None:
    caught = measured.caught()
    for fault in measured.others():
        print(f"{name}: told and never met: {measured.package.show(fault)}")
    for fault in measured.met:
        if fault not in caught:
            print(f"{name}: not told: {measured.package.show(fault)}")
    first = sum(fault in measured.first for fault in caught)
    print(f"{name}: {len(measured.met)} faults met, {first} of them told in one run, {len(caught)} in two")


def count_faults(program: str, folders: list[Path]) -> tuple[int, int]:
    """How many things are right of the faults of packages, and how many aren't."""
    met = caught = failed = 0
    for folder in folders:
        try:
            measured = measure(program, folder)
        except Wrong as wrong:
            failed += 1
            print(f"{folder.name}: {wrong}")
            continue
        report(folder.name, measured)
        met, caught = met + len(measured.met), caught + len(measured.caught())
        failed += len(measured.others())
    enough = caught * 100 >= met * WANTED_PERCENT > 0
    print(f"all: {met} faults met, {caught} of them told in two runs, which is {100 * caught // max(met, 1)} %")
    return met + enough, failed + (not enough)


def count_definitions(program: str, folders: list[Path]) -> tuple[int, int]:
    """How many definitions are answered well, and how many things are wrong."""
    many = failed = 0
    sums = dict.fromkeys(LISTS, 0)
    for folder in folders:
        try:
            taken = taken_of(program, folder)
        except Wrong as wrong:
            failed += 1
            print(f"{folder.name}: {wrong}")
            continue
        many, failed = many + len(taken.definitions), failed + len(taken.wrong)
        for it in taken.wrong:
            print(f"{folder.name}: {it}")
        counts = {name: len(found) for name, found in taken.lists.items()}
        sums = {name: sums[name] + count for name, count in counts.items()}
        print(f"{folder.name}: {said_of(len(taken.definitions), counts)}")
    print(f"all: {said_of(many, sums)}")
    return many, failed + (many == 0)


def said_of(many: int, taken: dict[str, int]) -> str:
    whole = f"{taken['default']} of them taken as they were first written, {taken['wide']} with `--profile wide`"
    return f"{many} definitions, {whole}; by themselves {taken['default-alone']} and {taken['wide-alone']}"


def main(program: str, folders: list[Path]) -> int:
    mended = [it for it in folders if (it / "mends").exists()]
    passed, failed = count_faults(program, mended) if mended else (0, 0)
    taken, wrong = count_definitions(program, folders)
    print(f"{passed + taken} passed, {failed + wrong} failed")
    return 1 if failed + wrong else 0


if __name__ == "__main__":
    if len(sys.argv) < 2:
        sys.exit(__doc__)
    named = [Path(it) for it in sys.argv[2:]]
    sys.exit(main(str(Path(sys.argv[1]).resolve()), named or sorted(it for it in PACKAGES.iterdir() if it.is_dir())))
