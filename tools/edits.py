#!/usr/bin/env python3
"""Tries the edits of edits/: each is a mistake that the prover must refuse. A line for each, and a closing count.

    tools/edits.py CRATE..          the edits of these crates; JOBS=N: on so many lanes side by side
    tools/edits.py --all            those of all crates
    tools/edits.py --since [REV]    those of the crates whose code, specs, proofs or edits differ from the commit REV. Without
                                    REV it is where this branch left the one that it tracks
    tools/edits.py --gate           those that edits/GATE names, over the libraries that `rt ci` left
    tools/edits.py --left CRATE..   those of these crates, or of all, that edits/TRIED doesn't have as they are, over the libraries that `rt ci`
                                    left: each that is refused is written there, so a run that was cut off goes on
    tools/edits.py --untried        tries none: how many of each crate edits/TRIED doesn't have as they are
    tools/edits.py --fit            tries none: says which edits don't fit the code any more

The crates are proved in a scratch copy of this tree, over what earlier checks here kept, and edits over what that proved.
Edits of different functions are tried in one check: where each of these functions itself is not proved, each is because of its
own edit, since the prover doesn't judge a function that calls one that isn't proved. Else they are tried apart.

The gate proves no crate a second time: `rt ci` has just proved all of them, so of each crate the functions with edits alone are
checked, over the libraries that it left in crates/*/out/rlib. Each such check also proves what these functions call in the crate.
Where the edits of a crate don't fit into one check, each check begins with what those before it proved, so the one whose functions
call the most comes first.
"""
from __future__ import annotations

import functools
import hashlib
import os
import re
import shutil
import subprocess
import sys
import tempfile
import threading
from collections import Counter
from dataclasses import dataclass
from pathlib import Path

import kit
from kit import TOP

# The edits that were refused, each with the checksum of what it was tried on: CRATE/NAME SUM.
TRIED = TOP / "edits/TRIED"
MOST_AT_ONCE = 12
MESSAGE = re.compile(r"(?:note: )?(?:\./)?([^ :]+):(\d+):\d+: (.*)")
UNREADABLE = re.compile(r"is not in scope|has no field|is no name|operand is missing|expected the end|cannot continue")
TAKEN_AWAY = re.compile(r"has no field|is not in scope|has no `|was not admitted")
# How the prover says of a function that it is itself not proved, and not only one that it calls.
ITSELF = r"not proved|no proof: expected answers in [^;]+; `search` did not prove [^;]+"
CALLED = re.compile(r"(\w+)(?:::<[^>]*>)?\(")
FUNCTION = re.compile(r"\s*(?:pub(?:\(crate\))? )?fn (\w+)")
METHODS = re.compile(r"impl(?:<[^>]*>)? (\w+)(?:<[^>]*>)? \{")
# A line of antt at the edge that begins a definition or one of its cases.
DEFINES = re.compile(r"(?:  )?(?:(?:abbrev|record|data|unfoldable|pub|mutual) )*([^\s:=]+) ")
MOST_CITING = 3


class Misfit(Exception):
    """An edit doesn't fit the code."""


@dataclass(frozen=True)
class Edit:
    """A change of some files of a crate: pairs of a text, which is in its file once, and what takes its place."""

    label: str
    crate: str
    pairs: tuple[tuple[str, str, str], ...]

    @staticmethod
    def read(path: Path, crate: str) -> "Edit":
        pairs, file, old = [], None, None
        for line in path.read_text().split("\n"):
            if line.startswith("file: "):
                file = line[len("file: ") :]
            elif line.startswith("old: "):
                old = line[len("old: ") :]
            elif line.startswith("new:") and file and old:
                pairs.append((file, old, re.sub(r"\Anew: ?", "", line)))
        return Edit(f"{crate}/{path.name}", crate, tuple(pairs))

    def files(self) -> set[str]:
        return {file for file, _, _ in self.pairs}

    def apply(self, folder: Path, texts: dict[str, str]) -> dict[str, str]:
        """The files as this edit makes them, from these texts, or from those in the crate's folder."""
        made = dict(texts)
        if not self.pairs:
            raise Misfit("no text is looked for")
        for file, old, new in self.pairs:
            if file not in made:
                if not (folder / file).is_file():
                    raise Misfit(f"there is no {file}")
                made[file] = (folder / file).read_text()
            if made[file].count(old) != 1:
                raise Misfit(f"{made[file].count(old)} times in {file}: {old}")
            made[file] = made[file].replace(old, new)
        return made

    def function(self, folder: Path) -> tuple[str, str] | None:
        """The file and the name of the one function that this edit changes, if it changes no more."""
        texts: dict[str, str] = {}
        found = set()
        for file, old, new in self.pairs:
            text = texts.get(file) or (folder / file).read_text()
            texts[file] = text.replace(old, new)
            found.add((file, function_at(texts[file], text[: text.index(old)].count("\n"))))
        one = found.pop() if len(found) == 1 else None
        return one if one and one[0].startswith("src/") and one[1] else None

    def called(self, reached: dict[str, set[str]]) -> set[str]:
        """The functions of the crate that what takes the texts' places calls, also by others."""
        names = {name for _, _, new in self.pairs for name in CALLED.findall(new)} & reached.keys()
        return names.union(*(reached[it] for it in names))

    def path(self, folder: Path) -> str | None:
        """The path below the crate of the one function that this edit changes, or of its module where it is a trait's method."""
        one = self.function(folder)
        if not one:
            return None
        lines = (folder / one[0]).read_text().split("\n")
        return path_at(one[0], lines, next(place for place, line in enumerate(lines) if self.pairs[0][1] in line), one[1])

    def definitions(self, folder: Path) -> set[str]:
        """The names of the definitions that this edit changes in specs/."""
        found = set()
        for file, old, _ in self.pairs:
            if file.startswith("specs/"):
                text = (folder / file).read_text()
                found.add(definition_at(text.split("\n"), text[: text.index(old)].count("\n")))
        return found - {None}


def function_at(text: str, line: int) -> str | None:
    """The name of the function around a line, counted from 0."""
    names = (FUNCTION.match(it) for it in reversed(text.split("\n")[: line + 1]))
    return next((it[1] for it in names if it), None)


def path_at(file: str, lines: list[str], place: int, name: str) -> str | None:
    """The path below the crate of a function of this name around a line, or of its module where it is a trait's method."""
    module = [it for it in Path(file).with_suffix("").parts[1:] if it != "lib"]
    block = next((it for it in reversed(lines[: place + 1]) if re.match(r"(impl\b.*\{|\})\Z", it)), "}")
    if block == "}":
        return "::".join([*module, name])
    methods = METHODS.match(block)
    return "::".join([*module, methods[1], name] if methods else module) or None


def definition_at(lines: list[str], place: int) -> str | None:
    """The name of the definition around a line of a file of specs/, counted from 0."""
    names = (DEFINES.match(it) for it in reversed(lines[: place + 1]) if not it.startswith(("--", "use ", "module ", "where ")))
    return next((it[1] for it in names if it), None)


def words_of(text: str) -> set[str]:
    return set(re.findall(r"[^\s(){}\[\].,;:λ⟦⟧«»]+", text))


def clauses(folder: Path) -> dict[str, set[str]]:
    """The functions of a crate by path, each with the words of its clauses."""
    found: dict[str, set[str]] = {}
    for file in sorted((folder / "src").rglob("*.rt")):
        lines = file.read_text().split("\n")
        for place, line in enumerate(lines):
            at = FUNCTION.match(line)
            if not at:
                continue
            indent = line[: len(line) - len(line.lstrip())]
            end = next((it for it in range(place, len(lines)) if re.match(rf"{indent}(\{{.*|.*;|.*\{{)\Z", lines[it])), place)
            path = path_at(str(file.relative_to(folder)), lines, place, at[1])
            if path and end > place:
                found.setdefault(path, set()).update(words_of(" ".join(lines[place + 1 : end])))
    return found


def citing(names: set[str], crate: str) -> list[str]:
    """The paths of functions whose clauses name one of these definitions, or else one that rests on them; those first that call few others."""
    folder = TOP / "crates" / crate
    functions, reached = clauses(folder), calls(crate)
    parts: dict[str, set[str]] = {}
    for file in (folder / "specs").rglob("*.antt"):
        lines = file.read_text().split("\n")
        for place, line in enumerate(lines):
            if not line.startswith(("--", "use ")) and (name := definition_at(lines, place)):
                parts.setdefault(name, set()).update(words_of(line))
    while True:
        found = [path for path, words in functions.items() if words & names]
        more = names | {name for name, words in parts.items() if words & names}
        if len(found) >= MOST_CITING or more == names:
            return sorted(found, key=lambda path: len(reached.get(path.split("::")[-1], ())))
        names = more


def calls(crate: str) -> dict[str, set[str]]:
    """The functions of a crate by name, each with those that its code seems to call, also by others."""
    named: dict[str, set[str]] = {}
    for file in (TOP / "crates" / crate / "src").rglob("*.rt"):
        name = ""
        for line in file.read_text().split("\n"):
            at = FUNCTION.match(line)
            name = at[1] if at else name
            called = CALLED.findall(line[at.end() :] if at else line)
            if not re.match(r"\s*(//|ensures|requires|ghost|#\[)", line):
                named.setdefault(name, set()).update(called)
    reached = {name: words & named.keys() for name, words in named.items()}
    while True:
        more = {name: names.union(*(reached[it] for it in names)) for name, names in reached.items()}
        if more == reached:
            return reached
        reached = more


def unread(said: str, files: set[str]) -> str | None:
    """A message by which the prover could not read what it was given, where a statement that is only false reads well."""
    for line in said.split("\n"):
        at = MESSAGE.match(line)
        if not at or not at[3].startswith("error: ") or at[1] not in files and not at[1].startswith(("src/", "specs/")):
            continue
        words = at[3][len("error: ") :]
        if not re.match(r"`[^`]*`: ", words) or UNREADABLE.search(re.sub(r"`[^`]*`", "", words)):
            return line
    return None


def reasons(said: str) -> list[re.Match]:
    """The messages that say what is not proved."""
    found = (MESSAGE.match(line) for line in said.split("\n"))
    return [it for it in found if it and (it[0].startswith("note: ") or it[3].startswith("error: "))]


def is_by_name(reason: re.Match) -> bool:
    return reason[1].startswith("proofs/") and bool(TAKEN_AWAY.search(reason[3]))


def run(words: list[str], folder: Path) -> subprocess.CompletedProcess[str]:
    """Runs a command there; what it says on both streams is its output."""
    streams = {"stdin": subprocess.DEVNULL, "stdout": subprocess.PIPE, "stderr": subprocess.STDOUT}
    return subprocess.run(words, cwd=folder, **streams, text=True, errors="replace")


class Lane:
    """What tries edits one check at a time."""

    # The tree whose crates are edited.
    proved: Path
    # Whether an edit counts too where it is refused only because a proof names what it took away, which says little of the contract.
    takes_names = True
    # Whether no other lane tries an edit of the same crate meanwhile.
    is_alone_in_a_crate = False

    def check(self, crate: str, made: dict[str, str], paths: list[str]) -> tuple[int, str]:
        """Checks the functions at these paths, or where there are none the crate, with these texts in place of its own: the status, and what is said."""
        raise NotImplementedError

    def alone(self, edit: Edit) -> tuple[bool, str]:
        """The answer of the edit's own function, or of some that cite the definition that it changes, or else of the whole crate: what
        the function may do, one that calls it may not, and what turns code and definition alike, only a law or a sample refuses."""
        folder = self.proved / "crates" / edit.crate
        path = edit.path(folder)
        paths = [path] if path else citing(edit.definitions(folder), edit.crate)
        for some in (paths[:1], paths[1:MOST_CITING]):
            well, text = self.answer(edit, some) if some else (False, "")
            if well:
                return well, text
        return self.answer(edit, [])

    def answer(self, edit: Edit, paths: list[str]) -> tuple[bool, str]:
        made = edit.apply(self.proved / "crates" / edit.crate, {})
        status, said = self.check(edit.crate, made, paths)
        bad = unread(said, edit.files())
        if bad:
            return False, f"BAD EDIT: the prover cannot read the edited text: {bad[:200]}"
        if status == 0:
            return False, "NOT REFUSED: the crate is still proved with this edit"
        if status != 1 or not re.search(r"^(logic=not-proved|only=)", said, re.M):
            return False, f"BAD EDIT: it did not reach the prover: {' '.join(said.split())[:200]}"
        told = reasons(said)
        first = next((it for it in told if not is_by_name(it)), None)
        if told and not first:
            return self.takes_names, f"refused, but only because a proof names what the edit took away: {told[0][0][:160]}"
        return True, f"refused: {first[0][:160] if first else ''}"

    def together(self, edits: list[Edit]) -> dict[Edit, str]:
        """Of edits of different functions those that are refused by their own function, each with the reason; none where that isn't certain."""
        made: dict[str, str] = {}
        functions, paths = {}, []
        for edit in edits:
            folder = self.proved / "crates" / edit.crate
            made = edit.apply(folder, made)
            functions[edit] = edit.function(folder)
            paths.append(edit.path(folder))
        status, said = self.check(edits[0].crate, made, [] if None in paths else paths)
        if status == 2:
            # One of the paths fits no function.
            _, said = self.check(edits[0].crate, made, [])
        if unread(said, set(made)):
            return {}
        told = [it for it in reasons(said) if not is_by_name(it)]
        refused = {}
        for edit, (file, name) in functions.items():
            module = re.sub(r"::lib\Z", "", "::".join([edit.crate, *Path(file).with_suffix("").parts[1:]]))
            proofs = f"proofs/{'/'.join(module.split('::')[1:])}/"
            own = [it for it in told if it[1] == file and function_at(made[file], int(it[2]) - 1) == name or it[1].startswith(proofs) and f"/{name}/" in it[1]]
            if own and re.search(rf"^fn {module}::(?:\w+::)*{name}: (?:{ITSELF})$", said, re.M):
                refused[edit] = f"refused: {own[0][0][:160]}"
        return refused


class TreeLane(Lane):
    """A tree of its own, in which one crate at a time is edited and checked; the others are the same files as in the proved tree."""

    def __init__(self, proved: Path, tree: Path):
        self.proved, self.tree, self.own = proved, tree, None
        shutil.copytree(proved, tree, copy_function=os.link)

    def take(self, crate: str) -> None:
        if crate == self.own:
            return
        for name, copy in ((self.own, os.link), (crate, shutil.copy2)):
            if name:
                shutil.rmtree(self.tree / "crates" / name)
                shutil.copytree(self.proved / "crates" / name, self.tree / "crates" / name, copy_function=copy)
        self.own = crate

    def check(self, crate: str, made: dict[str, str], paths: list[str]) -> tuple[int, str]:
        """Checks the functions at these paths, or where there are none the crate, with these texts in place of its own, which come back afterwards."""
        self.take(crate)
        folder = self.tree / "crates" / crate
        for file, text in made.items():
            (folder / file).write_text(text)
        ran = run(["rt", "check", *words_of_check(paths)], folder)
        for file in made:
            shutil.copy2(self.proved / "crates" / crate / file, folder / file)
        return ran.returncode, ran.stdout


class Kept:
    """What the checks of edits have proved so far, in a folder for each crate that has several, or of which a check is kept: these come one
    after another, and each begins with it. It begins as what a check of the crate kept, where there is one."""

    def __init__(self, batches: list[list[Edit]], room: Path):
        checks = Counter(batch[0].crate for batch in batches)
        before = {name: TOP / "crates" / name / "out" / "incremental" for name in checks}
        self.folders = {name: room / name for name, count in checks.items() if count > 1 or before[name].is_dir()}
        for name, folder in self.folders.items():
            if before[name].is_dir():
                shutil.copytree(before[name], folder, copy_function=os.link)
            else:
                folder.mkdir()

    def of(self, crate: str) -> str | None:
        return str(self.folders[crate]) if crate in self.folders else None


def words_of_check(paths: list[str]) -> list[str]:
    """The words of a check of the functions at these paths, or where there are none of all."""
    return ["--jobs", "1", *(word for path in paths for word in ("--only", path))]


class GateLane(Lane):
    """Checks copies of single crates, over the libraries that `rt ci` left."""

    takes_names = False
    is_alone_in_a_crate = True

    def __init__(self, proved: Path, crates: dict, kept: Kept):
        self.proved, self.crates, self.kept = proved, crates, kept

    def check(self, crate: str, made: dict[str, str], paths: list[str]) -> tuple[int, str]:
        ran = kit.rt().checked(self.crates[crate], made, words_of_check(paths), self.kept.of(crate))
        return ran.returncode, ran.stdout


def called_by(batch: list[Edit], reached: dict[str, dict[str, set[str]]]) -> set[str]:
    """The functions that those which a batch changes call in their crate, also by others."""
    functions = (edit.function(TOP / "crates" / edit.crate) for edit in batch)
    return set().union(*(reached[batch[0].crate].get(it[1], set()) for it in functions if it))


class Trial:
    """The edits that are still to be tried, and the lanes' answers."""

    def __init__(self, edits: list[Edit]):
        self.tasks, self.lock, self.passed, self.count = self.batches(edits), threading.Lock(), 0, len(edits)
        self.busy: set[str] = set()

    @staticmethod
    def batches(edits: list[Edit]) -> list[list[Edit]]:
        """The edits by crate, at most so many in one: there they fit together, and are of functions that don't call each other."""
        made: list[list[Edit]] = []
        reached = {it: calls(it) for it in {edit.crate for edit in edits}}
        for edit in edits:
            folder = TOP / "crates" / edit.crate
            try:
                edit.apply(folder, {})
            except Misfit:
                continue
            place = next((it for it in made if Trial.fits([*it, edit], folder, reached[edit.crate])), None)
            if place is None:
                made.append([edit])
            else:
                place.append(edit)
        return made

    @staticmethod
    def fits(batch: list[Edit], folder: Path, reached: dict[str, set[str]]) -> bool:
        if len(batch) > MOST_AT_ONCE or len({it.crate for it in batch}) > 1:
            return False
        texts: dict[str, str] = {}
        try:
            for it in batch:
                texts = it.apply(folder, texts)
        except Misfit:
            return False
        names = [at[1] if (at := it.function(folder)) else None for it in batch]
        if None in names or len(set(names)) < len(names):
            return False
        called = {name: reached.get(name, set()) | it.called(reached) for name, it in zip(names, batch, strict=True)}
        return not any(one != other and one in called[other] for one in names for other in names)

    def take_the_longest_first(self) -> None:
        """Puts the checks first whose functions call the most others of their crate."""
        reached = self.reached()
        self.tasks.sort(key=lambda batch: -len(called_by(batch, reached)))

    def take_the_cheapest_first(self) -> None:
        """Puts the checks first whose functions call few others of their crate for each edit, and last those for which a whole crate is checked."""
        reached = self.reached()

        def cost(batch: list[Edit]) -> tuple[bool, float]:
            is_whole = None in [edit.path(TOP / "crates" / edit.crate) for edit in batch]
            return is_whole, (len(called_by(batch, reached)) + 8) / len(batch)

        self.tasks.sort(key=cost)

    def reached(self) -> dict[str, dict[str, set[str]]]:
        return {it: calls(it) for it in {batch[0].crate for batch in self.tasks}}

    def answer(self, edit: Edit, well: bool, text: str) -> None:
        with self.lock:
            self.passed += well
            print(f"{edit.label}: {text}", flush=True)

    def next(self, lane: Lane) -> list[Edit] | None:
        """The next edits for a lane, if there are some for it."""
        with self.lock:
            found = (it for it in self.tasks if not (lane.is_alone_in_a_crate and it[0].crate in self.busy))
            batch = next(found, None)
            if batch:
                self.tasks.remove(batch)
                self.busy.add(batch[0].crate)
            return batch

    def work(self, lane: Lane) -> None:
        while batch := self.next(lane):
            self.attempt(lane, batch)
            self.busy.discard(batch[0].crate)

    def attempt(self, lane: Lane, batch: list[Edit]) -> None:
        if len(batch) == 1:
            return self.answer(batch[0], *lane.alone(batch[0]))
        refused = lane.together(batch)
        others = [it for it in batch if it not in refused]
        if not others:
            for edit, text in refused.items():
                self.answer(edit, True, text)
            return None
        # What one that isn't refused by its own function changes may be what another is refused for: so these are tried again without it.
        for edit in others:
            self.attempt(lane, [edit])
        if refused:
            self.attempt(lane, list(refused))
        return None


def edits_of(crate: str, folder: str) -> list[Edit]:
    return [Edit.read(it, crate) for it in sorted((TOP / folder).glob("*.edit"))]


def misfits() -> int:
    """How many edits don't fit, or are named by edits/GATE and not there; each is said."""
    count = 0
    for crate in sorted(it.name for it in (TOP / "edits").iterdir() if it.is_dir()):
        for edit in edits_of(crate, f"edits/{crate}"):
            try:
                edit.apply(TOP / "crates" / crate, {})
            except Misfit as why:
                print(f"{edit.label}: {why}")
                count += 1
    for path in gate_paths():
        if not path.is_file():
            print(f"edits/GATE: there is no {path}")
            count += 1
    return count


def git(*words: str) -> list[str]:
    ran = subprocess.run(["git", *words], cwd=TOP, stdout=subprocess.PIPE, stderr=subprocess.DEVNULL, text=True)
    return ran.stdout.split("\n")[:-1] if ran.returncode == 0 else []


def changed_since(words: list[str]) -> list[str]:
    """The crates with edits in which a file differs from the commit, also one that isn't committed yet."""
    bases = [words[0]] if words else git("merge-base", "HEAD", "@{upstream}") or git("merge-base", "HEAD", "origin/HEAD")
    if not bases:
        sys.exit("this branch tracks none: name a commit by SINCE=REV, or ALL=1")
    files = git("diff", "--name-only", bases[0], "--", "crates", "edits") + git("ls-files", "-o", "--exclude-standard", "--", "crates", "edits")
    found = {it[1] for it in map(re.compile(r"(?:crates(?=/[^/]+/(?:src|specs|proofs)/)|edits)/([^/]+)/").match, files) if it}
    crates = sorted(it for it in found if (TOP / "edits" / it).is_dir())
    print(f"crates that differ from {bases[0]}: {' '.join(crates)}" if crates else f"no crate with edits differs from {bases[0]}", flush=True)
    return crates


def linked_or_copied(file: str, to: str) -> None:
    """The same file at another place, or a copy where the places are on two file systems."""
    try:
        os.link(file, to)
    except OSError:
        shutil.copy2(file, to)


def proved_tree(crates: list[str], tree: Path) -> bool:
    """Proves these crates, and those that they stand on, in a copy of this tree over its kept work, whose files a check replaces and doesn't change."""
    lines = [it for it in (TOP / "crates.txt").read_text().split("\n") if re.match(r"[a-z]", it)]
    below = {it.split(":")[0].split()[0]: it.split(":")[1].split() for it in lines}
    needed, left = set(), list(crates)
    while left:
        crate = left.pop()
        if crate in below and crate not in needed:
            needed.add(crate)
            left.extend(below[crate])
    tree.mkdir()
    (tree / "crates.txt").write_text("".join(f"{it}\n" for it in lines if it.split(":")[0].split()[0] in needed))
    shutil.copy2(TOP / "HANDLES", tree / "HANDLES")
    for crate in needed:
        for part in ("src", "specs", "proofs", "out"):
            if (TOP / "crates" / crate / part).is_dir():
                copied = linked_or_copied if part == "out" else shutil.copy2
                shutil.copytree(TOP / "crates" / crate / part, tree / "crates" / crate / part, copy_function=copied)
    subprocess.run(["git", "init", "-q", "."], cwd=tree, check=True)
    ran = run(["rt", "all", "check", "--jobs", jobs()], tree)
    if ran.returncode:
        print("\n".join(ran.stdout.split("\n")[-30:]))
    return ran.returncode == 0


def jobs() -> str:
    return os.environ.get("JOBS", "1")


def gate_paths() -> list[Path]:
    """The edits that edits/GATE names: CRATE/NAME, a line for each."""
    lines = (TOP / "edits/GATE").read_text().split("\n")
    return [TOP / "edits" / f"{it}.edit" for it in lines if it and not it.startswith("#")]


def is_left(crate) -> bool:
    """Whether the crate's library is there and is of the files as they are. What `rt ci` builds has no stamp, unlike what `rt check` keeps."""
    library = Path(crate.rlib)
    if not library.is_dir() or (library.parent / "stamp").exists():
        return crate.is_built()
    files = [it for part in ("src", "specs", "proofs") for it in Path(crate.folder, part).rglob("*") if it.is_file()]
    return max(it.stat().st_mtime for it in files) < library.stat().st_mtime


def gate_lanes(trial: "Trial", room: Path) -> list[Lane]:
    crates, batches = kit.crates(), trial.tasks
    needed = {below.name: below for batch in batches for below in crates[batch[0].crate].below()}
    lacking = [name for name, crate in needed.items() if not is_left(crate)]
    if lacking:
        sys.exit(f"{lacking[0]} isn't built as its files are: run rt ci first")
    kept = Kept(batches, room)
    return [GateLane(TOP, crates, kept) for _ in range(int(jobs()))]


def tried(trial: "Trial", lanes: list[Lane]) -> int:
    """Tries the edits on these lanes side by side; the status."""
    threads = [threading.Thread(target=trial.work, args=(it,)) for it in lanes]
    for it in threads:
        it.start()
    for it in threads:
        it.join()
    failed = trial.count - trial.passed
    print(f"{trial.passed} passed, {failed} failed")
    return 1 if failed or not trial.count else 0


@functools.lru_cache(maxsize=None)
def sum_of(crate: str) -> bytes:
    """A checksum of the code, the definitions and the proofs of a crate."""
    made, folder = hashlib.sha256(), TOP / "crates" / crate
    for file in sorted(it for part in ("src", "specs", "proofs") for it in (folder / part).rglob("*") if it.is_file()):
        made.update(f"{file.relative_to(folder)}\n".encode() + hashlib.sha256(file.read_bytes()).digest())
    return made.digest()


def mark(edit: Edit) -> str:
    """What edits/TRIED has of an edit that was refused: it changes with the edit and with its crate."""
    return f"{edit.label.removesuffix('.edit')} {hashlib.sha256(sum_of(edit.crate) + repr(edit.pairs).encode()).hexdigest()[:12]}"


def untried(crates: list[str]) -> list[Edit]:
    """The edits of these crates, or of all, that weren't refused as they are."""
    known = set(TRIED.read_text().split("\n")) if TRIED.is_file() else set()
    names = crates or sorted(it.name for it in (TOP / "edits").iterdir() if it.is_dir())
    return [edit for crate in names for edit in edits_of(crate, f"edits/{crate}") if mark(edit) not in known]


class Recorded(Trial):
    """A trial of which edits/TRIED keeps what was refused."""

    def answer(self, edit: Edit, well: bool, text: str) -> None:
        super().answer(edit, well, text)
        if well:
            with self.lock, TRIED.open("a") as file:
                file.write(f"{mark(edit)}\n")


def tidy_tried() -> None:
    """Leaves in edits/TRIED what is still so, in order."""
    whole = {mark(edit) for crate in (TOP / "edits").iterdir() if crate.is_dir() for edit in edits_of(crate.name, f"edits/{crate.name}")}
    TRIED.write_text("".join(f"{it}\n" for it in sorted(whole & set(TRIED.read_text().split("\n")))))


def left(crates: list[str]) -> int:
    TRIED.touch()
    trial = Recorded(untried(crates))
    trial.take_the_cheapest_first()
    with tempfile.TemporaryDirectory() as room:
        lanes = gate_lanes(trial, Path(room))
        for it in lanes:
            it.takes_names = True
        status = tried(trial, lanes)
    tidy_tried()
    return status


def count_untried() -> int:
    counts = Counter(edit.crate for edit in untried([]))
    for crate, count in sorted(counts.items()):
        print(f"{crate}: {count} of {len(edits_of(crate, f'edits/{crate}'))}")
    return 0


def gate() -> int:
    if misfits():
        return 1
    trial = Trial([Edit.read(it, it.parent.name) for it in gate_paths()])
    trial.take_the_longest_first()
    with tempfile.TemporaryDirectory() as room:
        return tried(trial, gate_lanes(trial, Path(room)))


def main(words: list[str]) -> int:
    if words == ["--fit"]:
        return 1 if misfits() else 0
    if words == ["--gate"]:
        return gate()
    if words == ["--untried"]:
        return count_untried()
    if words[:1] == ["--left"]:
        return left(words[1:])
    crates = sorted(it.name for it in (TOP / "edits").iterdir() if it.is_dir()) if words == ["--all"] else changed_since(words[1:]) if words[:1] == ["--since"] else words
    if not crates:
        return 0 if words else 2
    unknown = [it for it in crates if not (TOP / "edits" / it).is_dir()]
    if unknown:
        sys.exit(f"there is no folder edits/{unknown[0]}")
    edits = [edit for crate in crates for edit in edits_of(crate, f"edits/{crate}")]
    with tempfile.TemporaryDirectory() as room:
        if not proved_tree(crates, Path(room, "tree")):
            print("0 passed, 1 failed")
            return 1
        return tried(Trial(edits), [TreeLane(Path(room, "tree"), Path(room, f"lane{at}")) for at in range(int(jobs()))])


if __name__ == "__main__":
    sys.exit(main(sys.argv[1:]))
