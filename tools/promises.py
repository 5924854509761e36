#!/usr/bin/env python3
"""Says where README's sentences on what is proved, docs/CONTRACTS.md and the code differ: status 1 where one does.

    tools/promises.py            a line for each difference
    tools/promises.py --count    how many lines of definitions are to be believed, of the headline and of all these sentences

README's section "What is proved" has numbered points. The table "The sentences of README" of docs/CONTRACTS.md has each of their
sentences, word for word, with the calls and the clauses that say it: `crate::call` and its clauses, or "its clause" where that has no
name, one cell behind the other in the same order. Each of these clauses has to be in the code. A sentence that rests on no clause
says in the second cell why. README names the number of lines of the definitions that the headline rests on, and of those that all these
clauses rest on; and each file that it says to read first is one of these.
"""
from __future__ import annotations

import re
import subprocess
import sys
from dataclasses import dataclass, field
from functools import lru_cache
from pathlib import Path

TOP = Path(__file__).resolve().parent.parent
FUNCTION = re.compile(r"\s*(?:pub(?:\(crate\))? )?fn (\w+)")
CLAUSE = re.compile(r"\s*ensures (?:(\w+) )?\{(.*)")
IMPORT = re.compile(r"ghost use Rattle\.(cs_\w+)\.specs\.(\w+)\.\{(.*)\};")
CALL = re.compile(r"`(cs_\w+)::(\w+)`")
WORD = re.compile(r"[^\s(){}\[\].,;:λ×→]+")
HEADLINE = "crates/cs_tool/specs/Headline.antt"


@dataclass
class Clauses:
    """The clauses of a function: for each name, or the empty one, the files of definitions that it names."""

    files: dict[str, set[str]] = field(default_factory=dict)


def imports(text: str) -> dict[str, str]:
    """The words of definitions that a file of code brings in, each with its file."""
    found = {}
    for crate, module, words in IMPORT.findall(text):
        for word in words.split(","):
            found[word.split(" as ")[-1].strip()] = f"crates/{crate}/specs/{module}.antt"
    return found


def clauses_in(path: Path) -> dict[str, Clauses]:
    """The functions of a file of code with their clauses."""
    text = path.read_text()
    words, found, name, lines = imports(text), {}, "", text.split("\n")
    for place, line in enumerate(lines):
        at, begins = FUNCTION.match(line), CLAUSE.match(line)
        name = at[1] if at else name
        if begins and name:
            said, depth = begins[2], 1 + begins[2].count("{") - begins[2].count("}")
            for more in lines[place + 1 :]:
                if depth <= 0:
                    break
                said, depth = f"{said} {more}", depth + more.count("{") - more.count("}")
            files = {words[it] for it in WORD.findall(said) if it in words}
            found.setdefault(name, Clauses()).files.setdefault(begins[1] or "", set()).update(files)
    return found


@lru_cache(maxsize=None)
def clauses_of(crate: str) -> dict[str, Clauses]:
    """The functions of a crate with their clauses."""
    found: dict[str, Clauses] = {}
    for path in sorted((TOP / "crates" / crate / "src").rglob("*.rt")):
        for name, clauses in clauses_in(path).items():
            for clause, files in clauses.files.items():
                found.setdefault(name, Clauses()).files.setdefault(clause, set()).update(files)
    return found


def sentences(text: str) -> list[str]:
    """The sentences of a paragraph; code in backticks ends none."""
    return [it.strip() for it in re.split(r"(?<=[.])\s+(?=[A-Z`])", " ".join(text.split())) if it.strip()]


def said_by_readme(text: str) -> list[str]:
    """The sentences of the numbered points of the section on what is proved."""
    section = text.split("\n## What is proved\n")[1].split("\n## ")[0]
    points = re.findall(r"^\d+\. (.*(?:\n   .*)*)", section, re.M)
    return [it for point in points for it in sentences(point)]


def rows(text: str) -> list[list[str]]:
    """The rows of the table of README's sentences."""
    section = text.split("\n## The sentences of README\n")[1].split("\n## ")[0]
    lines = [it for it in section.split("\n") if it.startswith("|")]
    return [[cell.strip() for cell in it.strip("|").split(" | ")] for it in lines[2:]]


def lines_of(files: list[str]) -> tuple[str, set[str]]:
    """How many lines the definitions have that these files rest on, as it is written in pages; and their files."""
    ran = subprocess.run(["tools/reached.sh", *files], cwd=TOP, stdout=subprocess.PIPE, text=True, check=True)
    *each, last = ran.stdout.rstrip("\n").split("\n")
    return f"{int(last.split()[0]):,}", {it.split()[1] for it in each}


def checked(table: list[list[str]]) -> tuple[list[str], set[str]]:
    """What is wrong with the rows of the table, and the files of definitions that their clauses name."""
    faults, files = [], set()
    for row in table:
        if len(row) != 3:
            faults.append(f"docs/CONTRACTS.md: a row of README's sentences has {len(row)} cells: {row[0][:60]}")
            continue
        calls, named = CALL.findall(row[1]), row[2].split("; ")
        if calls and len(calls) != len(named):
            faults.append(f"docs/CONTRACTS.md: {len(calls)} calls and clauses of {len(named)}: {row[0][:60]}")
            continue
        for (crate, call), cell in zip(calls, named):
            known = clauses_of(crate).get(call, Clauses()).files
            for clause in re.findall(r"`(\w+)`", cell) or [""]:
                if clause in known:
                    files |= known[clause]
                else:
                    faults.append(f"docs/CONTRACTS.md: {crate}::{call} has no clause {clause or 'without a name'}")
    return faults, files


def main(words: list[str]) -> int:
    readme, contracts = (TOP / "README.md").read_text(), (TOP / "docs/CONTRACTS.md").read_text()
    table = rows(contracts)
    faults, files = checked(table)
    told, listed = said_by_readme(readme), {row[0] for row in table}
    faults += [f"docs/CONTRACTS.md lacks README's sentence: {it}" for it in told if it not in listed]
    whole = " ".join(readme.split())
    faults += [f"README.md hasn't the sentence of docs/CONTRACTS.md: {it}" for it in sorted(listed) if it not in whole]
    headline, _ = lines_of([HEADLINE])
    every, reached = lines_of([HEADLINE, *sorted(files)])
    if words == ["--count"]:
        print(f"{headline} lines for the headline, {every} for all sentences, in {len(reached)} files")
    for words in (f"{headline} lines for the headline", f"{every} for all points above"):
        if words not in whole:
            faults.append(f"README.md doesn't say {words}, as tools/reached.sh counts them")
    first = re.split(r"Read\s+these\s+first:", readme)[1].split("\n## ")[0]
    for line in first.split("\n"):
        folder = ""
        for path in re.findall(r"`([\w/.]+\.antt)`", line):
            folder = str(Path(path).parent) if "/" in path else folder
            path = path if "/" in path else f"{folder}/{path}"
            if path not in reached:
                faults.append(f"README.md says to read {path} first, which isn't counted")
    print("\n".join(faults), end="\n" if faults else "")
    return 1 if faults else 0


if __name__ == "__main__":
    sys.exit(main(sys.argv[1:]))
