#!/usr/bin/env python3
"""Compares what `explain N` prints with the tables of docs/REFUSALS.md, both ways. A line for each difference, and a closing count.

    tools/explained.py PROGRAM

The rows are those of tables whose first column is `no.`. Of a row the column `meaning` or `form` is printed behind its number, and the
column `what to do` on the next line. The program prints the rows of a number in any order. Each number up to 40 that the page lacks has
to be a fault of the command line.

What `--why` and `check` tell of each source that docs/PROFILE.md says to write otherwise has to be a row of cases/refusals and of
cases/check-refusals.
"""
import re
import subprocess
import sys
from pathlib import Path

TOP = Path(__file__).resolve().parent.parent
PAGE = TOP / "docs" / "REFUSALS.md"
PROFILE = TOP / "docs" / "PROFILE.md"


def cells(line):
    """The cells of a line of a table."""
    return [cell.strip().replace("\\|", "|") for cell in re.split(r"(?<!\\)\|", line)[1:-1]]


def rows():
    """The rows of the page: for each number its meanings, each with what to do."""
    found, header = {}, None
    for line in PAGE.read_text().split("\n"):
        if not line.startswith("|"):
            header = None
        elif header is None:
            header = cells(line)
        elif header[0] == "no." and not line.startswith("|--"):
            row = dict(zip(header, cells(line)))
            meaning = row.get("meaning", row.get("form"))
            found.setdefault(int(row["no."]), []).append((meaning, row["what to do"]))
    return found


def printed_rows(number, text):
    """What the program printed for a number: its meanings, each with what to do."""
    lines = text.split("\n")
    front = f"{number}: "
    return [(meaning.removeprefix(front), remedy) for meaning, remedy in zip(lines[0::2], lines[1::2]) if meaning.startswith(front)]


def forms():
    """The sources that the page on the profile says to write otherwise, with a `;` for each newline."""
    table = PROFILE.read_text().partition("## If you know CUE")[2].partition("\n## ")[0]
    for line in table.split("\n"):
        if line.startswith("| `") and len(cells(line)) == 4:
            yield ";".join(part.strip("`") for part in cells(line)[0].split("<br>"))


def untold():
    """A line for each of these sources that a table of cases lacks, and how many there are and aren't."""
    lines, passed = [], 0
    for folder in ("refusals", "check-refusals"):
        table = (TOP / "cases" / folder / "table").read_text().split("\n")
        told = {row.split(" => ")[0] for row in table}
        for form in forms():
            passed += form in told
            if form not in told:
                lines.append(f"docs/PROFILE.md: cases/{folder}/table has no row for {form}")
    return lines, passed


def main(program):
    page = rows()
    lines, passed = untold()
    failed = len(lines)
    for line in lines:
        print(line)
    for number in range(41):
        run = subprocess.run([program, "explain", str(number)], capture_output=True, text=True)
        if number in page:
            printed = printed_rows(number, run.stdout)
            is_whole = run.stdout.count("\n") == 2 * len(printed)
            well = run.returncode == 0 and is_whole and sorted(printed) == sorted(page[number])
        else:
            well = run.returncode == 3 and not run.stdout and run.stderr
        passed, failed = passed + bool(well), failed + (not well)
        if not well:
            print(f"explain {number}: status {run.returncode}, printed {run.stdout!r}; the page has {page.get(number)}")
    print(f"{passed} passed, {failed} failed")
    return 1 if failed else 0


if __name__ == "__main__":
    sys.exit(main(sys.argv[1]))
