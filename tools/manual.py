#!/usr/bin/env python3
"""Writes the manual pages from the pages for users: cue2schema(1) from docs/USAGE.md, and cue2schema-refusals(7) from docs/REFUSALS.md.

    tools/manual.py FOLDER        the folder gets man1/cue2schema.1 and man7/cue2schema-refusals.7

The text is that of the pages: paragraphs, lists, blocks of code and tables become macros of man(7), a row of a table a tagged
paragraph. In cue2schema(1) the sections of the page stand where readers of manuals look for them: what isn't named in PLACES is about
the commands. The version is that of the command line in crates/cs_command, the date SOURCE_DATE_EPOCH or the day of the last commit.
"""
import os
import re
import subprocess
import sys
import textwrap
import time
from pathlib import Path

TOP = Path(__file__).resolve().parent.parent

# The sections of docs/USAGE.md that don't belong below COMMANDS.
PLACES = {
    "The schema in an editor": "EXAMPLES",
    "The schema in a gateway": "EXAMPLES",
    "agree as a check in a pipeline": "EXAMPLES",
    "Recipes": "EXAMPLES",
    "Statuses": "EXIT STATUS",
}
# What stands in the manual in place of the name of a page that became one.
PAGES = {"docs/USAGE.md": r"\fBcue2schema\fR(1)", "docs/REFUSALS.md": r"\fBcue2schema\-refusals\fR(7)"}
OTHER_PAGES = """docs/PROFILE.md says what is supported of CUE and of JSON Schema, and what to write instead of the rest. The pages
under docs/ are in the sources and in the archive of a release, and Debian's package has them in /usr/share/doc/cue2schema."""
# Characters that roff would take for something else, in text and in code.
TEXT = {"\\": r"\e", "^": r"\(ha", "~": r"\(ti"}
CODE = {**TEXT, "-": r"\-", "'": r"\(aq", "`": r"\(ga", '"': r"\(dq"}


def escaped(text, signs):
    """The text with its signs for roff; what isn't ASCII by its number."""
    return "".join(signs.get(sign, sign if sign.isascii() else f"\\[u{ord(sign):04X}]") for sign in text)


def plain(text):
    """Text without code, with the pages that are manuals by their names there."""
    parts = re.split("(" + "|".join(map(re.escape, PAGES)) + ")", text)
    return "".join(PAGES.get(part) or escaped(part, TEXT) for part in parts)


def inline(text, font="R"):
    """A text with its code and its bold words, in a font to which each of them goes back."""
    parts = []
    for part in re.split(r"(`[^`]+`|\*\*(?:`[^`]+`|[^`])+?\*\*)", text):
        if part.startswith("`"):
            parts.append(f"\\fB{escaped(part[1:-1], CODE)}\\f{font}")
        elif part.startswith("**"):
            parts.append(f"\\fB{inline(part[2:-2], 'B')}\\f{font}")
        else:
            parts.append(plain(part))
    return "".join(parts)


def filled(text):
    """A roff text in lines of at most 80 columns where it has blanks, none of which is taken for a macro."""
    lines = textwrap.wrap(text, 80, break_long_words=False, break_on_hyphens=False)
    return ["\\&" + line if line.startswith((".", "'")) else line for line in lines]


def heading(macro, text):
    """A heading: its text is one word of the macro."""
    return macro + ' "' + inline(text).replace('"', r"\(dq") + '"'


def code_block(lines):
    """A block that is shown as it is."""
    shown = ["\\&" + line if line.startswith((".", "'")) else line for line in (escaped(line, CODE) for line in lines)]
    return [".PP", ".RS 4", ".EX", *shown, ".EE", ".RE"]


def cells(line):
    """The cells of a line of a table."""
    return [cell.strip().replace("\\|", "|") for cell in re.split(r"(?<!\\)\|", line)[1:-1]]


def row(header, texts):
    """A row: its first cell is the tag, the second one the text, and each of the others stands behind its column's name."""
    lines = [".TP", inline(f"**{texts[0]}**"), *filled(inline(texts[1]))]
    for name, text in zip(header[2:], texts[2:]):
        if text:
            lines += [".br", *filled(inline(f"{name[:1].upper()}{name[1:]}: " + text.replace("<br>", ", then ")))]
    return lines


def table(lines):
    """A table, without the line below its header."""
    header = cells(lines[0])
    return [line for texts in lines[2:] for line in row(header, cells(texts))]


def blocks(lines):
    """The blocks of a page: what blank lines part, each item of a list, and blocks of code with their fences."""
    block, is_code = [], False
    for line in lines:
        is_fence = line.startswith("```")
        if not is_code and (is_fence or not line.strip() or line.startswith("- ")):
            if block:
                yield block
            block = []
        if is_code or line.strip():
            block.append(line)
        if is_code and is_fence:
            yield block
            block = []
        is_code ^= is_fence
    if block:
        yield block


def body(lines):
    """The lines of a section as roff."""
    roff = []
    for block in blocks(lines):
        text = " ".join(line.strip() for line in block)
        if text.startswith("```"):
            roff += code_block(block[1:-1])
        elif text.startswith("|"):
            roff += table(block)
        elif text.startswith("- "):
            roff += [r".IP \(bu 2", *filled(inline(text[2:]))]
        else:
            roff += [".PP", *filled(inline(text))]
    return roff


def sections(page):
    """The lines of a page below its title, under the empty name, and then those of each section under its heading."""
    found, name, is_code = {"": []}, "", False
    for line in page.read_text(encoding="utf-8").split("\n")[1:]:
        is_code ^= line.startswith("```")
        if line.startswith("## ") and not is_code:
            name = line[3:]
            found[name] = []
        else:
            found[name].append(line)
    return found


def version():
    """The version of the command line."""
    source = (TOP / "crates/cs_command/src/lib.rt").read_text(encoding="utf-8")
    return re.search(r'\.version\("([^"]+)"\)', source).group(1)


def date():
    """The day of the page; where there is no repository, that on which docs/USAGE.md was written."""
    second = os.environ.get("SOURCE_DATE_EPOCH")
    if second is None and (TOP / ".git").exists():
        second = subprocess.run(["git", "-C", TOP, "log", "-1", "--format=%ct"], stdout=subprocess.PIPE, check=True).stdout
    return time.strftime("%Y-%m-%d", time.gmtime(int(second or (TOP / "docs/USAGE.md").stat().st_mtime)))


def title(name, section, manual, what):
    """What a manual page begins with. Words aren't cut, since many are to be pasted."""
    head = f'.TH {name.upper()} {section} {date()} "cue2schema {version()}" "{manual}"'
    return [head, ".nr HY 0", ".nh", ".ad l", ".SH NAME", f"{escaped(name, CODE)} \\- {what}"]


def see_also(page):
    """What a manual page ends with: the other one, and where the pages are that have none."""
    return [".SH SEE ALSO", *body([page, "", OTHER_PAGES])]


def usage_line(code):
    """A command line in the fonts of a synopsis: words that are typed are bold, those that stand for others italic."""
    command, words = re.match(r"(\S+ \S+)(.*)", code).groups()
    fonts = []
    for name, sign, typed in re.findall(r"([A-Z]+)|([\[\]. ]+)|([^A-Z\[\]. ]+)", words.strip()):
        fonts.append(f"\\fI{name}\\fR" if name else sign or f"\\fB{escaped(typed, CODE)}\\fR")
    return [f'.SY "{command}"', "".join(fonts), ".YS"]


def synopsis(lines):
    """The command lines of the table of commands."""
    commands = [re.match(r"\| `(cue2schema [^`]+)`", line) for line in lines]
    return [line for command in commands if command for line in usage_line(command.group(1))]


def usage_page(page):
    """cue2schema(1)."""
    found = sections(page)
    introduction, commands = found.pop(""), found.pop("The commands")
    for name in PLACES:
        if name not in found:
            sys.exit(f"{page}: there is no section `{name}`, which tools/manual.py places")
    parts = {"COMMANDS": body(commands), "EXAMPLES": [], "EXIT STATUS": []}
    for name, lines in found.items():
        place = PLACES.get(name, "COMMANDS")
        parts[place] += body(lines) if place == "EXIT STATUS" else [heading(".SS", name), *body(lines)]
    roff = title("cue2schema", 1, "User commands", "compiles CUE definitions to JSON Schema")
    roff += [".SH SYNOPSIS", *synopsis(commands), ".SH DESCRIPTION", *body(introduction)]
    for name, lines in parts.items():
        roff += [f".SH {name}", *lines]
    return roff + see_also("docs/REFUSALS.md")


def refusals_page(page):
    """cue2schema-refusals(7)."""
    found = sections(page)
    roff = title("cue2schema-refusals", 7, "Refusals of cue2schema", "what the numbers of refusals mean")
    roff += [".SH DESCRIPTION", *body(found.pop(""))]
    for name, lines in found.items():
        roff += [heading(".SH", name.upper()), *body(lines)]
    return roff + see_also("docs/USAGE.md")


def tidy(roff):
    """The lines without a paragraph's macro behind a heading, where it says nothing."""
    return [line for before, line in zip([""] + roff, roff) if not (line == ".PP" and before.startswith((".SH", ".SS")))]


def main(folder):
    pages = {
        "man1/cue2schema.1": usage_page(TOP / "docs/USAGE.md"),
        "man7/cue2schema-refusals.7": refusals_page(TOP / "docs/REFUSALS.md"),
    }
    for name, roff in pages.items():
        file = Path(folder) / name
        file.parent.mkdir(parents=True, exist_ok=True)
        file.write_text("\n".join([r'.\" Made by tools/manual.py from the pages under docs/.', *tidy(roff), ""]), encoding="ascii")


if __name__ == "__main__":
    if len(sys.argv) != 2:
        sys.exit("usage: tools/manual.py FOLDER")
    main(sys.argv[1])
