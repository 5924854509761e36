#!/usr/bin/env python3
"""Prints what `export` has to print of a package of examples/ with other words than `--root`: made, without the program, of schema.json and of
the comments in the sources.

    tools/exported.py FOLDER [--describe] [--pretty] [--openapi | --all [SCHEMA..]]

With `--all` each SCHEMA is a file with what `export` prints for a root that schema.json doesn't reach.

The sources are read by lines, as the packages of examples/ are laid out: a definition begins at the beginning of a line, a field has a line
of its own, and its comment stands directly above it. What can't be read so is an error: a comment behind code, or inside an alternative or a
list.
"""
import argparse
import json
import re
import sys
from pathlib import Path

# `#Name: ..`, `key: ..` or `key?: ..`, and the same before a struct that goes on.
DECLARED = re.compile(r"\s*(#?\w+)\??: ")
OPENED = re.compile(r"\s*(#?\w+)\??: \{")


def comments(file):
    """The comments of a file: the names on the way to what each of them describes, and its text. A name is None where a struct has
    none, as in an alternative."""
    way, text = [], []
    for number, line in enumerate(file.read_text(encoding="utf-8").splitlines(), 1):
        code, mark, comment = line.partition("//")
        if mark and code.strip():
            sys.exit(f"{file}:{number}: a comment behind code")
        if mark:
            text.append(comment.removeprefix(" "))
            continue
        declared = DECLARED.match(line)
        if text and declared:
            yield [*way, declared.group(1)], "\n".join(text)
        text = []
        depth = len(way) + line.count("{") - line.count("}")
        if depth > len(way):
            way.append(declared.group(1) if OPENED.fullmatch(line) else None)
        way += [None] * (depth - len(way))
        del way[depth:]


def described(value, text):
    """A schema with a description; `false` can't have one."""
    if value is False:
        return value
    return {**({} if value is True else value), "description": text}


def describe(folder, definitions):
    """Puts the comments of the sources into the definitions that there are."""
    for file in sorted(folder.glob("*.cue")):
        for (root, *labels), text in comments(file):
            names, name = definitions, root.removeprefix("#")
            if name not in definitions:
                continue
            for label in labels:
                try:
                    names, name = names[name]["properties"], label
                    names[name]
                except KeyError:
                    sys.exit(f"{file}: the schema of {root} has no place for the comment of {'.'.join(map(str, labels))}")
            names[name] = described(names[name], text)


def read(file, references):
    """A schema that the program printed in one line, with its references in another form."""
    return json.loads(file.read_text(encoding="utf-8").replace('"$ref":"#/$defs/', f'"$ref":"{references}'))


def main(words):
    references = "#/components/schemas/" if words.openapi else "#/$defs/"
    schema = read(words.folder / "schema.json", references)
    definitions = schema["$defs"]
    for file in words.all or []:
        definitions |= read(file, references)["$defs"]
    if words.describe:
        describe(words.folder, definitions)
    if words.all is not None:
        del schema["$ref"]
    if words.openapi:
        schema = {"components": {"schemas": definitions}}
    layout = {"indent": 2} if words.pretty else {"separators": (",", ":")}
    # The members of a schema are in the order of their names; so are definitions and properties.
    print(json.dumps(schema, sort_keys=True, ensure_ascii=False, **layout))


if __name__ == "__main__":
    parser = argparse.ArgumentParser(description=__doc__, formatter_class=argparse.RawDescriptionHelpFormatter)
    parser.add_argument("folder", type=Path)
    parser.add_argument("--describe", action="store_true")
    parser.add_argument("--pretty", action="store_true")
    parser.add_argument("--openapi", action="store_true")
    parser.add_argument("--all", nargs="*", type=Path)
    main(parser.parse_args())
