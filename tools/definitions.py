#!/usr/bin/env python3
"""Makes docs/DEFINITIONS.md from the comments of the crates' specs/: `tools/definitions.py` writes it, and
`tools/definitions.py --check` says whether it is what the comments give (status 1 where it is not)."""

import os
import re
import sys

TOP = os.path.dirname(os.path.dirname(os.path.abspath(__file__)))
PAGE = f"{TOP}/docs/DEFINITIONS.md"
HEAD = """# Definitions

What the contracts cite, by crate and file, lowest crate first: a name, and its rule. A definition is a function or a relation on plain lists. `tools/definitions.py` makes this page of the comments that stand above the definitions in `crates/*/specs`; a name without a rule says enough there by itself. The types of the code that definitions speak of (`specs.declared`) have their comments in `src/`.
"""
ITEM = re.compile(r"\s*(?:abbrev pub|unfoldable pub|pub record|pub data)\s+(\S+?)(?=[\s:({]|$)")
SECTION = re.compile(r"\s*-- -{2,}\s*(.*)")


def crates():
    """The names of the crates, lowest first."""
    with open(f"{TOP}/crates.txt", encoding="utf-8") as lines:
        return [line.split(":")[0].strip() for line in lines if ":" in line and not line.startswith("#")]


def comment_above(lines, at):
    """The comment that stands right above a line, as one line."""
    found = []
    while at > 0 and lines[at - 1].strip().startswith("--") and not SECTION.match(lines[at - 1]):
        at -= 1
        found.insert(0, lines[at].strip().removeprefix("--").strip())
    return " ".join(found)


def head_of(lines):
    """What the file says of itself: the comment at its start."""
    found = []
    for line in lines:
        if not line.startswith("--"):
            break
        found.append(line.removeprefix("--").strip())
    return " ".join(found)


def items_of(lines):
    """Each public definition of a file with its rule, and the sections between them."""
    for at, line in enumerate(lines):
        section, item = SECTION.match(line), ITEM.match(line)
        if section and section[1]:
            yield None, section[1]
        elif item:
            yield item[1], comment_above(lines, at)


def page_of_file(name, path):
    with open(path, encoding="utf-8") as file:
        lines = file.read().split("\n")
    head, rows, bare = head_of(lines), [], []
    for item, rule in items_of(lines):
        if item is None:
            rows.append(f"- *{rule}*")
        elif rule:
            rows.append(f"- `{item}`: {rule}")
        else:
            bare.append(f"`{item}`")
    if not any(row.startswith("- `") for row in rows) and not bare:
        return ""
    text = f"### {name}\n\n" + (f"{head}\n\n" if head else "") + "".join(f"{row}\n" for row in rows)
    if bare:
        text += f"- without a rule: {', '.join(bare)}\n"
    return text + "\n"


def files_of(folder):
    """The files of definitions of a crate, those of its modules too; a file that only names others is none."""
    found = []
    for at, _, names in os.walk(folder):
        for name in names:
            path = os.path.relpath(f"{at}/{name}", folder)
            if name.endswith(".antt") and name != "Lib.antt" and not os.path.isdir(f"{at}/{name.removesuffix('.antt')}"):
                found.append(path)
    return sorted(found)


def page():
    text = HEAD
    for crate in crates():
        folder = f"{TOP}/crates/{crate}/specs"
        files = "".join(page_of_file(it, f"{folder}/{it}") for it in files_of(folder))
        if files:
            text += f"\n## {crate}\n\n{files}".rstrip("\n") + "\n"
    return text


def main():
    made = page()
    if sys.argv[1:] == ["--check"]:
        with open(PAGE, encoding="utf-8") as file:
            return int(file.read() != made)
    with open(PAGE, "w", encoding="utf-8") as file:
        file.write(made)
    return 0


if __name__ == "__main__":
    sys.exit(main())
