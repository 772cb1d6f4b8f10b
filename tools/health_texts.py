#!/usr/bin/env python3
"""Says whether the tests have the texts of examples/health as they are.

    python3 tools/health_texts.py

Each text stands in two files as a constant of its name. Prints a line for each that differs or is missing, and ends
with 1 where there is one.
"""
import os
import re
import sys

ROOT = os.path.dirname(os.path.dirname(os.path.abspath(__file__)))
EXAMPLES = os.path.join(ROOT, "examples", "health")
COPIES = ["crates/config_cases/src/configurations/examples.rt", "crates/rows/src/health_examples/files.rt"]


def constants(path):
    """The texts of the constants of a file, by their names."""
    with open(path, encoding="utf-8") as file:
        found = re.findall(r'const ([A-Z_]+): &[^=]*= b?"((?:[^"\\]|\\.)*)";', file.read(), re.S)
    return {name: re.sub(r"\\(.)", r"\1", text, flags=re.S) for name, text in found}


def wrong():
    """What differs, a line each."""
    texts = {}
    for name in sorted(os.listdir(EXAMPLES)):
        if name.endswith(".conf"):
            with open(os.path.join(EXAMPLES, name), encoding="utf-8") as file:
                texts[name] = file.read()
    for path in COPIES:
        have = constants(os.path.join(ROOT, path))
        for name, text in texts.items():
            constant = name.removesuffix(".conf").upper()
            if have.get(constant) != text:
                yield f"{path}: {constant} is not examples/health/{name}"


lines = list(wrong())
print("\n".join(lines) or "the tests have the texts of examples/health")
sys.exit(1 if lines else 0)
