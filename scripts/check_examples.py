#!/usr/bin/env python3
"""Runs the examples in CPython, and compares the table of the tests with them.

    check_examples.py [NAME..]

Each NAME.py of examples/ has beside it NAME.out, what it prints. This script runs the sources in CPython, as far as the two
languages agree (`python_meaning.py`), and tells each one that prints something else.

The tests cannot read files, so the sources and what they print stand again in crates/codon_front/src/tests/examples.rt, as
the constants NAME and NAME_OUT. This script tells each constant that is not the file's text, and each that is missing or
too much. It is not part of the gate. With `--print` it prints these constants as the files have them.
"""
import glob
import os
import re
import sys

from python_meaning import run
from tables import exit_by_ast

HERE = os.path.dirname(os.path.abspath(__file__))
EXAMPLES = os.path.join(HERE, "../examples")
TABLE = os.path.join(HERE, "../crates/codon_front/src/tests/examples.rt")


def read(path):
    with open(path, encoding="ascii", newline="") as file:
        return file.read()


def literal(name, text):
    """The constant of a text as the table has it."""
    escaped = text.replace("\\", "\\\\").replace('"', '\\"')
    if not text.endswith("\n") or text[0].isspace():
        raise ValueError("%s begins with a blank, or ends without a line end" % name)
    return 'const %s: &str = "\\\n%s";\n' % (name, escaped)


def constants(table):
    """The constants of a table by name, each as it stands there."""
    return {found[1]: found[0] for found in re.finditer(r'^const (\w+): &str = "\\\n(?:[^"\\]|\\.)*";\n', table, re.MULTILINE)}


def main():
    paths = sorted(glob.glob(os.path.join(EXAMPLES, "*.py")))
    names = [os.path.basename(path)[:-3] for path in paths]
    wanted = {}
    for name in names:
        wanted[name.upper()] = literal(name.upper(), read(os.path.join(EXAMPLES, name + ".py")))
        wanted[name.upper() + "_OUT"] = literal(name.upper() + "_OUT", read(os.path.join(EXAMPLES, name + ".out")))
    if sys.argv[1:2] == ["--print"]:
        print("\n".join(wanted.values()), end="")
        return 0
    wrong = 0
    for name in sys.argv[1:] or names:
        out = read(os.path.join(EXAMPLES, name + ".out"))
        found, fault = run(read(os.path.join(EXAMPLES, name + ".py")))
        if found != out or fault:
            wrong += 1
            print("%s.out:\n%sCPython:\n%s%s" % (name, out, found, fault))
    table = read(TABLE)
    held = constants(table)
    for name in sorted(wanted.keys() | held.keys()):
        if wanted.get(name) != held.get(name):
            wrong += 1
            print("%s: the table and the file differ, or only one of them has it" % name)
    for name in names:
        if not re.search(r"\b%s, %s_OUT\b" % (name.upper(), name.upper()), table):
            wrong += 1
            print("%s: no row of the table runs it" % name)
    print("%d examples compared, %d differ" % (len(sys.argv[1:] or names), wrong))
    return 1 if wrong else 0


if __name__ == "__main__":
    exit_by_ast(main)
