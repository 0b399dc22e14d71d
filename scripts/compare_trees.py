#!/usr/bin/env python3
"""Compares the tables of trees with the trees of CPython's own `ast`.

    compare_trees.py [FILE..]

The files are those of crates/tree_parser/src/tests/trees, where none is given. Each holds tables of two lines a row, a
source and its tree as nested lists (src/tests/shape.rt says how), and the tests of the crate hold `parse` against them.
This script makes the second line anew from `ast` and tells each row where the two differ: so the parser has CPython's trees
for these sources. It is not part of the gate. With `--print FILE` it prints a row for each line of the file, a source.
"""
import ast
import glob
import os
import sys

from tables import compare, exit_by_ast

BINARY = {
    "Add": "+", "Sub": "-", "Mult": "*", "FloorDiv": "//", "Mod": "%", "Pow": "**", "LShift": "<<", "RShift": ">>",
    "BitAnd": "&", "BitOr": "|", "BitXor": "^",
}
UNARY = {"UAdd": "+", "USub": "-", "Invert": "~", "Not": "not"}
COMPARE = {"Eq": "==", "NotEq": "!=", "Lt": "<", "LtE": "<=", "Gt": ">", "GtE": ">=", "In": "in", "NotIn": "not in"}


def node(word, *parts):
    return "(" + " ".join([word, *parts]) + ")"


def quoted(text):
    shown = ""
    for character in text:
        if character in "'\\":
            shown += "\\" + character
        elif character == "\n":
            shown += "\\n"
        elif " " <= character <= "~":
            shown += character
        else:
            shown += "\\x%02x" % ord(character)
    return "'" + shown + "'"


def constant(value):
    return quoted(value) if isinstance(value, str) else str(value)


def call(e):
    arguments = [expr(x) for x in e.args]
    if isinstance(e.func, ast.Attribute):
        return node("method", expr(e.func.value), e.func.attr, *arguments)
    return node("call", e.func.id, *arguments)


def expr(e):
    kind = type(e).__name__
    if kind == "Name":
        return e.id
    if kind == "Constant":
        return constant(e.value)
    if kind in ("Tuple", "List"):
        return node(kind.lower(), *map(expr, e.elts))
    if kind == "ListComp":
        (each,) = e.generators
        return node("each", expr(e.elt), expr(each.target), expr(each.iter), *map(expr, each.ifs))
    if kind == "IfExp":
        return node("if", expr(e.body), expr(e.test), expr(e.orelse))
    if kind == "BoolOp":
        return node(type(e.op).__name__.lower(), *map(expr, e.values))
    if kind == "UnaryOp":
        return node(UNARY[type(e.op).__name__], expr(e.operand))
    if kind == "BinOp":
        return node(BINARY[type(e.op).__name__], expr(e.left), expr(e.right))
    if kind == "Compare":
        pairs = zip(e.ops, e.comparators)
        return node("compare", expr(e.left), *(COMPARE[type(o).__name__] + " " + expr(x) for o, x in pairs))
    if kind == "Call":
        return call(e)
    if kind == "Attribute":
        return node("field", expr(e.value), e.attr)
    if kind == "Subscript" and isinstance(e.slice, ast.Slice):
        return node("slice", expr(e.value), *("_" if x is None else expr(x) for x in (e.slice.lower, e.slice.upper)))
    if kind == "Subscript":
        return node("index", expr(e.value), expr(e.slice))
    raise ValueError(kind)


def annotation(e):
    if not isinstance(e, ast.Subscript):
        return expr(e)
    items = e.slice.elts if isinstance(e.slice, ast.Tuple) else [e.slice]
    return node(e.value.id.lower(), *map(annotation, items))


def optional(e):
    return [] if e is None else [expr(e)]


def body(word, stmts):
    return node(word, *map(statement, stmts))


def printed(e):
    options = [node(option.arg, expr(option.value)) for option in e.keywords]
    return node("print", *map(expr, e.args), *options)


def evaluated(e):
    if isinstance(e, ast.Yield):
        return node("yield", expr(e.value))
    if isinstance(e, ast.Call) and isinstance(e.func, ast.Name) and e.func.id == "print":
        return printed(e)
    return node("evaluate", expr(e))


def raised(e):
    if isinstance(e, ast.Call):
        return node("raise", e.func.id, *map(expr, e.args))
    return node("raise", e.id)


def param(argument, default):
    kind = [] if argument.annotation is None else [":", annotation(argument.annotation)]
    value = [] if default is None else ["=", expr(default)]
    return node("param", argument.arg, *kind, *value)


def function(s):
    defaults = [None] * (len(s.args.args) - len(s.args.defaults)) + s.args.defaults
    params = [param(*pair) for pair in zip(s.args.args, defaults)]
    result = [] if s.returns is None else ["->", annotation(s.returns)]
    return node("def", s.name, *params, *result, body("do", s.body))


def member(s):
    if isinstance(s, ast.AnnAssign):
        return node("field", expr(s.target), annotation(s.annotation))
    if isinstance(s, ast.Expr):
        return expr(s.value)
    return statement(s)


def statement(s):
    kind = type(s).__name__
    if kind in ("Pass", "Break", "Continue"):
        return node(kind.lower())
    if kind == "Return":
        return node("return", *optional(s.value))
    if kind == "Raise":
        return raised(s.exc)
    if kind == "Assert":
        return node("assert", expr(s.test), *optional(s.msg))
    if kind == "AnnAssign":
        return node("annotate", expr(s.target), annotation(s.annotation), *optional(s.value))
    if kind == "Assign":
        (target,) = s.targets
        return node("assign", expr(target), expr(s.value))
    if kind == "AugAssign":
        return node("update", expr(s.target), BINARY[type(s.op).__name__], expr(s.value))
    if kind == "Expr":
        return evaluated(s.value)
    if kind == "If":
        return node("branch", expr(s.test), body("do", s.body), *([body("else", s.orelse)] if s.orelse else []))
    if kind == "While" and not s.orelse:
        return node("while", expr(s.test), body("do", s.body))
    if kind == "For" and not s.orelse:
        return node("for", expr(s.target), expr(s.iter), body("do", s.body))
    if kind == "FunctionDef":
        return function(s)
    if kind == "ClassDef":
        return node("class", s.name, *map(member, s.body))
    raise ValueError(kind)


def shape(source):
    return " ".join(map(statement, ast.parse(source).body))


def rows(path):
    """The rows of the tables of a file: where each stands, its source and its tree."""
    with open(path, encoding="utf-8") as file:
        lines = file.read().split("\n")
    inside, held = False, None
    for number, line in enumerate(lines, 1):
        if not inside:
            inside = line.endswith(': &str = "\\')
        elif line == '";':
            inside = False
        elif held is None:
            held = line
        else:
            yield number, held.replace('\\"', '"').replace("\\\\", "\\"), line.replace("\\\\", "\\").strip()
            held = None


def found(source):
    """The tree that CPython gives a source of a table, or why it gives none."""
    try:
        return shape(source.replace("⏎", "\n") + "\n")
    except (SyntaxError, ValueError) as error:
        return "no tree: %s" % error


def main():
    if sys.argv[1:2] == ["--print"]:
        for path in sys.argv[2:]:
            with open(path, encoding="utf-8") as file:
                for source in file.read().splitlines():
                    print(source.replace("\\", "\\\\").replace('"', '\\"'))
                    print(" " + shape(source.replace("⏎", "\n") + "\n").replace("\\", "\\\\"))
        return 0
    here = os.path.dirname(os.path.abspath(__file__))
    paths = sys.argv[1:] or sorted(glob.glob(os.path.join(here, "../crates/tree_parser/src/tests/trees/*.rt")))
    return compare("trees", (("%s:%d: %s" % (path, number, source), tree, found(source)) for path in paths for number, source, tree in rows(path)))


if __name__ == "__main__":
    exit_by_ast(main)
