#!/usr/bin/env python3
"""Compares the tokens of `lex` with those of CPython's own `tokenize`.

    compare_tokens.py PROGRAM [FOLDER..]

PROGRAM is a word list that runs a program over `lex`: it is given file names, and writes for each a line
`FILE`, and then a line for each token, `KIND LINE:COLUMN START+LEN VALUE`, the value in hexadecimal digits; or
a line `refused LINE:COLUMN`. It is not part of the gate: folders that are missing are skipped.

Each file is cut before the first logical line that has what the language lacks (other escapes, prefixes, floats,
`/`, tabs before a line's first token ..), and what is left is compared token by token.
"""
import ast
import io
import os
import re
import shlex
import subprocess
import sys
import tempfile
import tokenize

KEYWORDS = set(
    "False None True and as assert async await break class continue def del elif else except finally for from "
    "global if import in is lambda nonlocal not or pass raise return try while with yield".split()
)
OPERATORS = set(
    "... **= //= <<= >>= ** // << >> == != <= >= += -= *= %= &= |= ^= -> + - * % & | ^ ~ < > = ( ) [ ] { } , : . ; @".split()
)
NUMBER = re.compile(r"[1-9](_?[0-9])*|0(_?0)*|0[xX](_?[0-9a-fA-F])+|0[oO](_?[0-7])+|0[bB](_?[01])+")
TEXT = re.compile(r"(?s)(['\"])(?:[^\\\x00\x80-\U0010ffff]|\\(?:[\\'\"nrt\n]|\r\n|x[0-7][0-9a-fA-F]))*\1")


def in_language(token, first):
    """Whether the language has this token; `first` says that it is the first of a logical line."""
    row, column = token.start
    if first and "\t" in token.line[:column]:
        return False
    if token.type == tokenize.NUMBER:
        after = token.line[token.end[1]:token.end[1] + 1]
        if not NUMBER.fullmatch(token.string) or after == "." or ("a" + after).isidentifier() and after:
            return False
        return int(token.string.replace("_", ""), 0) < 2 ** 63
    if token.type == tokenize.STRING:
        return bool(TEXT.fullmatch(token.string))
    if token.type == tokenize.OP:
        return token.string in OPERATORS
    return token.type != tokenize.ERRORTOKEN


def wanted(data):
    """The lines of the text that are compared, and their tokens."""
    tokens, kept, line, first = [], 0, 0, True
    try:
        for token in tokenize.tokenize(io.BytesIO(data).readline):
            if "\f" in token.line:
                break
            if token.type in (tokenize.ENCODING, tokenize.COMMENT, tokenize.NL):
                continue
            if token.type in (tokenize.INDENT, tokenize.DEDENT, tokenize.ENDMARKER):
                if token.type == tokenize.INDENT and "\t" in token.string:
                    break
                tokens.append(token)
                continue
            if not in_language(token, first):
                break
            first = token.type == tokenize.NEWLINE
            tokens.append(token)
            if first:
                kept, line = len(tokens), token.end[0] if token.string == "" else token.start[0]
    except (tokenize.TokenError, SyntaxError, UnicodeDecodeError, ValueError):
        pass
    return line, tokens[:kept]


def rows(tokens):
    for token in tokens:
        row, column = token.end if token.type == tokenize.INDENT else token.start
        place = "%d:%d" % (row, column + 1)
        if token.type == tokenize.NAME:
            yield ("keyword" if token.string in KEYWORDS else "name", place, token.string.encode())
        elif token.type == tokenize.NUMBER:
            yield ("number", place, str(int(token.string.replace("_", ""), 0)).encode())
        elif token.type == tokenize.STRING:
            yield ("text", place, ast.literal_eval(token.string).encode())
        elif token.type == tokenize.OP:
            yield ("op", place, token.string.encode())
        else:
            yield (tokenize.tok_name[token.type].lower(), place, b"")


def main():
    program, folders = shlex.split(sys.argv[1]), sys.argv[2:]
    work = tempfile.mkdtemp()
    cases = []
    for folder in folders:
        if not os.path.isdir(folder):
            print("skipped: no folder", folder)
            continue
        for where, _, names in sorted(os.walk(folder)):
            for name in sorted(names):
                path = os.path.join(where, name)
                if not name.endswith(".py") or not os.path.isfile(path):
                    continue
                data = open(path, "rb").read()
                if re.search(rb"\r(?!\n)|\x00", data) or len(data) > 1_000_000:
                    continue
                try:
                    data.decode("utf-8")
                except UnicodeDecodeError:
                    continue
                line, tokens = wanted(data)
                if not tokens:
                    continue
                cut = b"".join(io.BytesIO(data).readlines()[:line])
                case = os.path.join(work, "%d.py" % len(cases))
                open(case, "wb").write(cut)
                cases.append((path, case, list(rows(tokens))))
    count = same = 0
    for start in range(0, len(cases), 200):
        part = cases[start:start + 200]
        out = subprocess.run(program + [case for _, case, _ in part], capture_output=True, check=True).stdout.decode()
        answers = out.split("FILE\n")[1:]
        for (path, _, want), answer in zip(part, answers):
            found = []
            for row in answer.splitlines():
                kind, place, *rest = row.split(" ")
                found.append((kind, place, bytes.fromhex(rest[1]) if len(rest) > 1 else b""))
            # the blocks that are open at the cut, and the end
            while found and found[-1][0] in ("dedent", "end"):
                found.pop()
            count += len(want)
            if found == want:
                same += 1
            else:
                at = next((i for i, (a, b) in enumerate(zip(found, want)) if a != b), min(len(found), len(want)))
                print("differs:", path, found[at:at + 1], want[at:at + 1])
        if len(answers) != len(part):
            print("answers are missing:", len(part) - len(answers))
    print("files %d, the same %d, tokens %d" % (len(cases), same, count))
    return 0 if same == len(cases) else 1


if __name__ == "__main__":
    sys.exit(main())
