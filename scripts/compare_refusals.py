#!/usr/bin/env python3
"""Compares the tables of answers of the parser's tests with those of a recogniser of the grammar.

    compare_refusals.py [FILE..]

The files are the tables of crates/tree_parser/src/tests, where none is given: each row an answer, a blank and a source
(src/tests/table.rt says how it is written). The recogniser is Earley's over the rules below, and knows nothing of how the
parser reads: it holds all that the tokens so far may be the start of, so that the first token after which it holds nothing
is the first that no source goes on with. A form is taken with the height that its tree may have, so that the tables named
after a height (`HEIGHT_5`), whose sources stand under so many `if`, are compared too. It counts no items. It is not part
of the gate.
"""
import glob
import itertools
import os
import re
import sys

from tables import compare

KEYWORDS = set(
    "False None True and as assert async await break class continue def del elif else except finally for from "
    "global if import in is lambda nonlocal not or pass raise return try while with yield".split()
)
LEFT_OUT = set("as async await class def del except finally from global import is lambda nonlocal try with {".split())
OPERATORS = (
    "||> ... **= //= <<= >>= |> ** // << >> == != <= >= += -= *= %= &= |= ^= -> "
    "+ - * % & | ^ ~ < > = ( ) [ ] { } , : . ; @"
).split()
UPDATES = set("+= -= *= //= %= **= <<= >>= &= |= ^=".split())
COMPARATORS = set("== != < <= > >=".split())

# A word in quotes is a token with that spelling, a word in capitals a class of tokens, and a line a way to write a form.
# An empty way is written as nothing. `a_list` is one `a` or more with commas between. A part with a bar after it stands one
# level lower in the tree, one with two bars two levels. A form of LEAVES is a node, also where it has no parts.
GRAMMAR = """
module = tops END
lines = stmts END
tops =
tops = top tops
top = stmt
top = def
top = class
stmts = stmt
stmts = stmts stmt
stmt = line
stmt = if
stmt = while
stmt = for
stmt = par
line = simples NEWLINE
line = simples ';' NEWLINE
simples = simple
simples = simples ';' simple
block = ':' line
block = ':' NEWLINE INDENT stmts DEDENT
simple = 'pass'
simple = 'break'
simple = 'continue'
simple = 'return'
simple = 'return' items|
simple = 'yield' items|
simple = 'raise' name|
simple = 'raise' name| '(' optional| ')'
simple = 'assert' expr|
simple = 'assert' expr| ',' expr|
simple = name| ':' type|
simple = name| ':' type| '=' items|
simple = targets| '=' items|
simple = target| UPDATE items|
simple = expr| stages|
simple = print
simple = items|
targets = target
targets = target| ','
targets = target| ',' target_list| comma
target = NAME
target = postfix| '[' expr| ']'
target = postfix| '.' NAME
comma =
comma = ','
items = expr
items = expr| ','
items = expr| ',' expr_list| comma
stages = JOINT stage
stages = stages JOINT stage
stage = 'iter'
stage = NEITHER
stage = NOT_PRINT '(' ')'
stage = NOT_PRINT '(' stage_arguments| comma ')'
stage = 'print'
stage = print
stage_arguments = expr_list
stage_arguments = '...'
stage_arguments = expr_list ',' '...'
stage_arguments = '...' ',' expr_list
stage_arguments = expr_list ',' '...' ',' expr_list
print = 'print' '(' printed| ')'
printed =
printed = expr_list
printed = options
printed = expr_list ',' options
options = sep
options = end
options = sep ',' end
options = end ',' sep
sep = 'sep' '=' expr
end = 'end' '=' expr
if = 'if' expr| block| arms|
if = 'if' expr| block| arms| 'else' block|
arms =
arms = arms 'elif' expr block
while = 'while' expr| block|
for = 'for' names| 'in' items| block|
names = name_list comma
name = NAME
par = '@' 'par' NEWLINE for|
par = '@' 'par' '(' par_options ')' NEWLINE for|
def = 'def' name| '(' ')' result| block|
def = 'def' name| '(' param_list| comma ')' result| block|
result =
result = '->' type
param = NAME param_type| default|
param_type =
param_type = ':' type
default =
default = '=' expr
class = 'class' name| ':' NEWLINE INDENT members| DEDENT
members = member
members = members member
member = name| ':' type| NEWLINE
member = STRING NEWLINE
member = 'pass' NEWLINE
member = def
type = NAME
type = 'None'
type = LIST '[' type| ']'
type = TUPLE '[' type_list| ']'
expr = or
expr = or| 'if' or| 'else' expr|
or = and
or = ors|
ors = and 'or' and
ors = ors 'or' and
and = not
and = ands|
ands = not 'and' not
ands = ands 'and' not
not = 'not' not|
not = compare
compare = bit_or
compare = comparisons|
comparisons = bit_or comparator bit_or
comparisons = comparisons comparator bit_or
comparator = COMPARATOR
comparator = 'in'
comparator = 'not' 'in'
bit_or = bit_xor
bit_or = bit_or| '|' bit_xor|
bit_xor = bit_and
bit_xor = bit_xor| '^' bit_and|
bit_and = shift
bit_and = bit_and| '&' shift|
shift = sum
shift = shift| '<<' sum|
shift = shift| '>>' sum|
sum = term
sum = sum| '+' term|
sum = sum| '-' term|
term = factor
term = term| '*' factor|
term = term| '//' factor|
term = term| '%' factor|
factor = '+' factor|
factor = '-' factor|
factor = '~' factor|
factor = postfix
factor = postfix| '**' factor|
postfix = atom
postfix = called| call|
postfix = postfix|| '.' NAME call|
postfix = postfix| '[' expr| ']'
postfix = postfix| '[' optional| ':' optional| ']'
postfix = postfix| '.' NAME
called = NOT_PRINT
optional =
optional = expr
call = '(' ')'
call = '(' expr_list comma ')'
atom = NOT_PRINT
atom = NUMBER
atom = strings
atom = 'True'
atom = 'False'
atom = 'None'
atom = '(' expr| ')'
atom = '(' expr| ',' ')'
atom = '(' expr| ',' expr_list| comma ')'
atom = '[' ']'
atom = '[' expr_list| comma ']'
atom = '[' expr| 'for' names| 'in' or| ']'
atom = '[' expr| 'for' names| 'in' or| 'if' or| ']'
strings = STRING
strings = strings STRING
"""
LEAVES = set("simple target stage print name called type atom param def class member".split())

CLASSES = {
    "NAME": lambda kind, word: kind == "NAME",
    "NOT_PRINT": lambda kind, word: kind == "NAME" and word != "print",
    "NEITHER": lambda kind, word: kind == "NAME" and word not in ("print", "iter"),
    "NUMBER": lambda kind, word: kind == "NUMBER",
    "STRING": lambda kind, word: kind == "STRING",
    "UPDATE": lambda kind, word: kind == "OP" and word in UPDATES,
    "COMPARATOR": lambda kind, word: kind == "OP" and word in COMPARATORS,
    "JOINT": lambda kind, word: kind == "OP" and word in ("|>", "||>"),
    "LIST": lambda kind, word: kind == "NAME" and word in ("list", "List"),
    "TUPLE": lambda kind, word: kind == "NAME" and word in ("tuple", "Tuple"),
    "THREADS": lambda kind, word: kind == "NUMBER" and int(word) >= 1,
    "CHUNK": lambda kind, word: kind == "NUMBER" and 1 <= int(word) <= 65536,
    "SCHEDULE": lambda kind, word: kind == "STRING" and word in ("static", "dynamic", "guided"),
    "NEWLINE": lambda kind, word: kind == "NEWLINE",
    "INDENT": lambda kind, word: kind == "INDENT",
    "DEDENT": lambda kind, word: kind == "DEDENT",
    "END": lambda kind, word: kind == "END",
}


def rules():
    """The ways to write each form: for each part its name, and how many levels lower it stands."""
    ways = {}
    for line in GRAMMAR.strip().split("\n"):
        form, _, way = line.partition(" =")
        parts = [part if part.startswith("'") else part.rstrip("|") for part in way.split()]
        lower = [0 if part.startswith("'") else part.count("|") for part in way.split()]
        ways.setdefault(form, []).append(tuple(zip(parts, lower)))
    for part in ("expr", "target", "name", "param", "type"):
        ways[part + "_list"] = [((part, 0),), ((part + "_list", 0), ("','", 0), (part, 0))]
    options = (
        ("'num_threads'", "'='", "THREADS"), ("'chunk_size'", "'='", "CHUNK"), ("'schedule'", "'='", "SCHEDULE"),
    )
    ways["par_options"] = [
        tuple((part, 0) for part in sum((("','",) + option for option in row[1:]), row[0]))
        for count in (1, 2, 3) for row in itertools.permutations(options, count)
    ]
    return ways


RULES = rules()
EMPTY = {form for form, ways in RULES.items() if () in ways}


class Grammar:
    """The grammar from this form on, with trees of a height of at most this one, or of any height where it is None."""

    def __init__(self, start, height):
        self.start = (start, height)
        self.written = {}
        self.find(self.start)
        self.cut()

    def find(self, form):
        """The ways to write the form and all that it is made of, whether they end or not."""
        todo = [form]
        while todo:
            form = todo.pop()
            if form in self.written:
                continue
            name, height = form
            low = height is not None and height < 1
            self.written[form] = [] if low and name in LEAVES else [
                tuple((part, None if height is None else max(0, height - lower)) if part in RULES else part for part, lower in way)
                for way in RULES[name]
                if height is None or all(height >= lower for part, lower in way)
            ]
            todo += [part for way in self.written[form] for part in way if isinstance(part, tuple)]

    def cut(self):
        """Leaves the ways of which each part can be written."""
        can, size = set(), -1
        while len(can) != size:
            size = len(can)
            can |= {form for form, ways in self.written.items() if any(self.is_made_of(can, way) for way in ways)}
        self.written = {form: [way for way in ways if self.is_made_of(can, way)] for form, ways in self.written.items()}

    @staticmethod
    def is_made_of(forms, way):
        return all(not isinstance(part, tuple) or part in forms for part in way)

    def closed(self, items, before, place):
        """All items at a place that these lead to: form, way, how much of it was read, and where it begins."""
        found, todo = set(items), list(items)
        while todo:
            form, way, read, begin = todo.pop()
            new = []
            if read == len(way):
                waiting = before[begin] if begin < place else list(found)
                new = [(f, w, r + 1, b) for f, w, r, b in waiting if r < len(w) and w[r] == form]
            elif isinstance(way[read], tuple):
                new = [(way[read], other, 0, place) for other in self.written[way[read]]]
                if way[read][0] in EMPTY:
                    new.append((form, way, read + 1, begin))
            for item in new:
                if item not in found:
                    found.add(item)
                    todo.append(item)
        return found

    def first_bad(self, list_of_tokens):
        """The place of the first token that no list of the grammar goes on with, if there is one."""
        sets = [self.closed([(self.start, way, 0, 0) for way in self.written[self.start]], [], 0)]
        for place, token in enumerate(list_of_tokens):
            new = [
                (f, w, r + 1, b) for f, w, r, b in sets[-1]
                if r < len(w) and not isinstance(w[r], tuple) and is_token(w[r], token)
            ]
            if not new:
                return place
            sets.append(self.closed(new, sets, place + 1))
        return None


class NoTokens(Exception):
    """The text has no tokens, or a form of token that this script does not read."""


def tokens(text):
    """The tokens of a text in ASCII without escapes and texts of several lines: kind, spelling, line, column."""
    found, columns, depth, at, line, start, fresh = [], [0], 0, 0, 1, 0, True
    while at < len(text):
        rest = text[at:]
        blank = re.match(r" *(#[^\n]*)?(\n|$)" if fresh and depth == 0 else r"[ \n]+|#[^\n]*" if depth else r" +|#[^\n]*", rest)
        if blank:
            line += blank.group().count("\n")
            at += blank.end()
            if "\n" in blank.group():
                start = text.rfind("\n", 0, at) + 1
            if blank.end():
                continue
            break
        if fresh and depth == 0:
            column = len(rest) - len(rest.lstrip(" "))
            at += column
            here = (line, column + 1)
            if column > columns[-1]:
                columns.append(column)
                found.append(("INDENT", "INDENT") + here)
            while column < columns[-1]:
                columns.pop()
                found.append(("DEDENT", "DEDENT") + here)
            if column != columns[-1]:
                raise NoTokens("dedent")
            fresh = False
            continue
        here = (line, at - start + 1)
        if rest[0] == "\n":
            found.append(("NEWLINE", "NEWLINE") + here)
            fresh, at, line, start = True, at + 1, line + 1, at + 1
            continue
        word = re.match(r"[A-Za-z_]\w*", rest)
        number = re.match(r"([1-9][0-9]*|0+)(?![\w.])", rest)
        string = re.match(r"'[^'\n\\]*'(?!')|\"[^\"\n\\]*\"(?!\")", rest)
        if word:
            found.append(("KEYWORD" if word.group() in KEYWORDS else "NAME", word.group()) + here)
            at += word.end()
        elif number:
            found.append(("NUMBER", number.group()) + here)
            at += number.end()
        elif string:
            found.append(("STRING", string.group()[1:-1]) + here)
            at += string.end()
        else:
            operator = next((o for o in OPERATORS if rest.startswith(o)), None)
            if operator is None:
                raise NoTokens(rest[0])
            depth = max(0, depth + (operator in "([{") - (operator in ")]}"))
            found.append(("OP", operator) + here)
            at += len(operator)
    if depth:
        raise NoTokens("open bracket")
    here = (line, at - start + 1)
    last = [] if fresh else ["NEWLINE"]
    return found + [(kind, kind) + here for kind in last + ["DEDENT"] * (len(columns) - 1) + ["END"]]


def is_token(part, token):
    kind, word = token[:2]
    if part in CLASSES:
        return CLASSES[part](kind, word)
    return kind in ("OP", "KEYWORD", "NAME") and part == "'" + word + "'"


def grammar(start, height, made={}):
    if (start, height) not in made:
        made[start, height] = Grammar(start, height)
    return made[start, height]


def answer(text, height):
    """The answer for a text of any height, or for one of statements of at most this height."""
    found = tokens(text)
    start = "module" if height is None else "lines"
    bad = grammar(start, height).first_bad(found)
    if bad is None:
        return "ok"
    kind, word, line, column = found[bad]
    if height is not None and grammar(start, None).first_bad(found) != bad:
        return "P2 %d:%d" % (line, column)
    left_out = kind in ("KEYWORD", "OP") and word in LEFT_OUT
    return "%s %d:%d" % ("P3" if left_out else "P1", line, column)


def rows(path):
    """The rows of the tables of a file: where each stands, its source, the height that its statements may have where the
    table is named after one, and the answer that is wanted."""
    with open(path, encoding="utf-8") as file:
        lines = file.read().split("\n")
    inside = False
    for number, line in enumerate(lines, 1):
        if not inside:
            inside = line.endswith(': &str = "\\')
            named = re.match(r"const HEIGHT_(\d+)", line)
            height = int(named.group(1)) if named else None
        elif line == '";':
            inside = False
        else:
            want, _, marked = line.replace('\\"', '"').replace("⏎", "\n").partition(" ")
            before, mark, after = marked.partition("$")
            if mark:
                want += " %d:%d" % (before.count("\n") + 1, len(before) - before.rfind("\n"))
            text = before + after
            yield number, text if text.endswith("\n") else text + "\n", height, want


def found(text, height):
    """The answer of the recogniser to a source of a table, or why the source has no tokens."""
    try:
        return answer(text, height)
    except NoTokens as error:
        return "no tokens: %s" % error


def main():
    here = os.path.join(os.path.dirname(os.path.abspath(__file__)), "../crates/tree_parser/src/tests/")
    paths = sys.argv[1:] or sorted(glob.glob(here + "refusals/*.rt")) + [here + name for name in ("edited.rt", "limits/room.rt", "sources.rt")]
    return compare("answers", (("%s:%d: %r" % (path, number, text), want, found(text, height)) for path in paths for number, text, height, want in rows(path)))


if __name__ == "__main__":
    sys.exit(main())
