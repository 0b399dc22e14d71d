"""What the sources of this language mean in CPython, as far as the two languages agree.

What is another language is taken to CPython first:

- a line `@par ..` is left out, since a parallel loop means the loop in order;
- a pipeline becomes the loops and calls that it stands for, where it stands alone on its line;
- a class without `__init__` becomes a dataclass, since its call gives the fields in order;
- each sum, difference, product, power, quotient and shift is taken modulo 2^64 into the range of a signed number;
- `and` and `or` give a bool.
"""
import ast
import contextlib
import dataclasses
import io
import operator
import re

ARROW = re.compile(r"\|\|>|\|>")
IN_PLACE = {
    ast.Add: operator.iadd, ast.Sub: operator.isub, ast.Mult: operator.imul, ast.FloorDiv: operator.ifloordiv,
    ast.Mod: operator.imod, ast.Pow: operator.ipow, ast.LShift: operator.ilshift, ast.RShift: operator.irshift,
    ast.BitAnd: operator.iand, ast.BitOr: operator.ior, ast.BitXor: operator.ixor,
}  # fmt: skip


def wrapped(value):
    """A number in the range of 64 bits with a sign; another value as it is."""
    return (value + 2**63) % 2**64 - 2**63 if type(value) is int else value


def updated(name, old, value):
    """What an augmented assignment makes of the old value."""
    return wrapped(getattr(operator, name)(old, value))


def code_of(text):
    """`ord`, whose fault is here one of the value."""
    if len(text) != 1:
        raise ValueError("ord needs one character")
    return ord(text)


def number(value):
    """`int`, which takes a sign or none and digits, as far as a number has 64 bits."""
    if type(value) is str and not re.fullmatch("[+-]?[0-9]+", value):
        raise ValueError("not a number")
    found = int(value)
    if not -(2**63) <= found < 2**63:
        raise ValueError("not a number")
    return found


def backwards(xs):
    """`reversed`, which here goes by the places that the list had at first, also where it becomes shorter."""
    at = len(xs) - 1
    while at >= 0:
        yield xs[at]
        at -= 1


def pipeline(line, generators):
    """The lines that a pipeline stands for. `piped` is the value that the next stage is handed."""
    blanks = line[: len(line) - len(line.lstrip())]
    head, *stages = ARROW.split(line)
    lines = [blanks + "piped = " + head.strip()]
    for stage in stages:
        name, bracket, rest = stage.strip().partition("(")
        arguments = rest[:-1] if bracket else ""
        if "..." in arguments:
            arguments = arguments.replace("...", "piped")
        else:
            arguments = "piped, " + arguments
        if name == "iter":
            lines.append(blanks + "for piped in piped:")
        elif name in generators:
            lines.append(blanks + "for piped in %s(%s):" % (name, arguments))
        else:
            lines.append(blanks + "piped = %s(%s)" % (name, arguments))
        if lines[-1].endswith(":"):
            blanks += "    "
    return lines + [blanks + "pass"]


def generators_of(source):
    """The names of the functions that hold a `yield`."""
    bodies = re.split(r"^def (\w+)", source, flags=re.MULTILINE)[1:]
    return {name for name, body in zip(bodies[::2], bodies[1::2]) if re.search(r"^ +yield\b", body, re.MULTILINE)}


def in_python(source):
    """The source without parallel loops and pipelines."""
    lines = []
    for line in source.split("\n"):
        if re.match(r" *@par\b", line):
            continue
        if ARROW.search(line) and not line.lstrip().startswith("#"):
            lines += pipeline(line, generators_of(source))
        else:
            lines.append(line)
    return "\n".join(lines)


class Meaning(ast.NodeTransformer):
    """Takes what operators give into the range, and gives classes their fields in order."""

    count = 0

    def call(self, name, *arguments):
        return ast.Call(ast.Name(name, ast.Load()), list(arguments), [])

    def visit_BinOp(self, node):
        return self.call("_wrapped_", self.generic_visit(node))

    def visit_UnaryOp(self, node):
        self.generic_visit(node)
        return self.call("_wrapped_", node) if isinstance(node.op, ast.USub) else node

    def visit_Call(self, node):
        return self.call("_wrapped_", self.generic_visit(node))

    def visit_BoolOp(self, node):
        return self.call("bool", self.generic_visit(node))

    def named(self, value):
        """An assignment of a value to a name of its own, and that name."""
        self.count += 1
        name = "_part_%d_" % self.count
        return ast.Assign([ast.Name(name, ast.Store())], value), ast.Name(name, ast.Load())

    def visit_AugAssign(self, node):
        self.generic_visit(node)
        before, target = [], node.target
        if isinstance(target, (ast.Subscript, ast.Attribute)):
            line, target.value = self.named(target.value)
            before.append(line)
        if isinstance(target, ast.Subscript):
            line, target.slice = self.named(target.slice)
            before.append(line)
        read = ast.parse(ast.unparse(target), mode="eval").body
        name = ast.Constant(IN_PLACE[type(node.op)].__name__)
        return [*before, ast.Assign([target], self.call("_updated_", name, read, node.value))]

    def visit_ClassDef(self, node):
        self.generic_visit(node)
        if not any(isinstance(x, ast.FunctionDef) and x.name == "__init__" for x in node.body):
            node.decorator_list.append(ast.Name("_dataclass_", ast.Load()))
        return node


def run(source):
    """What CPython prints for a source, and the kind of the fault that ends it, or nothing."""
    tree = ast.fix_missing_locations(Meaning().visit(ast.parse(in_python(source))))
    out = io.StringIO()
    names = {
        "__name__": __name__, "_wrapped_": wrapped, "_updated_": updated, "_dataclass_": dataclasses.dataclass,
        "int": number, "ord": code_of, "reversed": backwards,
    }  # fmt: skip
    kind = ""
    with contextlib.redirect_stdout(out):
        try:
            exec(compile(tree, "source", "exec"), names)
        except Exception as error:
            kind = type(error).__name__
    return out.getvalue(), kind
