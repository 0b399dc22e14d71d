"""Makes random programs of whole numbers, bools, texts and lists that end within a bound of turns.

A program keeps to what this language and Python share. It is told by a number: the same number makes the same program.
"""
import random

TYPES = {"int": "int", "bool": "bool", "str": "str", "ints": "list[int]", "strs": "list[str]"}
ITEMS = {"ints": "int", "strs": "str", "str": "str"}
MOST_GROWN = 12  # how long a list or text is that may still become longer


class Maker:
    """Makes one program, line by line.

    `names` has the names in sight by the kind of their values, and where a method is given `own`, that has those which may be
    assigned. A kind is a key of TYPES. `height` is about how many operators stand one in another.
    """

    def __init__(self, number):
        self.random = random.Random(number)
        self.lines = []
        self.count = 0
        self.functions = []  # name, kinds of parameters, how many have defaults, kind of the answer, whether it may print
        self.generators = []
        self.names = {}
        self.shared = {"int": "z1", "ints": "z2", "str": "z3"}  # variables of the module that functions use
        self.uses = []  # what is to stand after the functions, each a call
        self.is_silent = False  # where nothing may print

    def pick(self, *choices):
        return self.random.choice(choices)

    def chance(self, part):
        return self.random.random() < part

    def fresh(self, letter):
        self.count += 1
        return "%s%d" % (letter, self.count)

    def add(self, depth, line):
        self.lines.append("    " * depth + line)

    def know(self, kind, name):
        self.names.setdefault(kind, []).append(name)

    def kept(self):
        """The names in sight, to be put back later."""
        return {kind: list(names) for kind, names in self.names.items()}

    def program(self):
        self.add(0, "z1, z2, z3 = %s, %s, %s" % tuple(self.literal(it) for it in self.shared))
        self.add(0, "")
        for _ in range(self.random.randrange(1, 5)):
            self.pick(self.function, self.function, self.generator, self.recursion, self.giver_of_tuples, self.shape)()
        own = {}
        for kind in "int", "str", "ints", "strs":
            own[kind] = [self.fresh("m")]
            self.add(0, "%s = %s" % (own[kind][0], self.literal(kind)))
            self.know(kind, own[kind][0])
        for use in self.uses:
            use()
        for _ in range(self.random.randrange(2, 6)):
            self.statement(0, 4, 6, own, False, None)
            if self.chance(0.3):
                self.pick(self.parallel_loop, self.pipeline)()
        self.add(0, "print(%s)" % ", ".join([*self.shared.values(), *(it for names in self.names.values() for it in names)]))
        return "\n".join(self.lines) + "\n"

    # ---- expressions

    def some(self, kind, height):
        names = self.names.get(kind, [])
        if height <= 0 or self.chance(0.15):
            return self.random.choice(names) if names and self.chance(0.8) else self.literal(kind)
        return (self.chance(0.2) and self.of_any_kind(kind, height - 1)) or getattr(self, kind + "_form")(height - 1)

    def short(self, kind, height):
        """The same, where a list or text is cut short, so that no loop makes a long one."""
        return self.some(kind, height) + ("[:%d]" % MOST_GROWN if kind in ITEMS else "")

    def literal(self, kind):
        if kind == "int":
            return str(self.pick(0, 1, 2, 3, 5, 7, 10, 64, 255, 1000003, 2**63 - 1, self.random.randrange(100)))
        if kind == "bool":
            return self.pick("True", "False")
        if kind == "str":
            return self.pick("''", "'a'", "'b'", "'ab'", "'hello'", "'a,b'", '"it\'s"', "'x\\ny'", "'\\\\'", "'42'", "'-7'")
        return "[%s]" % ", ".join(self.literal(ITEMS[kind]) for _ in range(self.random.randrange(5)))

    def of_any_kind(self, kind, height):
        if self.chance(0.4):
            return "(%s if %s else %s)" % (self.some(kind, height), self.some("bool", height), self.some(kind, height))
        return self.call(kind, height)

    def call(self, kind, height):
        """A call that answers with the kind, or nothing where no function does."""
        fits = [it for it in self.functions if it[3] == kind and not (self.is_silent and it[4])]
        if not fits:
            return None
        name, kinds, defaults, _, _ = self.random.choice(fits)
        given = kinds[: len(kinds) - self.random.randrange(defaults + 1)]
        return "%s(%s)" % (name, ", ".join(self.some(it, height) for it in given))

    def binary(self):
        """An operator that has a value for all numbers."""
        return self.pick("+", "-", "*", "&", "|", "^")

    def compared(self):
        return self.pick("<", "<=", ">", ">=", "==", "!=")

    def int_form(self, height):
        a, b = self.some("int", height), "(%s)" % self.some("int", height)
        divided = lambda: b if self.chance(0.1) else self.pick("-3", "7", "-1", "64", "(abs%s %% 9 + 1)" % b)
        shifted = lambda: b + " % 70" if self.chance(0.9) else self.pick("64", "65", "-1")
        return self.pick(
            lambda: "(%s %s %s)" % (a, self.binary(), b),
            lambda: "(%s %s %s)" % (a, self.binary(), b),
            lambda: "(%s %s %s %s %s)" % (a, self.binary(), b, self.binary(), self.some("int", 0)),
            lambda: "(%s %s %s)" % (a, self.pick("//", "%"), divided()),
            lambda: "(%s ** (%s %% 6))" % (a, b),
            lambda: "(%s %s %s)" % (a, self.pick("<<", ">>"), shifted()),
            lambda: "(%s%s)" % (self.pick("-", "~", "+"), a),
            lambda: "(-%s ** %s)" % (self.some("int", 0), self.pick("0", "1", "2", "3")),
            lambda: "%s(%s, %s)" % (self.pick("min", "max"), a, b),
            lambda: "len(%s)" % self.some(self.pick(*ITEMS), height),
            lambda: "%s(%s)" % (self.pick("sum", "len", "min", "max"), self.some("ints", height)),
            lambda: self.item("ints", height),
            lambda: "abs(%s)" % a,
            lambda: "int(%s)" % self.pick(self.some("bool", height), a, "str(%s)" % a, self.some("str", height if self.chance(0.2) else 0)),
            lambda: "ord(%s)" % (self.some("str", height) if self.chance(0.1) else "chr(%s %% 128)" % b),
        )()

    def bool_form(self, height):
        both = lambda kind: (self.some(kind, height), self.compared(), self.some(kind, height))
        any_kind = lambda: self.some(self.pick("bool", "int", "str", "ints"), height)
        return self.pick(
            lambda: "(%s %s %s)" % both("int"),
            lambda: "(%s %s %s)" % both("int"),
            lambda: "(%s %s %s" % both("int") + " %s %s)" % (self.compared(), self.some("int", height)),
            lambda: "(%s %s %s)" % both("str"),
            lambda: "(%s %s %s)" % (self.some("bool", height), self.pick("and", "or"), self.some("bool", height)),
            lambda: "(not %s)" % any_kind(),
            lambda: "bool(%s)" % any_kind(),
            lambda: self.equality(self.pick(*ITEMS), height),
            lambda: self.membership(self.pick(*ITEMS), height),
            lambda: "%s(%s)" % (self.pick("any", "all"), self.some("ints", height)),
        )()

    def equality(self, kind, height):
        return "(%s %s %s)" % (self.some(kind, height), self.pick("==", "!="), self.some(kind, height))

    def membership(self, kind, height):
        return "(%s %s %s)" % (self.some(ITEMS[kind], height), self.pick("in", "not in"), self.some(kind, height))

    def str_form(self, height):
        return self.pick(
            lambda: "(%s + %s)" % (self.some("str", height), self.some("str", height)),
            lambda: "(%s * %s)" % (self.some("str", height), self.pick("2", "0", "-1", "3", "((%s) %% 3)" % self.some("int", height))),
            lambda: "str(%s)" % self.some(self.pick(*TYPES), height),
            lambda: "str(%s)" % self.some("int", height),
            lambda: self.slice("str", height),
            lambda: self.item(self.pick("str", "strs"), height),
            lambda: "chr((%s) %% 128)" % self.some("int", height),
        )()

    def list_form(self, kind, height):
        names = self.names.get(kind, [])
        return self.pick(
            lambda: "(%s + %s)" % (self.some(kind, height), self.some(kind, height)),
            lambda: "(%s * %s)" % (self.some(kind, height), self.pick("2", "0", "-1")),
            lambda: self.slice(kind, height),
            lambda: "%s.copy()" % self.random.choice(names) if names else self.literal(kind),
            lambda: "[%s]" % ", ".join(self.some(ITEMS[kind], height) for _ in range(self.random.randrange(4))),
            lambda: self.comprehension(kind, height),
            lambda: self.comprehension(kind, height),
        )()

    def ints_form(self, height):
        if self.generators and not self.is_silent and self.chance(0.2):
            return "list(%s)" % self.generated(height)
        if self.chance(0.1):
            return "list(range(%s, %s))" % (self.pick("0", "-2"), self.pick("0", "3", "5"))
        return self.list_form("ints", height)

    def strs_form(self, height):
        return self.list_form("strs", height)

    def comprehension(self, kind, height):
        name, before = self.fresh("c"), self.kept()
        over, held = self.iterable(height)
        self.know(held, name)
        item = self.some(ITEMS[kind], height)
        test = " if " + self.some("bool", height) if self.chance(0.4) else ""
        self.names = before
        return "[%s for %s in %s%s]" % (item, name, over, test)

    def item(self, kind, height):
        """An item of a list or text, mostly where there is one."""
        names = self.names.get(kind, [])
        if not names or self.chance(0.1):
            return "%s[%s]" % (self.some(kind, height), self.pick("0", "-1", "1"))
        xs = self.random.choice(names)
        place = "(%s) %% len(%s)%s" % (self.some("int", height), xs, self.pick("", " - len(%s)" % xs))
        return "(%s[%s] if len(%s) else %s)" % (xs, place, xs, "0" if kind == "ints" else "'z'")

    def slice(self, kind, height):
        low = self.some("int", height) if self.chance(0.6) else ""
        high = self.pick("2", "-1", "100", self.some("int", height)) if self.chance(0.6) else ""
        return "(%s)[%s:%s]" % (self.some(kind, height), low, high)

    def generated(self, height):
        return "%s(%s)" % (self.random.choice(self.generators), self.some("int", height))

    def iterable(self, height):
        """What a loop goes over, and the kind of its items."""
        with_generator = self.generators and not self.is_silent
        return self.pick(
            lambda: ("range(%s)" % self.pick("3", "0", "5", "len(%s)" % self.some("str", 1)), "int"),
            lambda: ("range(%s, %s, %s)" % (self.pick("0", "9", "-4"), self.pick("4", "-3", "11"), self.pick("1", "2", "-1", "-4")), "int"),
            lambda: (self.generated(height) if with_generator else self.some("ints", height), "int"),
            lambda: (self.some("str", height), "str"),
            lambda: (self.some("strs", height), "str"),
            lambda: ("reversed(%s)" % self.some("ints", height), "int"),
            lambda: (self.some("ints", height), "int"),
        )()

    # ---- statements. `size` bounds how many stand in a block and how deep they nest, `turns` the turns of a `while` loop;
    # `gives` is the kind that the function answers with.

    def statement(self, *place):
        """One statement, or a few lines that belong together; where the one that was picked does not fit there, an assignment."""
        forms = {
            self.assignment: 5, self.update: 4, self.exchange: 2, self.printing: 4, self.condition: 2, self.while_loop: 2,
            self.for_loop: 3, self.loop_over_changes: 1, self.end_of_loop: 1, self.early_return: 1, self.change_of_list: 3,
            self.fault: 1, self.bare_call: 2,
        }  # fmt: skip
        self.random.choices([*forms], [*forms.values()])[0](*place) or self.assignment(*place)

    def block(self, depth, size, turns, own, in_loop, gives):
        """A block, after which the names that it made are not in sight."""
        before, mine = self.kept(), {kind: list(names) for kind, names in own.items()}
        for _ in range(self.random.randrange(1, size + 1)):
            self.statement(depth, size, turns, mine, in_loop, gives)
        self.names = before

    def assignment(self, depth, size, turns, own, in_loop, gives):
        kind = self.pick(*TYPES)
        value, mine = self.short(kind, 3), own.setdefault(kind, [])
        if mine and self.chance(0.5):
            self.add(depth, "%s = %s" % (self.random.choice(mine), value))
            return True
        mine.append(self.fresh("v"))
        self.know(kind, mine[-1])
        self.add(depth, "%s = %s" % (mine[-1], value))
        return True

    def update(self, depth, size, turns, own, in_loop, gives):
        kind = self.pick("int", "int", "str", "ints", "strs")
        if not own.get(kind):
            return False
        name = self.random.choice(own[kind])
        if kind != "int":
            self.growth(depth, name, "%s += %s" % (name, self.some(kind, 2)))
        elif self.chance(0.2):
            self.add(depth, "%s %s= %s" % (name, self.pick("//", "%", "<<", ">>", "**"), self.pick("3", "7", "2")))
        else:
            self.add(depth, "%s %s= %s" % (name, self.binary(), self.some("int", 2)))
        return True

    def growth(self, depth, name, line):
        """A line that makes a list or text longer, where it is not long yet."""
        self.add(depth, "if len(%s) < %d:" % (name, MOST_GROWN))
        self.add(depth + 1, line)

    def exchange(self, depth, size, turns, own, in_loop, gives):
        kind = self.pick(*TYPES)
        if not own.get(kind):
            return False
        a, b = self.random.choice(own[kind]), self.random.choice(own[kind])
        self.add(depth, self.pick("%s, %s = %s, %s", "%s, %s, = (%s, %s)") % (a, b, self.short(kind, 2), self.short(kind, 2)))
        return True

    def printing(self, depth, size, turns, own, in_loop, gives):
        if self.is_silent:
            return False
        values = [self.some(self.pick(*TYPES), 2) for _ in range(self.random.randrange(4))]
        if self.chance(0.1):
            values.append("(%s, %s)" % (self.some("int", 2), self.some("str", 2)))
        if self.chance(0.2):
            values.append("sep=" + self.pick("', '", "''", "'-'"))
        if self.chance(0.2):
            values.append("end=" + self.pick("'.\\n'", "' '", "''"))
        self.add(depth, "print(%s)" % ", ".join(values))
        return True

    def condition(self, depth, size, turns, own, in_loop, gives):
        if size < 2:
            return False
        rest = size - 1, turns, own, in_loop, gives
        self.add(depth, "if %s:" % self.some(self.pick("bool", "bool", "int", "str", "ints"), 2))
        self.block(depth + 1, *rest)
        if self.chance(0.3):
            self.add(depth, "elif %s:" % self.some("bool", 2))
            self.block(depth + 1, *rest)
        if self.chance(0.4):
            self.add(depth, "else:")
            self.block(depth + 1, *rest)
        return True

    def while_loop(self, depth, size, turns, own, in_loop, gives):
        if size < 2 or not turns:
            return False
        name = self.fresh("w")
        self.add(depth, "%s = 0" % name)
        self.know("int", name)
        more = " and " + self.some("bool", 2) if self.chance(0.3) else ""
        self.add(depth, "while %s < %d%s:" % (name, self.random.randrange(1, turns + 1), more))
        self.add(depth + 1, "%s += 1" % name)
        self.block(depth + 1, size - 1, turns // 2, own, True, gives)
        return True

    def for_loop(self, depth, size, turns, own, in_loop, gives):
        if size < 2 or not turns:
            return False
        before, a, b = self.kept(), self.fresh("l"), self.fresh("l")
        if self.chance(0.3):
            strs = self.some("strs", 2)
            self.add(depth, "for %s, %s in %s:" % (a, b, self.pick("enumerate(%s)" % strs, "zip(%s, %s)" % (self.some("ints", 2), strs))))
            self.know("int", a)
            self.know("str", b)
        else:
            over, kind = self.iterable(2)
            self.add(depth, "for %s in %s:" % (a, over))
            self.know(kind, a)
        self.block(depth + 1, size - 1, turns // 2, own, True, gives)
        self.names = before
        return True

    def loop_over_changes(self, depth, size, turns, own, in_loop, gives):
        """A loop over a list that it makes longer or shorter, or lets go of."""
        if size < 2 or not turns or not own.get("ints"):
            return False
        xs, it = self.random.choice(own["ints"]), self.fresh("l")
        self.add(depth, "for %s in %s:" % (it, self.pick(xs, xs, "reversed(%s)" % xs)))
        self.add(depth + 1, "if %s %% 3 %s %s:" % (it, self.compared(), self.pick("0", "1", "len(%s)" % xs)))
        self.add(depth + 2, self.pick("%s.append(%s // 2)" % (xs, it), "%s.pop()" % xs, "%s[0] = %s" % (xs, it), "%s = %s[1:]" % (xs, xs)))
        self.add(depth + 1, "if len(%s) > 20 or not %s:" % (xs, xs))
        self.add(depth + 2, "break")
        return True

    def end_of_loop(self, depth, size, turns, own, in_loop, gives):
        if not in_loop:
            return False
        self.add(depth, "if %s:" % self.some("bool", 2))
        self.add(depth + 1, self.pick("break", "continue"))
        return True

    def early_return(self, depth, size, turns, own, in_loop, gives):
        if not gives:
            return False
        self.add(depth, "if %s:" % self.some("bool", 2))
        self.add(depth + 1, "return %s" % self.some(gives, 2))
        return True

    def change_of_list(self, depth, size, turns, own, in_loop, gives):
        if not own.get("ints"):
            return False
        self.change(depth, self.random.choice(own["ints"]))
        return True

    def change(self, depth, xs):
        place = "(%s) %% len(%s)" % (self.some("int", 2), xs)
        value = self.some("int", 2)
        where_longest = self.pick("%s.append(%s)" % (xs, value), "%s.extend(%s)" % (xs, self.some("ints", 1)))
        if self.chance(0.4):
            self.growth(depth, xs, where_longest)
        elif self.chance(0.05):
            self.add(depth, self.pick("%s.clear()", "%s.pop()", "%s[7] = 1") % xs)
        else:
            self.add(depth, "if len(%s) > 0:" % xs)
            self.add(depth + 1, self.pick(
                "%s[%s] = %s" % (xs, place, value),
                "%s[%s] %s= %s" % (xs, place, self.binary(), value),
                "%s[0], %s[-1] = %s, %s[0]" % (xs, xs, value, xs),
                "%s.append(%s.pop() + 1)" % (xs, xs),
                "%s.pop()" % xs))  # fmt: skip

    def fault(self, depth, size, turns, own, in_loop, gives):
        if self.chance(0.8):
            return False
        kinds = "ValueError", "RuntimeError", "IndexError", "AssertionError"
        self.add(depth, self.pick(
            "assert %s, %s" % (self.some("bool", 2), self.some("str", 1)),
            "assert %s" % self.some("bool", 2),
            "raise %s(%s)" % (self.pick(*kinds), self.some("str", 1)),
            "raise %s" % self.pick(*kinds)))  # fmt: skip
        return True

    def bare_call(self, depth, size, turns, own, in_loop, gives):
        call = self.call(self.pick(*TYPES), 2)
        if call:
            self.add(depth, call)
        return bool(call)

    # ---- what stands at the top

    def parameters(self):
        """The parameters of a function as text, their kinds, how many have defaults, and their names by kind."""
        kinds = [self.pick("int", "int", "str", "bool", "ints") for _ in range(self.random.randrange(4))]
        constants = {"int": self.pick("3", "-4"), "str": "'d'", "bool": "True"}
        defaults = 0
        while defaults < len(kinds) and kinds[-1 - defaults] in constants and self.chance(0.3):
            defaults += 1
        written, names = [], {}
        for at, kind in enumerate(kinds):
            name = self.fresh("p")
            names.setdefault(kind, []).append(name)
            annotation = ": " + TYPES[kind] if self.chance(0.4) else ""
            written.append(name + annotation + (" = " + constants[kind] if at >= len(kinds) - defaults else ""))
        return ", ".join(written), kinds, defaults, names

    def function(self):
        name, before, gives = self.fresh("f"), self.names, self.pick(*TYPES)
        written, kinds, defaults, own = self.parameters()
        self.names = {kind: list(names) for kind, names in own.items()}
        for kind, held in self.shared.items():
            self.know(kind, held)
        self.add(0, "def %s(%s):" % (name, written))
        self.is_silent = is_silent = self.chance(0.3)
        if not is_silent and self.chance(0.3):
            self.add(1, "print(%s)" % ", ".join(["'%s'" % name] + [it for names in own.values() for it in names]))
        if not is_silent and self.chance(0.3):
            self.change(1, self.shared["ints"])
        for _ in range(self.random.randrange(1, 4)):
            self.statement(1, 3, 3, own, False, gives)
        self.add(1, "return %s" % self.some(gives, 2))
        self.is_silent, self.names = False, before
        self.functions.append((name, kinds, defaults, gives, not is_silent))
        self.add(0, "")

    def recursion(self):
        """A function that calls itself at most seven times."""
        name, n, held, before = self.fresh("f"), self.fresh("p"), self.fresh("p"), self.names
        kind = self.pick("int", "str", "ints")
        self.names = {"int": [n]}
        self.know(kind, held)
        self.is_silent = True
        self.add(0, "def %s(%s, %s):" % (name, n, held))
        self.add(1, "if %s %% 8 == 0:" % n)
        self.add(2, "return %s" % self.some(kind, 2))
        again = "%s(%s %% 8 - 1, %s)" % (name, n, self.short(kind, 2))
        self.add(1, "return %s" % self.pick(again, "%s + %s" % (held, again), "%s + %s" % (again, held)))
        self.is_silent, self.names = False, before
        self.functions.append((name, ["int", kind], 0, kind, False))
        self.add(0, "")

    def generator(self):
        name, most, at, before = self.fresh("g"), self.fresh("p"), self.fresh("i"), self.names
        self.names = {"int": [most, at]}
        self.add(0, "def %s(%s):" % (name, most))
        self.add(1, "%s = 0" % at)
        self.add(1, "while %s < %s %% 5:" % (at, most))
        if self.chance(0.3):
            self.add(2, "print('%s', %s)" % (name, at))
        if self.chance(0.4):
            self.add(2, "if %s:" % self.some("bool", 2))
            self.add(3, "yield %s" % self.some("int", 1))
        if self.generators and self.chance(0.4):
            item = self.fresh("l")
            self.add(2, "for %s in %s:" % (item, self.generated(1)))
            self.add(3, "yield %s - %s" % (item, at))
        self.add(2, "yield %s" % self.some("int", 2))
        self.add(2, "%s += 1" % at)
        if self.chance(0.3):
            self.add(2, "if %s:" % self.some("bool", 2))
            self.add(3, "return")
        self.names = before
        self.generators.append(name)
        self.add(0, "")

    def giver_of_tuples(self):
        name, p, before = self.fresh("f"), self.fresh("p"), self.names
        self.names = {"int": [p]}
        self.add(0, "def %s(%s):" % (name, p))
        self.add(1, "return %s, %s" % (self.some("int", 2), self.some("str", 2)))
        self.names = before
        self.add(0, "")
        self.uses.append(lambda: self.use_of_tuples("%s(%s)" % (name, self.some("int", 2))))

    def use_of_tuples(self, made):
        a, b, t = self.fresh("v"), self.fresh("v"), self.fresh("t")
        self.add(0, "%s = %s" % (t, made))
        self.add(0, "%s, %s = %s" % (a, b, self.pick(t, made)))
        self.add(0, "print(%s, %s, %s[0], [%s[1]], %s == %s, %s != (%s, %s))" % (t, a, t, t, t, made, t, self.some("int", 1), b))
        self.add(0, "print([[%s], [], %s], ((%s,), %s), str([%s, %s]))" % (a, self.some("ints", 1), b, t, t, t))

    def shape(self):
        """A class with and without `__init__`, and what is done with an instance that two names hold."""
        name, has_init = self.fresh("K"), self.chance(0.5)
        self.add(0, "class %s:" % name)
        self.add(1, "n: int")
        self.add(1, "xs: list[int]")
        if has_init:
            self.add(1, "def __init__(self, n):")
            self.add(2, "self.n = n * 2")
            self.add(2, "self.xs = [n]")
        self.add(1, "def step(self, by=1):")
        self.add(2, "self.n += by")
        self.add(2, "self.xs.append(self.n %s by)" % self.binary())
        self.add(2, "return self.n")
        self.add(1, "def whole(self):")
        self.add(2, "return sum(self.xs) + self.n")
        self.add(0, "")
        self.uses.append(lambda: self.use_of_shape("%s(%s%s)" % (name, self.literal("int"), "" if has_init else ", [1, 2]")))

    def use_of_shape(self, made):
        one, other = self.fresh("h"), self.fresh("h")
        self.add(0, "%s = %s" % (one, made))
        self.add(0, "%s = %s" % (other, one))
        self.add(0, "print(%s.step(%s), %s.step(), %s.whole(), %s.xs)" % (one, self.some("int", 2), other, one, other))
        self.add(0, "%s.n %s= %s" % (one, self.binary(), self.some("int", 2)))
        self.add(0, "%s.xs[0], %s.n = %s.n, %s" % (one, other, one, self.some("int", 2)))
        self.add(0, "print(%s.n, %s.xs)" % (other, one))

    def parallel_loop(self):
        """A loop in parallel that reduces to a variable and writes each its own place of a list."""
        at, total, xs, before = self.fresh("i"), self.fresh("t"), self.fresh("x"), self.kept()
        size = self.random.randrange(6)
        self.add(0, "%s = %s" % (total, self.literal("int")))
        self.add(0, "%s = [0] * %d" % (xs, size))
        self.add(0, "@par" + self.pick("", "(num_threads=2)", "(chunk_size=3, schedule='static')"))
        self.add(0, "for %s in range(%d):" % (at, size))
        self.know("int", at)
        self.is_silent = True
        for _ in range(self.random.randrange(3)):
            value, own = self.some("int", 3), self.fresh("v")
            self.add(1, "%s = %s" % (own, value))
            self.know("int", own)
        op, value = self.pick("+", "*", "&", "|", "^", "min", "max"), self.some("int", 2)
        self.add(1, "%s = %s(%s, %s)" % (total, op, total, value) if op in ("min", "max") else "%s %s= %s" % (total, op, value))
        self.add(1, "%s[%s] %s= %s" % (xs, at, self.pick("", "+", "-"), self.some("int", 2)))
        self.is_silent, self.names = False, before
        self.add(0, "print(%s, %s)" % (total, xs))

    def pipeline(self):
        maps = [it[0] for it in self.functions if it[1][:1] == ["int"] and it[3] == "int" and len(it[1]) - it[2] <= 1]
        between = [self.random.choice(maps + self.generators) for _ in range(self.random.randrange(3)) if maps + self.generators]
        stages = ["iter", *between, "print(%s)" % self.pick("", "'end'", "sep=''")]
        self.add(0, "%s |> %s" % (self.some("ints", 2), " |> ".join(stages)))
