#!/usr/bin/env python3
"""Compares iasl with ACPICA's tools on random sources with statements: symbolic operators, assignments, control flow with
ElseIf, Packages, Buffers, stores through references, and conversions of data.

    compare/statements.py IASL COUNT SEED

The bytes must be those of ACPICA's iasl, but for the creator's two fields and the checksum, which is checked by
itself. ACPICA's interpreter, acpiexec, must then give each call what docs/DEFINITIONS.md says of the statements
(`Method.call` below, written from the ACPI Specification's texts). It needs acpica-tools, and is no part of the tests.
"""

import random
import sys
import tempfile
from pathlib import Path

from acpica import EDGES, PLAIN, THEIRS, compiled, evaluated, number, segment, without_creator

ONES = 2**64 - 1


class Fault(Exception):
    """The interpreter's own word for why a call ends."""


class Leaves(Exception):
    """A statement that leaves its loop, its turn, or its method."""

    def __init__(self, how, value=None):
        super().__init__(how)
        self.how, self.value = how, value


def truth(holds):
    return ONES if holds else 0


def divided(a, b):
    if b == 0:
        raise Fault("AE_AML_DIVIDE_BY_ZERO")
    return divmod(a, b)


# The operators between two operands: how tightly they bind, and what they give.
BINARY = {
    "*": (3, lambda a, b: a * b),
    "/": (3, lambda a, b: divided(a, b)[0]),
    "%": (3, lambda a, b: divided(a, b)[1]),
    "+": (4, lambda a, b: a + b),
    "-": (4, lambda a, b: a - b),
    "<<": (5, lambda a, b: a << b if b < 64 else 0),
    ">>": (5, lambda a, b: a >> b if b < 64 else 0),
    "<": (6, lambda a, b: truth(a < b)),
    ">": (6, lambda a, b: truth(a > b)),
    "<=": (6, lambda a, b: truth(a <= b)),
    ">=": (6, lambda a, b: truth(a >= b)),
    "==": (7, lambda a, b: truth(a == b)),
    "!=": (7, lambda a, b: truth(a != b)),
    "&": (8, lambda a, b: a & b),
    "^": (9, lambda a, b: a ^ b),
    "|": (10, lambda a, b: a | b),
    "&&": (11, lambda a, b: truth(a and b)),
    "||": (12, lambda a, b: truth(a or b)),
}
COMPOUND = "+ - * / % << >> & | ^".split()

# Data and what the conversions give of it.
CONVERSIONS = [
    ('ToInteger ("0x1aF")', 0x1AF),
    ('ToInteger ("42")', 42),
    ("ToInteger (Buffer () {1, 2, 3})", 0x030201),
    ('Mid ("abcdef", 1, 3)', "bcd"),
    ('Mid ("abcdef", 4, 9)', "ef"),
    ('Mid ("abc", 7, 1)', ""),
    ('Concatenate ("a", "bc")', "abc"),
    ('Concatenate ("a", 5)', "a0000000000000005"),
    ("ToDecimalString (1234)", "1234"),
    ("ToDecimalString (Buffer () {1, 20, 255})", "1,20,255"),
    ('ToString (Buffer () {0x41, 0x42, 0, 0x43})', "AB"),
    ("Match (Package () {1, 5, 9}, MGT, 4, MTR, 0, 0)", 1),
    ("Match (Package () {1, 5, 9}, MEQ, 9, MLT, 9, 0)", ONES),
    ('"12" + 1', 0x13),
    ("1 + Buffer () {2, 1}", 0x103),
    ('"ab" == "ab"', ONES),
    ('"ab" < "b"', ONES),
    ("DerefOf (Index (Package () {7, 8}, 1))", 8),
]

# What operators say of an object in a Local.
OBJECTS = [
    ('"four"', "SizeOf", 4),
    ("Buffer (9) {1}", "SizeOf", 9),
    ("Package () {1, 2, 3}", "SizeOf", 3),
    ('"s"', "ObjectType", 2),
    ("Buffer () {1}", "ObjectType", 3),
    ("Package () {1}", "ObjectType", 4),
    ("5", "ObjectType", 1),
]


class World:
    """The named objects, which live through the calls."""

    def __init__(self):
        self.integers, self.package, self.buffer = {}, [], []


class Method:
    """A method: its text, and what a call of it does."""

    # How many Locals begin with a value; of these, how many hold values; each further one counts the turns of loops of one depth.
    begun, kept = 8, 6

    def __init__(self, written, world, names):
        self.world, self.names = world, names
        self.arity = random.choice([0, 1, 2])
        self.text = f"    Method ({written}, {self.arity}, NotSerialized)\n    {{\n"
        start = [random.choice(EDGES) for _ in range(self.begun)]
        self.start = start
        for slot, value in enumerate(start):
            self.text += f"        Local{slot} = 0x{value:x}\n"
        body, self.run = self.statements(3, 2, [])
        text, result = self.expression(2)
        self.text += self.laid(body, 2) + f"        Return ({text})\n    }}\n"
        self.result = result

    @staticmethod
    def laid(lines, level):
        out = ""
        for line in lines:
            if isinstance(line, str):
                out += "    " * level + line + "\n"
            else:
                out += "    " * level + line[0] + "\n" + "    " * level + "{\n" + Method.laid(line[1], level + 1) + "    " * level + "}\n"
        return out

    # ---- expressions: their text, how tightly it binds, and what they give

    def leaf(self):
        kind = random.random()
        if kind < 0.3:
            slot = random.randrange(self.kept)
            return f"Local{slot}", lambda f: f.locals[slot]
        if kind < 0.45 and self.arity:
            slot = random.randrange(self.arity)
            return f"Arg{slot}", lambda f: f.args[slot]
        if kind < 0.6:
            written, seg = random.choice(self.names)
            return written, lambda f: self.world.integers[seg]
        if kind < 0.7:
            place = random.randrange(len(self.world.package))
            return f"DerefOf (PKGX[{place}])", lambda f: self.world.package[place]
        if kind < 0.8:
            place = random.randrange(len(self.world.buffer))
            return f"DerefOf (BUFX[{place}])", lambda f: self.world.buffer[place]
        if kind < 0.85:
            word, value = random.choice([("Zero", 0), ("One", 1), ("Ones", ONES)])
            return word, lambda f: value
        value, text = number()
        return text, lambda f: value

    def part(self, depth):
        """An expression with its binding level."""
        if depth == 0:
            text, value = self.leaf()
            return text, 0, value
        if random.random() < 0.15:
            op = random.choice("!~")
            text, level, inner = self.part(depth - 1)
            text = f"({text})" if level > 2 else text
            return f"{op}{text}", 2, (lambda f: truth(not inner(f))) if op == "!" else (lambda f: ~inner(f) & ONES)
        op = random.choice(sorted(BINARY))
        level, act = BINARY[op]
        left, left_level, a = self.part(random.randrange(depth))
        right, right_level, b = self.part(random.randrange(depth))
        left = f"({left})" if left_level > level or random.random() < 0.1 else left
        right = f"({right})" if right_level >= level or random.random() < 0.1 else right

        def value(f):
            first = a(f)
            return act(first, b(f)) & ONES

        return f"{left} {op} {right}", level, value

    def expression(self, depth):
        text, _, value = self.part(depth)
        return text, value

    # ---- places: their text, what stands there, and a store

    def place(self):
        kind = random.random()
        if kind < 0.5:
            slot = random.randrange(self.kept)

            def put(f, value):
                f.locals[slot] = value

            return f"Local{slot}", lambda f: f.locals[slot], put
        if kind < 0.8:
            written, seg = random.choice(self.names)

            def put(f, value):
                self.world.integers[seg] = value

            return written, lambda f: self.world.integers[seg], put
        if kind < 0.9:
            at = random.randrange(len(self.world.package))

            def put(f, value):
                self.world.package[at] = value

            return f"PKGX[{at}]", None, put
        at = random.randrange(len(self.world.buffer))

        def put(f, value):
            self.world.buffer[at] = value & 0xFF

        return f"BUFX[{at}]", None, put

    # ---- statements

    def assignment(self):
        place, read, put = self.place()
        text, value = self.expression(random.choice([0, 1, 2, 3]))
        kind = random.random()
        if kind < 0.3 and read:
            op = random.choice(COMPOUND)
            act = BINARY[op][1]
            return f"{place} {op}= {text}", lambda f: put(f, act(read(f), value(f)) & ONES)
        if kind < 0.4 and read:
            op, step = random.choice([("++", 1), ("--", -1)])
            return f"{place}{op}", lambda f: put(f, (read(f) + step) & ONES)
        if kind < 0.5:
            written, seg = random.choice(self.names)

            def through(f):
                self.world.integers[seg] = value(f)

            return f"STOR (RefOf ({written}), {text})", through
        if kind < 0.6:
            slot = random.randrange(self.kept)

            def chain(f):
                f.locals[slot] = value(f)
                put(f, f.locals[slot])

            return f"{place} = Local{slot} = {text}", chain
        return f"{place} = {text}", lambda f: put(f, value(f))

    def branches(self, depth, loops, inside):
        lines, choices = [], []
        for word in ["If"] + ["ElseIf"] * random.choice([0, 0, 1, 2, 4]):
            text, test = self.expression(random.choice([1, 2]))
            body, run = self.statements(depth - 1, loops, inside)
            lines.append((f"{word} ({text})", body))
            choices.append((test, run))
        other = None
        if random.random() < 0.5:
            body, other = self.statements(depth - 1, loops, inside)
            lines.append(("Else", body))

        def run(f):
            for test, inner in choices:
                if test(f):
                    inner(f)
                    return
            if other:
                other(f)

        return lines, run

    def loop(self, depth, loops):
        slot, turns = self.kept - 1 + loops, random.choice([0, 1, 3])
        body, inner = self.statements(depth - 1, loops - 1, ["Break", "Continue"])
        lines = [f"Local{slot} = 0", (f"While (Local{slot} < {turns})", [f"Local{slot}++"] + body)]

        def run(f):
            f.locals[slot] = 0
            while f.locals[slot] < turns:
                f.locals[slot] += 1
                try:
                    inner(f)
                except Leaves as leaves:
                    if leaves.how == "Return":
                        raise
                    if leaves.how == "Break":
                        break

        return lines, run

    def statements(self, depth, loops, inside):
        """Statements that nest no deeper, with loops no deeper, and with these words that leave what is around them."""
        lines, runs = [], []
        for _ in range(random.choice([1, 1, 2, 3])):
            kind = random.random()
            if kind < 0.25 and depth:
                more, run = self.branches(depth, loops, inside)
                lines += more
            elif kind < 0.35 and depth and loops:
                more, run = self.loop(depth, loops)
                lines += more
            elif kind < 0.4 and inside:
                word = random.choice(inside)
                lines.append(word)
                run = self.leaving(word, None)
            elif kind < 0.43 and depth < 3:
                text, value = self.expression(1)
                lines.append(f"Return ({text})")
                run = self.leaving("Return", value)
            else:
                line, run = self.assignment()
                lines.append(line)
            runs.append(run)

        def all_of(f):
            for run in runs:
                run(f)

        return lines, all_of

    @staticmethod
    def leaving(how, value):
        def run(f):
            raise Leaves(how, value(f) if value else None)

        return run

    def call(self, args):
        self.locals, self.args = list(self.start), args
        try:
            self.run(self)
            return self.result(self)
        except Leaves as leaves:
            return leaves.value
        except Fault as fault:
            return str(fault)


def source():
    """A source, and the calls with what they are to give."""
    used, terms, names, world = {"PKGX", "BUFX", "STOR"}, [], [], World()
    world.package = [random.choice(EDGES) for _ in range(random.choice([1, 3, 8]))]
    world.buffer = [random.randrange(256) for _ in range(random.choice([1, 4, 9]))]
    terms.append(f"    Name (PKGX, Package () {{{', '.join(map(str, world.package))}}})\n")
    terms.append(f"    Name (BUFX, Buffer () {{{', '.join(map(str, world.buffer))}}})\n")
    terms.append("    Method (STOR, 2) { Arg0 = Arg1 }\n")
    for _ in range(random.choice([1, 2, 5])):
        written, seg = segment(used)
        value, text = number()
        names.append((written, seg))
        world.integers[seg] = value
        terms.append(f"    Name ({written}, {text})\n")
    methods, calls = [], []
    for _ in range(random.choice([1, 2, 3])):
        written, seg = segment(used)
        method = Method(written, world, names)
        methods.append((seg, method))
        terms.append(method.text)
    for seg, method in methods:
        for _ in range(2):
            args = [random.choice(EDGES) for _ in range(method.arity)]
            calls.append(((seg, args), method.call(args)))
    for text, value in random.sample(CONVERSIONS, 2):
        written, seg = segment(used)
        terms.append(f"    Method ({written}) {{ Return ({text}) }}\n")
        calls.append(((seg, []), value))
    data, op, value = random.choice(OBJECTS)
    written, seg = segment(used)
    terms.append(f"    Method ({written}) {{ Local0 = {data} Return ({op} (Local0)) }}\n")
    calls.append(((seg, []), value))
    for _, seg in names:
        calls.append(((seg, []), world.integers[seg]))
    head = 'DefinitionBlock ("", "SSDT", 2, "OEMX00", "TABLE001", 1)'
    return head + "\n{\n" + "".join(terms) + "}\n", calls


def main():
    iasl, count, seed = str(Path(sys.argv[1]).resolve()), int(sys.argv[2]), int(sys.argv[3])
    random.seed(seed)
    crashed = 0
    with tempfile.TemporaryDirectory() as name:
        folder = Path(name)
        for run in range(count):
            text, calls = source()
            theirs = compiled(folder / "theirs", THEIRS, text)
            ours = compiled(folder / "ours", [iasl] + PLAIN, text)
            if not theirs:
                crashed += 1  # (ACPICA's compiler ends by a signal on some sources, and leaves an empty file)
            elif without_creator(ours) != without_creator(theirs):
                sys.exit(f"source {run}: other bytes:\n{text}")
            given = evaluated(folder / "ours", [call for call, _ in calls])
            if given != [value for _, value in calls]:
                sys.exit(f"source {run}: {given} for {calls}:\n{text}")
    same = f"the same bytes but for {crashed} on which ACPICA's compiler crashed"
    print(f"{count} sources: {same}, and the interpreter gives what the statements say")


if __name__ == "__main__":
    main()
