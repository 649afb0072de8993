#!/usr/bin/env python3
"""Compares iasl with ACPICA's tools on random sources: names, strings, methods, operators on integers.

    compare/sources.py IASL COUNT SEED

The bytes must be those of ACPICA's iasl, but for the creator's two fields and the checksum, which is checked by
itself. ACPICA's interpreter, acpiexec, must then give each call of a method what the ACPI Specification says of its
expressions (`value` below, written from its texts on the operators). It needs acpica-tools, and is no part of the tests.
"""

import random
import sys
import tempfile
from pathlib import Path

from acpica import EDGES, PLAIN, THEIRS, compiled, evaluated, number, segment, without_creator

ONES = 2**64 - 1
# The operators with two operands and a target, with one and a target, with two, and with one.
TWO_AND_TARGET = "Add Subtract Multiply ShiftLeft ShiftRight And Nand Or Nor Xor Mod".split()
ONE_AND_TARGET = "Not FindSetLeftBit FindSetRightBit FromBCD ToBCD".split()
TWO = "LAnd LOr LEqual LGreater LLess LNotEqual LLessEqual LGreaterEqual".split()
STRINGS = ["", "a", "PNP0C09", "tab\\t", "quote\\\"d", "\\x41\\x7e", "back\\\\slash", "oct\\101"]


class Fault(Exception):
    """The interpreter's own word for why a call ends."""


def truth(holds):
    return ONES if holds else 0


def from_bcd(a):
    digits = f"{a:x}"
    if not digits.isdecimal():
        raise Fault("AE_AML_NUMERIC_OVERFLOW")
    return int(digits)


def to_bcd(a):
    if a > 9999999999999999:
        raise Fault("AE_AML_NUMERIC_OVERFLOW")
    return int(str(a), 16)


def divided(a, b):
    if b == 0:
        raise Fault("AE_AML_DIVIDE_BY_ZERO")
    return divmod(a, b)


VALUES = {
    "Add": lambda a, b: a + b,
    "Subtract": lambda a, b: a - b,
    "Multiply": lambda a, b: a * b,
    "ShiftLeft": lambda a, b: a << b if b < 64 else 0,
    "ShiftRight": lambda a, b: a >> b if b < 64 else 0,
    "And": lambda a, b: a & b,
    "Nand": lambda a, b: ~(a & b),
    "Or": lambda a, b: a | b,
    "Nor": lambda a, b: ~(a | b),
    "Xor": lambda a, b: a ^ b,
    "Mod": lambda a, b: divided(a, b)[1],
    "Not": lambda a: ~a,
    "FindSetLeftBit": lambda a: a.bit_length(),
    "FindSetRightBit": lambda a: (a & -a).bit_length(),
    "FromBCD": from_bcd,
    "ToBCD": to_bcd,
    "LAnd": lambda a, b: truth(a and b),
    "LOr": lambda a, b: truth(a or b),
    "LNot": lambda a: truth(not a),
    "LEqual": lambda a, b: truth(a == b),
    "LGreater": lambda a, b: truth(a > b),
    "LLess": lambda a, b: truth(a < b),
    "LNotEqual": lambda a, b: truth(a != b),
    "LLessEqual": lambda a, b: truth(a <= b),
    "LGreaterEqual": lambda a, b: truth(a >= b),
}


class Method:
    """A method, its text, and what a call gives by the operators' texts."""

    def __init__(self, written, names):
        self.arity = random.choice([0, 1, 1, 2, 3, 7])
        self.names = names
        self.locals = set()
        body = [self.statement() for _ in range(random.choice([0, 1, 2, 4]))]
        text, self.result = self.expression(random.choice([0, 1, 2, 3]))
        head = random.choice(["", ", NotSerialized", ", Serialized", f", Serialized, {random.randint(0, 15)}"])
        lines = [statement for statement, _ in body] + [f"Return ({text})"]
        self.steps = [step for _, step in body]
        self.text = f"    Method ({written}, {self.arity}{head})\n    {{\n" + "".join(f"        {line}\n" for line in lines) + "    }\n"

    def operand(self):
        """An operand without operands of its own: its text, and a function of Locals and Args."""
        kind = random.random()
        if kind < 0.3 and self.locals:
            slot = random.choice(sorted(self.locals))
            return f"Local{slot}", lambda locals_, args: locals_[slot]
        if kind < 0.6 and self.arity:
            slot = random.randrange(self.arity)
            return f"Arg{slot}", lambda locals_, args: args[slot]
        if kind < 0.75 and self.names:
            written, value = random.choice(self.names)
            return written, lambda locals_, args: value
        if kind < 0.85:
            word, value = random.choice([("Zero", 0), ("One", 1), ("Ones", ONES)])
            return word, lambda locals_, args: value
        value, text = number()
        return text, lambda locals_, args: value

    def expression(self, depth, target=None):
        """An expression, which stores to a Local where a target is given."""
        if depth == 0 and target is None:
            return self.operand()
        pool = TWO_AND_TARGET + ONE_AND_TARGET + ["Divide"] + ([] if target is not None else TWO + ["LNot"])
        op = random.choice(pool)
        deeper = max(depth - 1, 0)
        first, a = self.expression(deeper)
        if op == "Divide":
            second, b = self.expression(deeper)
            place = f", , Local{target}" if target is not None else ""
            quotient = self.storing(target, lambda locals_, args: divided(a(locals_, args), b(locals_, args))[0])
            return f"Divide ({first}, {second}{place})", quotient
        place = f", Local{target}" if target is not None else random.choice(["", ","]) if op not in TWO + ["LNot"] else ""
        if op in ONE_AND_TARGET + ["LNot"]:
            return f"{op} ({first}{place})", self.storing(target, lambda locals_, args: VALUES[op](a(locals_, args)) & ONES)
        second, b = self.expression(deeper)

        def both(locals_, args):
            left = a(locals_, args)
            return VALUES[op](left, b(locals_, args)) & ONES

        return f"{op} ({first}, {second}{place})", self.storing(target, both)

    @staticmethod
    def storing(target, value):
        if target is None:
            return value

        def step(locals_, args):
            locals_[target] = value(locals_, args)
            return locals_[target]

        return step

    def statement(self):
        target = random.randrange(8)
        text, step = self.expression(random.choice([1, 1, 2]), target)
        self.locals.add(target)
        return text, step

    def call(self, args):
        locals_ = {}
        try:
            for step in self.steps:
                step(locals_, args)
            return self.result(locals_, args)
        except Fault as fault:
            return str(fault)


def source():
    """A source, and the calls with what they are to give."""
    used, terms, names, strings, methods = set(), [], [], [], []
    for _ in range(random.choice([0, 1, 2, 5, 20])):
        written, name_seg = segment(used)
        if random.random() < 0.3:
            text = random.choice(STRINGS)
            strings.append(name_seg)
            terms.append(f'    Name ({written}, "{text}")\n')
        else:
            value, text = number()
            names.append((written, value))
            methods.append((name_seg, None, value))
            terms.append(f"    Name ({written}, {text})\n")
    for _ in range(random.choice([1, 2, 5])):
        written, name_seg = segment(used)
        method = Method(written, names)
        methods.append((name_seg, method, None))
        terms.append(method.text)
    signature = random.choice(["SSDT", "DSDT"])
    head = f'DefinitionBlock ("", "{signature}", {random.choice([2, 3, 255])}, "OEMX00", "TABLE001", {random.choice([0, 1, 2**32 - 1])})'
    calls = []
    for name_seg, method, value in random.sample(methods, min(len(methods), 8)):
        args = [random.choice(EDGES) for _ in range(method.arity if method else 0)]
        calls.append(((name_seg, args), method.call(args) if method else value))
    return head + "\n{\n" + "".join(terms) + "}\n", calls


def main():
    iasl, count, seed = str(Path(sys.argv[1]).resolve()), int(sys.argv[2]), int(sys.argv[3])
    random.seed(seed)
    with tempfile.TemporaryDirectory() as name:
        folder = Path(name)
        for run in range(count):
            text, calls = source()
            theirs = compiled(folder / "theirs", THEIRS, text)
            ours = compiled(folder / "ours", [iasl] + PLAIN, text)
            if without_creator(ours) != without_creator(theirs):
                sys.exit(f"run {run}: other bytes:\n{text}")
            given = evaluated(folder / "ours", [call for call, _ in calls])
            if given != [value for _, value in calls]:
                sys.exit(f"run {run}: {given} for {calls}:\n{text}")
    print(f"{count} sources: the same bytes, and what the interpreter gives is what the operators say")


main()
