#!/usr/bin/env python3
"""Compares iasl with ACPICA's tools on random sources with Switch and constant expressions.

    compare/switches.py IASL COUNT SEED

The two compilers make other loops of a Switch, so their bytes differ by right. ACPICA's interpreter, acpiexec, must give
each call, on our table, what docs/DEFINITIONS.md says of the statements (`Method.call` of statements.py and `switch` below,
written from the ACPI Specification's texts). On the table of ACPICA's compiler it is told how often it does so too, where no
Continue leaves a Switch, which begins the Switch again there, no Default stands before a Case, where that compiler leaves the
Cases out, no call divides by 0, which it refuses where it is constant, and it does not write more bytes than its table's
length, as it does for some Cases with a Package. It needs acpica-tools, and is no part of the tests.
"""

import random
import sys
import tempfile
from pathlib import Path

from acpica import EDGES, compiled, evaluated, number, segment
from statements import Leaves, Method, World

MOST_NESTED = 2


class SwitchMethod(Method):
    """A method with Switches, which leaves them three Locals."""

    begun, kept = 5, 3

    def __init__(self, written, world, names):
        self.nested, self.crossed, self.led = 0, False, False
        super().__init__(written, world, names)

    def constant(self):
        """A constant as it is written, and its value."""
        value, text = random.choice(EDGES[:6]), None
        kind = random.random()
        if kind < 0.2:
            added = random.choice([1, 2, 0xFF])
            text, value = f"{value} + {added}", value + added
        elif kind < 0.3:
            text, value = random.choice([("Zero", 0), ("One", 1), ("Ones", 2**64 - 1)])
        return text or str(value), value

    def cases(self, depth, loops, inside):
        lines, choices, other, told = [], [], None, set()
        for _ in range(random.choice([0, 1, 2, 4])):
            members = [(text, value) for text, value in (self.constant() for _ in range(random.choice([1, 1, 1, 3]))) if value not in told]
            members = list({value: (text, value) for text, value in members}.values())
            if not members:
                continue
            told |= {value for _, value in members}
            body, run = self.statements(depth - 1, loops, inside)
            texts = ", ".join(text for text, _ in members)
            packaged = len(members) > 1 or random.random() < 0.2
            lines.append((f"Case (Package () {{{texts}}})" if packaged else f"Case ({texts})", body))
            choices.append(({value for _, value in members}, run))
        if random.random() < 0.6:
            body, other = self.statements(depth - 1, loops, inside)
            at = random.choice([0, len(lines), len(lines)])
            self.led = self.led or at < len(lines)
            lines.insert(at, ("Default", body))
        return lines, choices, other

    def switch(self, depth, loops, inside):
        self.nested += 1
        text, value = self.expression(random.choice([0, 0, 1]))
        if random.random() < 0.7:
            text, inner = f"({text}) % 5", value
            value = lambda f: inner(f) % 5  # (small values meet more Cases)
        words = ["Break"] + [word for word in inside if word != "Break"]
        lines, choices, other = self.cases(depth, loops, words)
        self.nested -= 1
        self.crossed = self.crossed or "Continue" in repr(lines)

        def run(f):
            found = value(f)
            chosen = next((inner for values, inner in choices if found in values), other)
            try:
                if chosen:
                    chosen(f)
            except Leaves as leaves:
                if leaves.how != "Break":
                    raise

        return [(f"Switch ({text})", lines)], run

    def statements(self, depth, loops, inside):
        lines, run = super().statements(depth, loops, inside)
        if depth and self.nested < MOST_NESTED and random.random() < 0.5:
            more, inner = self.switch(depth, loops, inside)
            first = random.random() < 0.5
            lines = more + lines if first else lines + more
            both = (inner, run) if first else (run, inner)

            def all_of(f):
                for one in both:
                    one(f)

            return lines, all_of
        return lines, run


def source():
    """A source, the calls with what they are to give, and whether ACPICA's compiler does otherwise for a Switch in it."""
    used, terms, names, world = {"PKGX", "BUFX", "STOR"}, [], [], World()
    world.package = [random.choice(EDGES) for _ in range(3)]
    world.buffer = [random.randrange(256) for _ in range(4)]
    terms.append(f"    Name (PKGX, Package () {{{', '.join(map(str, world.package))}}})\n")
    terms.append(f"    Name (BUFX, Buffer () {{{', '.join(map(str, world.buffer))}}})\n")
    terms.append("    Method (STOR, 2) { Arg0 = Arg1 }\n")
    for _ in range(2):
        written, seg = segment(used)
        value, text = number()
        names.append((written, seg))
        world.integers[seg] = value
        terms.append(f"    Name ({written}, {text})\n")
    methods, calls = [], []
    for _ in range(random.choice([1, 2, 3])):
        written, seg = segment(used)
        method = SwitchMethod(written, world, names)
        methods.append((seg, method))
        terms.append(method.text)
    for seg, method in methods:
        for _ in range(3):
            args = [random.choice(EDGES) for _ in range(method.arity)]
            calls.append(((seg, args), method.call(args)))
    for _, seg in names:
        calls.append(((seg, []), world.integers[seg]))
    head = 'DefinitionBlock ("", "SSDT", 2, "OEMX00", "TABLE001", 1)'
    return head + "\n{\n" + "".join(terms) + "}\n", calls, any(method.crossed or method.led for _, method in methods)


def main():
    iasl, count, seed = str(Path(sys.argv[1]).resolve()), int(sys.argv[2]), int(sys.argv[3])
    random.seed(seed)
    both = otherwise = 0
    with tempfile.TemporaryDirectory() as name:
        folder = Path(name)
        for run in range(count):
            text, calls, otherwise_there = source()
            asked, wanted = [call for call, _ in calls], [value for _, value in calls]
            compiled(folder / "ours", [iasl], text)
            given = evaluated(folder / "ours", asked)
            if given != wanted:
                sys.exit(f"source {run}: {given} for {calls}:\n{text}")
            if otherwise_there or "AE_AML_DIVIDE_BY_ZERO" in wanted:
                continue
            theirs = compiled(folder / "theirs", ["iasl", "-f", "-vs"], text)
            if len(theirs) == int.from_bytes(theirs[4:8], "little"):
                both += 1
                otherwise += evaluated(folder / "theirs", asked) != wanted
    print(f"{count} sources: the interpreter gives what the statements say on our tables, and on {both - otherwise} of {both} of ACPICA's")


if __name__ == "__main__":
    main()
