#!/usr/bin/env python3
"""Compares iasl with ACPICA's tools on random sources with For, Printf, Fprintf and Switch in each other.

    compare/forms.py IASL COUNT SEED

ACPICA's interpreter, acpiexec, must give and print for each call, on our table, what docs/DEFINITIONS.md says of the
statements (`Method.call` of statements.py, `switch` of switches.py, and `for_loop` and `print` below, written from
the ACPI Specification's texts). The bytes must be those of ACPICA's compiler where there is no Switch, no Continue
of a For, which leaves the step out there, no `%%`, which it does not know, and no Fprintf into Debug, which is no
place there. It needs acpica-tools, and is no part of the tests.
"""

import random
import sys
import tempfile
from pathlib import Path

from acpica import EDGES, PLAIN, THEIRS, compiled, evaluations, given, number, printed, segment, without_creator
from statements import Leaves, World
from switches import SwitchMethod


class FormMethod(SwitchMethod):
    """A method with Fors, what prints, and Switches."""

    # The methods of a source may differ in whether they have Switches.
    has_switches = True

    def __init__(self, written, world, names):
        self.otherwise = False  # (whether ACPICA's compiler has other bytes for it by right)
        super().__init__(written, world, names)

    def switch(self, depth, loops, inside):
        self.otherwise = True
        return super().switch(depth, loops, inside)

    def statements(self, depth, loops, inside):
        nested = self.nested
        if not self.has_switches:
            self.nested = 99
        answer = super().statements(depth, loops, inside)
        self.nested = nested
        return answer

    def loop(self, depth, loops):
        return self.for_loop(depth, loops) if random.random() < 0.7 else super().loop(depth, loops)

    def for_loop(self, depth, loops):
        slot, turns = self.kept - 1 + loops, random.choice([0, 1, 3])
        counter = f"Local{slot}"
        body, inner = self.statements(depth - 1, loops - 1, ["Break", "Continue"])
        self.otherwise = self.otherwise or "Continue" in repr(body)
        has_start, has_test, has_step = (random.random() < 0.8 for _ in range(3))
        start = random.choice([f"{counter} = 0", f"Store (0, {counter})", f"{counter} ^= {counter}"])
        step = random.choice([f"{counter}++", f"{counter} += 1", f"Increment ({counter})", f"Add ({counter}, 1, {counter})"])
        before = [] if has_start else [f"{counter} = 0"]
        if start.endswith(f"^= {counter}"):
            before.append(f"{counter} = 7")
            before = before if has_start else [f"{counter} = 7", f"{counter} = 0"]
        first = [] if has_test else [(f"If ({counter} >= {turns})", ["Break"])]
        first += [] if has_step else [step]
        parts = [start if has_start else "", f"{counter} < {turns}" if has_test else "", step if has_step else ""]
        lines = before + [(f"For ({parts[0]}, {parts[1]}, {parts[2]})", first + body)]

        def run(f):
            f.locals[slot] = 0
            while f.locals[slot] < turns:
                f.locals[slot] += 0 if has_step else 1
                try:
                    inner(f)
                except Leaves as leaves:
                    if leaves.how == "Return":
                        raise
                    if leaves.how == "Break":
                        break
                f.locals[slot] += 1 if has_step else 0

        return lines, run

    def assignment(self):
        return self.print() if random.random() < 0.3 else super().assignment()

    def print(self):
        written, parts, args = "p", [lambda f: "p"], []  # (the interpreter prints nothing of an empty String)
        for _ in range(random.choice([0, 1, 2, 5])):
            kind = random.random()
            if kind < 0.5:
                text, value = self.expression(random.choice([0, 1]))
                args.append(text)
                written += "%o"
                parts.append(lambda f, value=value: f"{value(f):016X}")
            elif kind < 0.6:
                args.append('"in"')
                written += "%o"
                parts.append(lambda f: "in")
            elif kind < 0.7:
                self.otherwise = True
                written += "%%"
                parts.append(lambda f: "%")
            else:
                text = random.choice(["a", " and ", "o", "x="])
                written += text
                parts.append(lambda f, text=text: text)
        arguments = "".join(f", {arg}" for arg in args)
        joined = lambda f: "".join([part(f) for part in parts])
        if random.random() < 0.3:

            def put(f):
                self.world.text = joined(f)

            return f'Fprintf (TXTX, "{written}"{arguments})', put
        place = random.choice(["Printf (", "Printf (", "Fprintf (Debug, "])
        self.otherwise = self.otherwise or "Debug" in place  # (it is no place there)
        return f'{place}"{written}"{arguments})', lambda f: self.world.printed.append(joined(f))


def source():
    """A source, the calls with what they are to print and to give, and whether ACPICA's compiler has its bytes."""
    used, terms, names, world = {"PKGX", "BUFX", "STOR", "TXTX"}, [], [], World()
    world.package = [random.choice(EDGES) for _ in range(3)]
    world.buffer = [random.randrange(256) for _ in range(4)]
    world.text = "none"
    terms.append(f"    Name (PKGX, Package () {{{', '.join(map(str, world.package))}}})\n")
    terms.append(f"    Name (BUFX, Buffer () {{{', '.join(map(str, world.buffer))}}})\n")
    terms.append('    Name (TXTX, "none")\n    Method (STOR, 2) { Arg0 = Arg1 }\n')
    for _ in range(2):
        written, seg = segment(used)
        value, text = number()
        names.append((written, seg))
        world.integers[seg] = value
        terms.append(f"    Name ({written}, {text})\n")
    FormMethod.has_switches = random.random() < 0.6
    methods, calls = [], []
    for _ in range(random.choice([1, 2, 3])):
        written, seg = segment(used)
        method = FormMethod(written, world, names)
        methods.append((seg, method))
        terms.append(method.text)
    for seg, method in methods:
        for _ in range(3):
            args = [random.choice(EDGES) for _ in range(method.arity)]
            world.printed = []
            answer = method.call(args)
            calls.append(((seg, args), (world.printed, answer)))
    calls.append((("TXTX", []), ([], world.text)))
    for _, seg in names:
        calls.append(((seg, []), ([], world.integers[seg])))
    head = 'DefinitionBlock ("", "SSDT", 2, "OEMX00", "TABLE001", 1)'
    return head + "\n{\n" + "".join(terms) + "}\n", calls, any(method.otherwise for _, method in methods)


def main():
    iasl, count, seed = str(Path(sys.argv[1]).resolve()), int(sys.argv[2]), int(sys.argv[3])
    random.seed(seed)
    both = 0
    with tempfile.TemporaryDirectory() as name:
        folder = Path(name)
        for run in range(count):
            text, calls, otherwise = source()
            ours = compiled(folder / "ours", [iasl] + PLAIN, text)
            told = [(printed(one), given(one)) for one in evaluations(folder / "ours", [call for call, _ in calls])]
            if told != [wanted for _, wanted in calls]:
                sys.exit(f"source {run}: {told} for {calls}:\n{text}")
            theirs = b"" if otherwise else compiled(folder / "theirs", THEIRS, text)
            if theirs:  # (ACPICA's compiler ends by a signal on some sources, and leaves an empty file)
                both += 1
                if without_creator(ours) != without_creator(theirs):
                    sys.exit(f"source {run}: other bytes:\n{text}")
    print(f"{count} sources: the interpreter gives and prints what the statements say, and {both} have the bytes of ACPICA's compiler")


if __name__ == "__main__":
    main()
