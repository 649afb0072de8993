#!/usr/bin/env python3
"""Loads tables with Externals, which iasl wrote with --wrap-externals, in ACPICA's interpreter: beside a table that has
the objects, and beside one that has not.

    compare/externals.py IASL COUNT SEED

A source has runs of Externals at the head of its block, in Devices, in methods between statements and before an If:
Integers and methods of a stated or of an unknown type. Both loads must end without an error of the interpreter. The
calls must then give what the statements say: a method asks by CondRefOf whether an object is there, and gives
another value where it is not. It needs acpica-tools, and is no part of the tests.
"""

import random
import re
import subprocess
import sys
import tempfile
from pathlib import Path

from acpica import THEIRS, compiled, segment


def block(signature, lines):
    return f'DefinitionBlock ("", "{signature}", 2, "OEMX00", "TABLE001", 1)\n{{\n' + "\n".join(lines) + "\n}\n"


class Object:
    """An object of the other table: an Integer, or a method that adds a number to the sum of its arguments."""

    def __init__(self, used):
        self.name = segment(used)[1]
        self.device = random.choice([None, None, "DEVA", "DEVB"])
        self.path = "\\" + (self.device + "." if self.device else "") + self.name
        self.arity = random.choice([None, None, 0, 1, 2, 3])
        self.value = random.randrange(2**32)
        # a method of unknown type that is called without arguments would be read as an Integer
        self.is_known = self.arity == 0 or random.random() < 0.6

    def declaration(self):
        if self.arity is None:
            return f"Name ({self.name}, {self.value})"
        terms = " + ".join([str(self.value)] + [f"Arg{i}" for i in range(self.arity)])
        return f"Method ({self.name}, {self.arity}) {{ Return ({terms}) }}"

    def external(self):
        if self.arity is None:
            return f"External ({self.path}" + (", IntObj)" if self.is_known else ")")
        if self.is_known:
            kinds = ", ".join(["IntObj"] * self.arity)
            return f"External ({self.path}, MethodObj, IntObj, {{{kinds}}})"
        return f"External ({self.path})"

    def use(self):
        """An expression of the object, and its value where it is there."""
        if self.arity is None:
            return self.path, self.value
        args = [random.randrange(256) for _ in range(self.arity)]
        return f"{self.path} ({', '.join(str(a) for a in args)})", self.value + sum(args)


class Source:
    def __init__(self):
        self.used = {"DEVA", "DEVB"}
        self.objects = [Object(self.used) for _ in range(random.choice([1, 2, 3, 5, 8]))]
        self.calls = []

    def there(self):
        """The table that has the objects."""
        lines = [o.declaration() for o in self.objects if not o.device]
        for device in ("DEVA", "DEVB"):
            lines.append(f"Device ({device}) {{ " + " ".join(o.declaration() for o in self.objects if o.device == device) + " }")
        return block("DSDT", lines)

    @staticmethod
    def absent():
        return block("DSDT", ["Name (NONE, 0)"])

    def method(self, scope, externals):
        """A method, with Externals between its statements, that uses an object where it is there."""
        name = segment(self.used)[1]
        other, own = random.choice(self.objects), random.randrange(2**32)
        use, value = other.use()
        lines = [f"Method ({name}, 0) {{", f"Local0 = {own}"] + externals
        if random.random() < 0.5:
            lines.append("Local1 = 1")
        lines += [f"If (CondRefOf ({other.path})) {{ Return ({use}) }}", "Else { Return (Local0) }", "}"]
        self.calls.append((scope + name, value, own))
        return lines

    def plain(self):
        """A method that uses no object."""
        name, value = segment(self.used)[1], random.randrange(2**32)
        self.calls.append((name, value, value))
        return [f"Method ({name}, 0) {{ Return ({value}) }}"]

    def text(self):
        externals = [o.external() for o in self.objects]
        random.shuffle(externals)
        places = [[], [], []]
        for one in externals:
            random.choice(places).append(one)
        lines = list(places[0])
        lines += self.plain()
        device = segment(self.used)[1]
        lines += [f"Device ({device}) {{"] + places[1] + self.method(device + ".", []) + ["}"]
        lines += self.method("", places[2])
        for _ in range(random.choice([0, 1, 2])):
            lines += self.method("", [])
        return block("SSDT", lines)


def loaded(folder, table, other, calls):
    """What the interpreter gives for calls where a table is loaded behind another, and what it complains of."""
    (folder / "other.aml").write_bytes(other)
    (folder / "t.aml").write_bytes(table)
    commands = ";".join(f"evaluate \\{name}" for name, _, _ in calls)
    run = subprocess.run(["acpiexec", "-b", commands, "other.aml", "t.aml"], cwd=folder, capture_output=True, text=True, check=False)
    text = run.stdout + run.stderr
    complaints = re.findall(r".*(?:AE_[A-Z]{2}[A-Z_]*|Error:|Exception:).*", text)
    answers = []
    for part in text.split("Evaluating ")[1:]:
        integer = re.search(r"\[Integer\] = ([0-9A-F]+)", part)
        answers.append(int(integer[1], 16) if integer else None)
    return answers, complaints


def main():
    program, count, seed = sys.argv[1], int(sys.argv[2]), int(sys.argv[3])
    random.seed(seed)
    words = [str(Path(program).resolve()) if "/" in program else program, "--wrap-externals"]
    with tempfile.TemporaryDirectory() as top:
        folder = Path(top)
        calls = 0
        for number in range(count):
            source = Source()
            text = source.text()
            table = compiled(folder / "ours", words, text)
            for other, there in ((source.there(), True), (source.absent(), False)):
                beside = compiled(folder / "theirs", THEIRS, other)
                answers, complaints = loaded(folder, table, beside, source.calls)
                wanted = [value if there else own for _, value, own in source.calls]
                if answers != wanted or complaints:
                    where = "beside the objects" if there else "alone"
                    told = f"source {number}, {where}:\n{text}\n{other}\nwanted {wanted}\ngiven  {answers}\n"
                    raise SystemExit(told + "\n".join(complaints))
                calls += len(answers)
        print(f"{count} sources, each loaded twice; {calls} calls")


main()
