#!/usr/bin/env python3
"""Compares iasl with ACPICA's compiler on random sources with scopes: Devices, Scopes, paths, aliases, calls, control
flow.

    compare/names.py IASL COUNT SEED

No segment is declared twice, so that no name is searched at two places. Half of the tables have Integers of 32 bits,
and literals of no more (integers.py has larger ones). With names as they are written the bytes must be those of
ACPICA's iasl, but for the creator's two fields and the checksum, which is checked by itself. With names shortened,
which ACPICA's iasl of 2020 does not do to these, no table may be longer. It needs acpica-tools, and is no part of
the tests.
"""

import random
import sys
import tempfile
from pathlib import Path

from acpica import PLAIN, THEIRS, compiled, number, segment, without_creator


class Block:
    """A block's terms, made from the outside in; what is declared is used by the methods that come last."""

    def __init__(self, bits):
        self.bits = bits
        self.used = set()
        self.data = []
        self.methods = []
        self.bodies = []

    def new(self):
        return segment(self.used)

    def terms(self, scope, depth):
        """Terms in a scope, which is the list of its segments."""
        lines = []
        for _ in range(random.choice([1, 2, 3])):
            written, seg = self.new()
            value, text = number(self.bits)
            lines.append(f"Name ({written}, {text})")
            self.data.append((scope + [seg], "integer"))
        for _ in range(random.choice([0, 1, 2])):
            written, seg = self.new()
            arity = random.choice([0, 0, 1, 2, 7])
            self.methods.append((scope + [seg], arity))
            lines.append((scope + [seg], written, arity))
        if random.random() < 0.3:
            written, seg = self.new()
            lines.append(random.choice([f"Mutex ({written}, {random.randrange(16)})", f"Event ({written})"]))
        for _ in range(random.choice([0, 1, 2]) if depth else 0):
            written, seg = self.new()
            kind = random.choice(["Device", "Device", "ThermalZone", "PowerResource", "Processor"])
            rest = {"PowerResource": ", 0, 3", "Processor": ", 1, 0x810, 6"}.get(kind, "")
            lines.append((f"{kind} ({written}{rest})", self.terms(scope + [seg], depth - 1)))
            if random.random() < 0.3:
                lines.append((f"Scope ({self.name(scope, scope + [seg])})", self.terms(scope + [seg], 0)))
        return lines

    @staticmethod
    def name(scope, path):
        """A path as it may be written in a scope."""
        forms = ["\\" + ".".join(path)]
        for up in range(len(scope) + 1):
            outer = scope[: len(scope) - up]
            if path[: len(outer)] == outer and len(path) > len(outer):
                rest = path[len(outer) :]
                if up or len(rest) > 1:
                    forms.append("^" * up + ".".join(rest))
                if len(rest) == 1:
                    forms += [rest[0]] * 3
        return random.choice(forms)

    def operand(self, scope, arity, depth):
        kind = random.random()
        if kind < 0.3 and self.data:
            return self.name(scope, random.choice(self.data)[0])
        if kind < 0.5 and depth:
            path, wanted = random.choice(self.methods)
            args = [self.operand(scope, arity, depth - 1) for _ in range(wanted)]
            return f"{self.name(scope, path)} ({', '.join(args)})"
        if kind < 0.7 and arity:
            return f"Arg{random.randrange(arity)}"
        if kind < 0.8:
            return random.choice(["Zero", "One", "Ones", '"text"', "Local0"])
        if kind < 0.9 and depth:
            op = random.choice(["Add", "Subtract", "Or", "ShiftLeft"])
            return f"{op} ({self.operand(scope, arity, depth - 1)}, {self.operand(scope, arity, depth - 1)})"
        return number(self.bits)[1]

    def statements(self, scope, arity, depth, loop):
        lines = []
        for _ in range(random.choice([1, 2, 3])):
            kind = random.random()
            value = self.operand(scope, arity, 2)
            if kind < 0.3:
                lines.append(f"Store ({value}, {random.choice(['Local0', 'Local7'])})")
            elif kind < 0.45:
                lines.append(f"Store ({value}, {self.name(scope, random.choice(self.data)[0])})")
            elif kind < 0.6 and depth:
                lines.append((f"If (LEqual ({value}, 1))", self.statements(scope, arity, depth - 1, loop)))
                if random.random() < 0.5:
                    lines.append(("Else", self.statements(scope, arity, depth - 1, loop)))
            elif kind < 0.7 and depth:
                lines.append((f"While (LLess (Local1, {value}))", ["Increment (Local1)"] + self.statements(scope, arity, depth - 1, True)))
            elif kind < 0.8 and loop:
                lines.append(random.choice(["Break", "Continue"]))
            elif kind < 0.9:
                lines.append(f"Store (Package () {{{', '.join(number(self.bits)[1] for _ in range(random.randrange(5)))}}}, Local2)")
            else:
                lines.append(f"Store (Buffer (4) {{{', '.join(str(random.randrange(256)) for _ in range(random.randrange(5)))}}}, Local3)")
        return lines

    def text(self, lines, level):
        out = ""
        for line in lines:
            if isinstance(line, str):
                out += "    " * level + line + "\n"
            elif len(line) == 3:
                path, written, arity = line
                body = self.statements(path, arity, 2, False) + [f"Return ({self.operand(path, arity, 1)})"]
                flags = random.choice(["", ", NotSerialized", ", Serialized", ", Serialized, 3"])
                out += "    " * level + f"Method ({written}, {arity}{flags})\n" + self.braces(body, level)
            else:
                out += "    " * level + line[0] + "\n" + self.braces(line[1], level)
        return out

    def braces(self, lines, level):
        return "    " * level + "{\n" + self.text(lines, level + 1) + "    " * level + "}\n"


def main():
    iasl, count, seed = str(Path(sys.argv[1]).resolve()), int(sys.argv[2]), int(sys.argv[3])
    random.seed(seed)
    crashed, saved, size = 0, 0, 0
    with tempfile.TemporaryDirectory() as name:
        folder = Path(name)
        for run in range(count):
            revision = 1 + run % 2
            block = Block(32 * revision)
            lines = block.terms([], 3)
            if not block.methods:
                continue
            text = f'DefinitionBlock ("", "SSDT", {revision}, "OEMX00", "TABLE001", 1)\n' + block.braces(lines, 0)
            theirs = compiled(folder / "theirs", THEIRS, text)
            ours = compiled(folder / "ours", [iasl] + PLAIN, text)
            if not theirs:
                crashed += 1  # (ACPICA's compiler ends by a signal on some sources, and leaves an empty file)
                continue
            if without_creator(ours) != without_creator(theirs):
                print(text)
                raise SystemExit(f"source {run}: other bytes")
            short = compiled(folder / "ours", [iasl, "-of"], text)
            if len(short) > len(ours):
                print(text)
                raise SystemExit(f"source {run}: {len(short)} bytes with names shortened, and {len(ours)} as they are written")
            size += len(ours)
            saved += len(ours) - len(short)
    print(f"{count} sources: the same bytes, {crashed} on which ACPICA's compiler crashed aside")
    print(f"with names shortened {saved} of {size} bytes fewer")


if __name__ == "__main__":
    main()
