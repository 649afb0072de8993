#!/usr/bin/env python3
"""Compares iasl with ACPICA's compiler on random sources with operation regions, fields of all kinds, and buffer fields.

    compare/fields.py IASL COUNT SEED

The bytes must be those of ACPICA's iasl, but for the creator's two fields and the checksum, which is checked by itself. No unit and
no gap has 63 bits, whose count ACPICA's compiler writes in two bytes.
It needs acpica-tools, and is no part of the tests.
"""

import random
import sys
import tempfile
from pathlib import Path

from acpica import PLAIN, THEIRS, compiled, segment, without_creator

SPACES = ["SystemMemory", "SystemIO", "EmbeddedControl", "SystemCMOS", "PCI_Config", "0x80", "0xFE"]
ACCESSES = ["AnyAcc", "ByteAcc", "WordAcc", "DWordAcc", "QWordAcc"]
UPDATES = ["Preserve", "WriteAsOnes", "WriteAsZeros"]
CREATES = ["CreateBitField", "CreateByteField", "CreateWordField", "CreateDWordField", "CreateQWordField"]


class Source:
    """The terms of a block; each name is declared before it is used."""

    def __init__(self):
        self.used = set()
        self.units = []
        self.lines = []

    def flags(self):
        return f"{random.choice(ACCESSES)}, {random.choice(['Lock', 'NoLock'])}, {random.choice(UPDATES)}"

    def items(self, most):
        """The list of a field of at most so many bits, with no access beyond them."""
        at, items = 0, []
        for _ in range(random.randrange(1, 7)):
            bits = random.choice([1, 2, 7, 8, 9, 16, 31, 32, 62, 64, 65, 200])
            kind = random.random()
            if kind < 0.6 and at + bits <= most:
                written, seg = segment(self.used)
                items.append(f"{written}, {bits}")
                self.units.append(seg)
            elif kind < 0.8 and at + bits <= most:
                items.append(f", {bits}")
            else:
                to = (at + 7) // 8 + random.randrange(4)
                bits = 8 * to - at
                if at + bits > most or bits == 63:
                    continue
                items.append(f"Offset (0x{to:X})")
            at += bits
        return "{ " + ", ".join(items) + random.choice(["", ","] if items else [""]) + " }"

    def region(self):
        written, _ = segment(self.used)
        space, offset = random.choice(SPACES), random.choice([0, 0x10, 0x100])
        self.lines.append(f"OperationRegion ({written}, {space}, 0x{offset:X}, 0x200)")
        for _ in range(random.randrange(1, 3)):
            self.lines.append(f"Field ({written}, {self.flags()}) {self.items(0x400)}")
        if self.units and random.random() < 0.5:
            bank = random.choice(self.units)
            self.lines.append(f"BankField ({written}, {bank}, {random.randrange(300)}, {self.flags()}) {self.items(0x400)}")
        if len(self.units) > 1 and random.random() < 0.5:
            index, data = random.sample(self.units, 2)
            self.lines.append(f"IndexField ({index}, {data}, {self.flags()}) {self.items(0x400)}")

    def method(self):
        written, _ = segment(self.used)
        body = ["Store (Buffer (64) {1, 2, 3}, Local0)"]
        for _ in range(random.randrange(1, 5)):
            field, _ = segment(self.used)
            place = random.randrange(32)
            if random.random() < 0.3:
                body.append(f"CreateField (Local0, {place}, {random.randrange(1, 100)}, {field})")
            else:
                body.append(f"{random.choice(CREATES)} (Local0, {place}, {field})")
            body.append(f"Store ({random.randrange(1 << 16)}, {field})")
        for unit in random.sample(self.units, min(3, len(self.units))):
            body.append(random.choice([f"Store ({unit}, Local1)", f"Store (Local1, {unit})", f"Add ({unit}, 1, {unit})"]))
        self.lines.append(f"Method ({written}, 0, Serialized) {{ " + " ".join(body) + " }")

    def text(self):
        for _ in range(random.randrange(1, 4)):
            self.region()
            self.method()
        return 'DefinitionBlock ("", "SSDT", 2, "OEMX00", "TABLE001", 1)\n{\n' + "\n".join("    " + line for line in self.lines) + "\n}\n"


def main():
    iasl, count, seed = str(Path(sys.argv[1]).resolve()), int(sys.argv[2]), int(sys.argv[3])
    random.seed(seed)
    refused = 0
    with tempfile.TemporaryDirectory() as name:
        folder = Path(name)
        for run in range(count):
            text = Source().text()
            theirs = compiled(folder / "theirs", THEIRS, text)
            if not theirs:
                refused += 1  # (an access that ACPICA's compiler finds beyond the region)
                continue
            ours = compiled(folder / "ours", [iasl] + PLAIN, text)
            if not ours or without_creator(ours) != without_creator(theirs):
                print(text)
                raise SystemExit(f"source {run}: other bytes")
    print(f"{count} sources: the same bytes, {refused} that ACPICA's compiler refused aside")


if __name__ == "__main__":
    main()
