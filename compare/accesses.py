#!/usr/bin/env python3
"""Compares the accesses to regions that docs/DEFINITIONS.md states with those that ACPICA's interpreter makes of iasl's tables.

    compare/accesses.py IASL COUNT SEED

Random regions of memory hold fields, index fields and bank fields, with every access and update rule; a method
writes and reads their units. acpiexec shows each access that its region handler gets, in memory alone: other spaces only by
number. Units of more than 64 bits and accesses past a region's end are left out. It needs acpica-tools, and is no part of the tests.
"""

import random
import re
import subprocess
import sys
import tempfile
from pathlib import Path

from acpica import compiled

WIDTHS = {"AnyAcc": 1, "ByteAcc": 1, "WordAcc": 2, "DWordAcc": 4, "QWordAcc": 8}
UPDATES = ["Preserve", "WriteAsOnes", "WriteAsZeros"]
FILL = 0x5A
# The handler shows the low 32 bits of a value, of which those past the access do not count.
SHOWN = 0xFFFFFFFF
LENGTH = 64


class Region:
    """A region whose bytes are remembered, and the accesses to all regions."""

    def __init__(self, start, log):
        self.start, self.log = start, log
        self.bytes = [FILL] * LENGTH

    def read(self, at, width):
        value = int.from_bytes(bytes(self.bytes[at : at + width]), "little")
        self.log.append(("Read", self.start + at, width, value & SHOWN))
        return value

    def write(self, at, width, value):
        self.bytes[at : at + width] = list(value.to_bytes(width, "little"))
        self.log.append(("Write", self.start + at, width, value & SHOWN))


class Unit:
    """So many bits at a place, with the width of an access and the rule for the other bits of one."""

    def __init__(self, through, at, bits, width, update):
        self.through, self.at, self.bits, self.width, self.update = through, at, bits, width, update

    def covered(self):
        """The accesses from low to high: the number of each, and which of the unit's bits it has, at which of its own."""
        size = 8 * self.width
        for number in range(self.at // size, (self.at + self.bits - 1) // size + 1):
            low, high = max(self.at, number * size), min(self.at + self.bits, (number + 1) * size)
            yield number * self.width, low - self.at, low - number * size, high - low

    def read(self):
        value = 0
        for place, mine, its, count in self.covered():
            value |= (self.through.read(place, self.width) >> its & (1 << count) - 1) << mine
        return value

    def write(self, value):
        for place, mine, its, count in self.covered():
            mask = (1 << count) - 1
            part = (value >> mine & mask) << its
            if count < 8 * self.width:
                whole = (1 << 8 * self.width) - 1
                old = {"WriteAsOnes": whole, "WriteAsZeros": 0}.get(self.update)
                if old is None:
                    old = self.through.read(place, self.width)
                part |= old & ~(mask << its) & whole
            self.through.write(place, self.width, part)


class Indexed:
    """Each access writes its place to the index register, and is made at the data register."""

    def __init__(self, index, data):
        self.index, self.data = index, data

    def read(self, at, width):
        self.index.write(at)
        return self.data.read()

    def write(self, at, width, value):
        self.index.write(at)
        self.data.write(value)


class Banked:
    """Each access writes the bank's value to its register first."""

    def __init__(self, region, bank, value):
        self.region, self.bank, self.value = region, bank, value

    def read(self, at, width):
        self.bank.write(self.value)
        return self.region.read(at, width)

    def write(self, at, width, value):
        self.bank.write(self.value)
        self.region.write(at, width, value)


class Source:
    def __init__(self):
        self.log, self.units, self.terms = [], [], []

    def name(self, letter):
        return f"{letter}{len(self.units):03}"

    def items(self, through, access, update):
        """The list of a field within its region, and its units."""
        at, items = 0, []
        for _ in range(random.randrange(1, 6)):
            bits = random.choice([1, 2, 7, 8, 9, 12, 16, 20, 31, 32, 33, 63, 64])
            if at + bits > 8 * LENGTH - 64:
                break
            if random.random() < 0.7:
                name = self.name("U")
                self.units.append((name, Unit(through, at, bits, WIDTHS[access], update)))
                items.append(f"{name}, {bits}")
            else:
                items.append(f", {bits}")
            at += bits
        return "{ " + ", ".join(items) + " }"

    def register(self, region, written, at, access):
        """A unit of one access, alone in a field of its own."""
        name = self.name("R")
        unit = Unit(region, 8 * at, 8 * WIDTHS[access], WIDTHS[access], "Preserve")
        self.units.append((name, unit))
        self.terms.append(f"Field ({written}, {access}, NoLock, Preserve) {{ Offset ({at}), {name}, {8 * WIDTHS[access]} }}")
        return name, unit

    def region(self, number):
        start = 0x10000 + 0x100 * number
        region, written = Region(start, self.log), f"REG{number}"
        self.terms.append(f"OperationRegion ({written}, SystemMemory, 0x{start:X}, {LENGTH})")
        access, update = random.choice(sorted(WIDTHS)), random.choice(UPDATES)
        kind = random.random()
        if kind < 0.5:
            self.terms.append(f"Field ({written}, {access}, NoLock, {update}) {self.items(region, access, update)}")
        elif kind < 0.75:
            index, index_unit = self.register(region, written, 8, "ByteAcc")
            data, data_unit = self.register(region, written, 16, access)
            items = self.items(Indexed(index_unit, data_unit), access, update)
            self.terms.append(f"IndexField ({index}, {data}, {access}, NoLock, {update}) {items}")
        else:
            bank, bank_unit = self.register(region, written, LENGTH - 8, "ByteAcc")
            value = random.randrange(256)
            items = self.items(Banked(region, bank_unit, value), access, update)
            self.terms.append(f"BankField ({written}, {bank}, {value}, {access}, NoLock, {update}) {items}")

    def text(self):
        """The whole source, and the values that its method gives."""
        for number in range(random.choice([1, 2, 3])):
            self.region(number)
        body, results = [], []
        for _ in range(8 if self.units else 0):
            name, unit = random.choice(self.units)
            if random.random() < 0.5:
                value = random.getrandbits(random.choice([unit.bits, 64]))
                body.append(f"{name} = 0x{value:X}")
                unit.write(value)
            else:
                body.append(f"Local0 ^= {name}")
                results.append(unit.read())
        total = 0
        for value in results:
            total ^= value
        method = "Method (MAIN) { Local0 = 0 " + " ".join(body) + " Return (Local0) }"
        return 'DefinitionBlock ("", "SSDT", 2, "OEMX00", "TABLE001", 1)\n{\n' + "\n".join(self.terms + [method]) + "\n}\n", total


def shown(output):
    """The accesses that the region handler showed, and what the method gave."""
    part = output.split("Evaluating ")[-1]
    rows = re.findall(r"AcpiExec: SystemMemory\s+(Read|Write)\s*: Val ([0-9A-F]+) Addr ([0-9A-F]+) BitWidth ([0-9A-F]+)", part)
    result = re.search(r"\[Integer\] = ([0-9A-F]+)", part)
    accesses = [(kind, int(at, 16), int(bits, 16) // 8, int(value, 16) & (1 << int(bits, 16)) - 1) for kind, value, at, bits in rows]
    return accesses, int(result[1], 16) if result else None


def main():
    iasl, count, seed = str(Path(sys.argv[1]).resolve()), int(sys.argv[2]), int(sys.argv[3])
    random.seed(seed)
    accesses = 0
    with tempfile.TemporaryDirectory() as name:
        folder = Path(name)
        for run in range(count):
            source = Source()
            text, total = source.text()
            compiled(folder, [iasl], text)
            command = ["acpiexec", "-vr", "-fv", hex(FILL), "-b", "evaluate \\MAIN", "t.aml"]
            output = subprocess.run(command, cwd=folder, capture_output=True, text=True, check=False).stdout
            if shown(output) != (source.log, total):
                sys.exit(f"source {run}: {shown(output)} in place of {(source.log, total)}:\n{text}")
            accesses += len(source.log)
    print(f"{count} sources: the same {accesses} accesses and values")


main()
