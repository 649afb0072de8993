#!/usr/bin/env python3
"""Compares iasl with ACPICA's compiler on random literals in tables of 32-bit and of 64-bit Integers.

    compare/integers.py IASL COUNT SEED

Literals of up to 64 bits stand as values of Names, in Packages, as operands and as what is returned; a table of revision 1 cuts them to 32
bits. Each source is compiled with integers in their shortest form, and with -oi. The bytes must be those of ACPICA's iasl, but for the
creator's two fields and the checksum, which is checked by itself. ACPICA's -f is not given, since with it literals are not cut. It needs
acpica-tools, and is no part of the tests.
"""

import random
import sys
import tempfile
from pathlib import Path

from acpica import PLAIN, compiled, number, segment, without_creator


def source(revision):
    """A source of some Names and a method."""
    used = set()
    lines = []
    for _ in range(random.randrange(1, 6)):
        lines.append(f"Name ({segment(used)[0]}, {number()[1]})")
    members = ", ".join(number()[1] for _ in range(random.randrange(1, 6)))
    lines.append(f"Name ({segment(used)[0]}, Package () {{{members}}})")
    operator = random.choice(["Add", "Subtract", "Or", "And", "Xor", "Multiply"])
    lines.append(f"Method ({segment(used)[0]}, 1) {{ Store ({number()[1]}, Arg0) Return ({operator} (Arg0, {number()[1]})) }}")
    terms = "\n".join("    " + line for line in lines)
    return f'DefinitionBlock ("", "SSDT", {revision}, "OEMX00", "TABLE001", 1)\n{{\n{terms}\n}}\n'


def main():
    iasl, count, seed = str(Path(sys.argv[1]).resolve()), int(sys.argv[2]), int(sys.argv[3])
    random.seed(seed)
    with tempfile.TemporaryDirectory() as name:
        folder = Path(name)
        for run in range(count):
            text = source(1 + run % 2)
            for more in ([], ["-oi"]):
                theirs = compiled(folder / "theirs", ["iasl", "-vs"] + PLAIN + more, text)
                ours = compiled(folder / "ours", [iasl] + PLAIN + more, text)
                if without_creator(ours) != without_creator(theirs):
                    print(text)
                    raise SystemExit(f"source {run}: other bytes with {more}")
    print(f"{count} sources: the same bytes")


if __name__ == "__main__":
    main()
