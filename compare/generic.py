#!/usr/bin/env python3
"""Compares iasl with ACPICA's compiler on random texts of generic data tables.

    compare/generic.py IASL COUNT SEED

Each text has the nine lines of a header and up to 40 data lines of all types in random order: numbers in the forms
that both read, offsets of Labels above and below, differences of them, texts, bytes and UUIDs, with remarks and
comments. The bytes that `-G` makes must be those of ACPICA's iasl, but for the creator's two fields and the
checksum, which is checked by itself. It needs acpica-tools, and is no part of the tests.

What differs by right, so that no text has it: ACPICA compares the names of types and of Labels with case, takes a
difference that wraps at fewer than 8 bytes for an error, and wants two digits for each byte of a Buffer and names of
letters and digits alone. It reads numbers in decimal behind `0d`, and expressions.
"""

import random
import sys
import tempfile
from pathlib import Path

from acpica import LETTERS, compiled, without_creator

WIDTHS = [1, 2, 3, 4, 5, 6, 7, 8]
TEXT = LETTERS + LETTERS.lower() + "0123456789 .,;:_-+*/()<>[]{}!?#$%&'="
KINDS = ["number"] * 6 + ["offset"] * 3 + ["difference"] * 2 + ["String", "Unicode", "Buffer", "GUID"]


def number(width):
    """A number of so many bytes, as it may be written."""
    value = random.choice([0, 1, 2 ** (8 * width) - 1, random.getrandbits(8 * width), random.getrandbits(8)])
    digits = f"{value:x}"
    if random.random() < 0.5:
        digits = digits.upper()
    if random.random() < 0.5:
        digits = digits.rjust(2 * width, "0")
    return random.choice(["", "", "0x"]) + digits


def quoted():
    return '"' + "".join(random.choices(TEXT, k=random.randrange(1, 20))) + '"'


def pairs():
    return " ".join(f"{random.getrandbits(8):02X}" for _ in range(random.randrange(1, 20)))


def uuid():
    digits = f"{random.getrandbits(128):032x}"
    return "-".join([digits[:8], digits[8:12], digits[12:16], digits[16:20], digits[20:]])


def line(kind, place, labels):
    """A data line, where these Labels have these places among the lines."""
    if kind == "number":
        width = random.choice(WIDTHS)
        return f"UINT{8 * width} : {number(width)}"
    if kind == "offset":
        return f"UINT{8 * random.choice(WIDTHS[1:])} : ${random.choice(sorted(labels))}"
    if kind == "difference":
        one, other = random.choices(sorted(labels), k=2)
        width = random.choice(WIDTHS[1:]) if labels[one] >= labels[other] else 8
        return f"UINT{8 * width} : ${one} - ${other}"
    if kind in ("String", "Unicode"):
        return f"{kind} : {quoted()}"
    if kind == "Buffer":
        return f"Buffer : {pairs()}"
    if kind == "GUID":
        return f"GUID : {uuid()}"
    return f"Label : {kind}"


def dressed(text):
    """A line with what says nothing around it."""
    before = random.choice(["", "", "  ", "[0004] "])
    behind = random.choice(["", "", "  ", "  [a remark]", "  // a comment", "  /* a comment */"])
    return before + text + behind + random.choice(["", "", "", "\n", "\n// a comment"])


def source():
    header = [
        f'Signature : "{"".join(random.choices(LETTERS, k=3))}1"',
        "Table Length : 00000000",
        f"Revision : {random.getrandbits(8):02X}",
        "Checksum : 00",
        'Oem ID : "OEMX00"',
        'Oem Table ID : "TABLE001"',
        f"Oem Revision : {random.getrandbits(32):08X}",
        'Asl Compiler ID : "INTL"',
        "Asl Compiler Revision : 00000000",
    ]
    kinds = random.choices(KINDS, k=random.randrange(1, 35))
    names = [f"{random.choice(LETTERS)}{random.choice(LETTERS.lower())}{i}" for i in range(random.randrange(1, 6))]
    for name in names:
        kinds.insert(random.randrange(len(kinds) + 1), name)
    labels = {kind: place for place, kind in enumerate(kinds) if kind in names}
    lines = header + [line(kind, place, labels) for place, kind in enumerate(kinds)]
    return "\n".join(dressed(text) for text in lines) + "\n"


def main():
    iasl, count, seed = str(Path(sys.argv[1]).resolve()), int(sys.argv[2]), int(sys.argv[3])
    random.seed(seed)
    with tempfile.TemporaryDirectory() as name:
        folder = Path(name)
        for run in range(count):
            text = source()
            ours, theirs = compiled(folder, [iasl, "-G"], text), compiled(folder, ["iasl", "-G"], text)
            if without_creator(ours) != without_creator(theirs):
                sys.exit(f"text {run}: other bytes:\n{text}")
    print(f"{count} texts: the same bytes")


main()
