#!/usr/bin/env python3
"""Compares what docs/DEFINITIONS.md says of conversions of data, and of the operators that make them, with ACPICA's interpreter.

    compare/conversions.py IASL

Each row is a method's statements, the expression that it returns, and what the definitions give: an Integer, a String, a
Buffer's bytes, or a fault. Where ACPICA's interpreter gives something else, that stands beside it; docs/DECISIONS.md says
why. It needs acpica-tools, and is no part of the tests.
"""

import re
import subprocess
import sys
import tempfile
from pathlib import Path

from acpica import compiled

ONES = 2**64 - 1
# The interpreter's words for the faults.
EMPTY, LIMIT, ELEMENT, DIGIT = "AE_AML_BUFFER_LIMIT", "AE_AML_PACKAGE_LIMIT", "AE_AML_UNINITIALIZED_ELEMENT", "AE_AML_NUMERIC_OVERFLOW"

SAME = [
    ("", "ToHexString (Buffer () {1, 0xAB})", "0x01,0xAB"),
    ("", "ToDecimalString (Buffer () {1, 20})", "1,20"),
    ("", "ToDecimalString (255)", "255"),
    ("", 'ToInteger ("xyz")', 0),
    ("", 'ToInteger ("0x")', 0),
    ("", 'ToInteger ("12ab")', 12),
    ("", 'ToInteger ("0x12zz")', 0x12),
    ("", "ToInteger (Buffer () {})", EMPTY),
    ("", "ToInteger (Buffer (9) {1,2,3,4,5,6,7,8,9})", 0x0807060504030201),
    ("", '"" + 1', 1),
    ("", '"xyz" + 1', 1),
    ("", '"12345678901234567" + 0', 0x1234567890123456),
    ("", "Buffer () {} + 1", EMPTY),
    ("", "ToString (Buffer () {0x41, 0x42, 0x43}, 2)", "AB"),
    ("", "ToString (Buffer () {0x41, 0x42, 0x43}, Ones)", "ABC"),
    ("", "Concatenate (1, 2)", bytes([1, 0, 0, 0, 0, 0, 0, 0, 2, 0, 0, 0, 0, 0, 0, 0])),
    ("", 'Concatenate (Buffer () {1}, "b")', bytes([1, 0x62, 0])),
    ("", "Concatenate (Buffer () {1}, 2)", bytes([1, 2, 0, 0, 0, 0, 0, 0, 0])),
    ("", 'Concatenate (1, "12")', bytes([1, 0, 0, 0, 0, 0, 0, 0, 0x12, 0, 0, 0, 0, 0, 0, 0])),
    ("", 'Concatenate ("", "")', ""),
    ("", "Mid (Buffer () {1, 2, 3}, 1, 5)", bytes([2, 3])),
    ("", 'Mid ("abc", 3, 1)', ""),
    ("", "ToBuffer (5)", bytes([5, 0, 0, 0, 0, 0, 0, 0])),
    ("", 'ToBuffer ("ab")', b"ab\0"),
    ("", '1 == "1"', ONES),
    ("", '"A" == 10', 0),
    ("", '"abc" < "abd"', ONES),
    ("", '"b" > Buffer () {0x61}', ONES),
    ("", "Buffer () {1, 2} == Buffer () {1, 2}", ONES),
    ('Local0 = "abc"', "SizeOf (Local0)", 3),
    ("Local0 = Package (3) {1}", "SizeOf (Local0)", 3),
    ("Local0 = Package (3) {1}", "DerefOf (Local0[2])", ELEMENT),
    ("Local0 = Package (3) {1}", "DerefOf (Local0[3])", LIMIT),
    ('Local0 = "abc"', "DerefOf (Local0[1])", 0x62),
    ('Local0 = "abc" Local0[1] = 0x158', "Local0", "aXc"),
    ("NSTR = 0x1234", "NSTR", "0000000000001234"),
    ('NINT = "12"', "NINT", 0x12),
    ("NINT = Buffer () {1, 2}", "NINT", 0x0201),
    ("NBUF = 0x11223344", "NBUF", bytes([0x44, 0x33, 0x22, 0x11])),
    ('NBUF = "ab"', "NBUF", b"ab\0\0"),
    ("NBUF = Buffer () {1,2,3,4,5,6}", "NBUF", bytes([1, 2, 3, 4])),
    ('CopyObject ("s", NINT)', "NINT", "s"),
    ("", "DerefOf (RefOf (NINT))", 5),
    ("", 'Match (Package () {1, "2", 3}, MEQ, 2, MTR, 0, 0)', 1),
    ("", "Match (Package () {1, 2, 3}, MGT, 9, MTR, 0, 0)", ONES),
    ("", "Match (Package () {1, 2, 3}, MTR, 0, MTR, 0, 2)", 2),
    ("", "FromBCD (0x1A)", DIGIT),
    ("Local1 = RefOf (NINT)", "ObjectType (Local1)", 1),
    ("", "CondRefOf (NINT)", ONES),
]

# By the definitions: "0x00000000000000FF", an empty value, too large a number, "a01 AB", no bytes, the wrong type,
# "01 AB", and 01 02 79 00.
OTHER = [
    ("", "ToHexString (255)", "00000000000000FF"),
    ("", 'ToInteger ("")', 0),
    ("", 'ToInteger ("99999999999999999999")', 9999999999999999999),
    ("", 'Concatenate ("a", Buffer () {1, 0xAB})', "a0x01 0xAB"),
    ("", 'ToBuffer ("")', b"\0"),
    ("Local0 = 5", "SizeOf (Local0)", 8),
    ("NSTR = Buffer () {1, 0xAB}", "NSTR", "0x01 0xAB"),
    ("", "ConcatenateResTemplate (Buffer () {1, 0x79, 0}, Buffer () {2, 0x79, 0})", "AE_AML_INVALID_RESOURCE_TYPE"),
]


def answer(output):
    """An Integer, a String, a Buffer's bytes, or the name of an exception."""
    number = re.search(r"\[Integer\] = ([0-9A-F]+)", output)
    string = re.search(r'\[String\] Length [0-9A-F]+ = "(.*)"', output)
    fault = re.search(r"failed with status (AE_\w+)", output)
    rows = re.search(r"\[Buffer\] Length ([0-9A-F]+) =(.*?)(\n\n|\Z)", output, re.S)
    if number:
        return int(number[1], 16)
    if string:
        return string[1]
    if fault:
        return fault[1]
    if rows:
        pairs = re.findall(r"\b[0-9A-F]{2}\b", re.sub(r"//.*|[0-9A-F]{4}:", "", rows[2]))
        return bytes(int(pair, 16) for pair in pairs[: int(rows[1], 16)])
    return None


def main():
    iasl = str(Path(sys.argv[1]).resolve())
    rows = SAME + OTHER
    terms = ['Name (NSTR, "x")', "Name (NINT, 5)", "Name (NBUF, Buffer (4) {})"]
    terms += [f"Method (C{place:03}) {{ {statements} Return ({returned}) }}" for place, (statements, returned, _) in enumerate(rows)]
    text = 'DefinitionBlock ("", "SSDT", 2, "OEMX00", "TABLE001", 1)\n{\n' + "\n".join(terms) + "\n}\n"
    with tempfile.TemporaryDirectory() as name:
        folder = Path(name)
        compiled(folder, [iasl], text)
        for place, (statements, returned, wanted) in enumerate(rows):
            command = ["acpiexec", "-b", f"evaluate \\C{place:03}", "t.aml"]
            run = subprocess.run(command, cwd=folder, capture_output=True, text=True, check=False)
            given = answer(run.stdout.split("Evaluating ")[-1])
            if given != wanted:
                sys.exit(f"{statements} {returned}: {given!r} in place of {wanted!r}")
    print(f"{len(SAME)} rows as the definitions have them, {len(OTHER)} otherwise as docs/DECISIONS.md says")


main()
