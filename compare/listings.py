#!/usr/bin/env python3
"""Looks at the listings and arrays of C that iasl writes of random sources with ElseIf and Switch.

    compare/listings.py IASL COUNT SEED

The pieces of a listing, joined, are the table, and so are the bytes of the array. A line of a source that is an ElseIf or a Case
has one piece, and so has an Else; a Default has one where its Switch has a Case, and none where it has none. It needs nothing of
ACPICA's, and is no part of the tests.
"""

import random
import re
import subprocess
import sys
import tempfile
from pathlib import Path

from statements import source as statements_source
from switches import source as switches_source

PIECE = re.compile(r"^ {0,5}(\d+)  (.*)$")
ROW = re.compile(r"^([0-9A-F]{8})((?: ? [0-9A-F]{2})+)$")


def pieces(listing):
    """The pieces of a listing: the number of the line, its text and the bytes."""
    found = []
    for line in listing.splitlines():
        row = ROW.match(line)
        if row and found:
            at = sum(len(made) for _, _, made in found)
            assert int(row[1], 16) == at, f"offset {row[1]} is not {at:X}"
            found[-1][2].extend(bytes.fromhex(row[2]))
            continue
        piece = PIECE.match(line)
        assert piece, f"no piece and no row: {line}"
        found.append((int(piece[1]), piece[2], bytearray()))
    return found


def wrong_lines(text, found):
    """The lines of a source that have another number of pieces than their words say."""
    counts = {}
    for number, _, _ in found:
        counts[number] = counts.get(number, 0) + 1
    for number, line in enumerate(text.splitlines(), 1):
        if re.match(r"\s*(}\s*)?(ElseIf|Else|Case)\b", line) and counts.get(number, 0) != 1:
            yield line, counts.get(number, 0)


def main():
    iasl, count, seed = str(Path(sys.argv[1]).resolve()), int(sys.argv[2]), int(sys.argv[3])
    random.seed(seed)
    branches = 0
    with tempfile.TemporaryDirectory() as name:
        folder = Path(name)
        for run in range(count):
            text = (switches_source if run % 2 else statements_source)()[0]
            (folder / "t.asl").write_text(text)
            words = [iasl, "-l", "-tc"] + random.choice([[], ["-oa"], ["-oi"], ["-of"]]) + ["t.asl"]
            made = subprocess.run(words, cwd=folder, capture_output=True, text=True, check=False)
            if made.returncode:
                sys.exit(f"source {run}: {made.stdout}{text}")
            table = (folder / "t.aml").read_bytes()
            found = pieces((folder / "t.lst").read_text())
            if b"".join(bytes(part) for _, _, part in found) != table:
                sys.exit(f"source {run}: the pieces are not the table:\n{text}")
            array = bytes(int(byte, 16) for byte in re.findall(r"0x([0-9A-F]{2})", (folder / "t.hex").read_text()))
            if array != table:
                sys.exit(f"source {run}: the array is not the table:\n{text}")
            for line, pieces_there in wrong_lines(text, found):
                sys.exit(f"source {run}: {pieces_there} pieces of {line}:\n{text}")
            branches += len(re.findall(r"\b(ElseIf|Case)\b", text))
    print(f"{count} sources with {branches} ElseIfs and Cases: the pieces joined are the table, and each of these has one")


if __name__ == "__main__":
    main()
