#!/usr/bin/env python3
"""Compares acpixtract with ACPICA's on random dumps.

    compare/dumps.py ACPIXTRACT COUNT SEED

The tables of each dump must come to the same bytes. The names of the files are our own (docs/DUMPS.md). It needs
acpica-tools, and is no part of the tests.
"""

import random
import subprocess
import sys
import tempfile
from pathlib import Path

SIGNATURES = ["DSDT", "FACP", "SSDT", "SSDT", "SSDT", "APIC", "MCFG", "HPET"]


def table(signature):
    """A table of random bytes with its length and a right checksum."""
    size = random.choice([36, 37, 52, 53, 300, 5000])
    data = bytearray(random.randbytes(size))
    data[:4] = signature.encode()
    data[4:8] = size.to_bytes(4, "little")
    data[9] = (data[9] - sum(data)) % 256
    return bytes(data)


def dumped(signature, data):
    """A table as acpidump writes it."""
    lines = [f"{signature} @ 0x{random.getrandbits(32):016X}\n"]
    for offset in range(0, len(data), 16):
        row = data[offset : offset + 16]
        text = "".join(chr(byte) if 32 <= byte < 127 else "." for byte in row)
        lines.append(f"  {offset:6X}: {row.hex(' ').upper():47}  {text}\n")
    return "".join(lines) + "\n"


def extracted(folder, program, dump):
    """What a program writes of a dump, in order of the bytes."""
    folder.mkdir()
    (folder / "dump").write_text(dump)
    subprocess.run([program, "-a", "dump"], cwd=folder, capture_output=True, check=True)
    return sorted(file.read_bytes() for file in folder.glob("*.dat"))


def main():
    acpixtract, count, seed = str(Path(sys.argv[1]).resolve()), int(sys.argv[2]), int(sys.argv[3])
    random.seed(seed)
    for run in range(count):
        signatures = random.choices(SIGNATURES, k=random.randint(1, 12))
        dump = "".join(dumped(signature, table(signature)) for signature in signatures)
        with tempfile.TemporaryDirectory() as name:
            theirs = extracted(Path(name) / "theirs", "acpixtract", dump)
            ours = extracted(Path(name) / "ours", acpixtract, dump)
            if ours != theirs:
                sys.exit(f"run {run} differs:\n{dump}")
    print(f"{count} dumps: the same tables")


main()
