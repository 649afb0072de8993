#!/usr/bin/env python3
"""Compiles Fors whose steps stand before many Continues.

    compare/copies.py IASL

A step of N Locals stands before each of C Continues, and once more at the end of the loop: the table has C + 1 copies of
its bytes, which are written here by the ACPI Specification (6.4, 20.2). Where the copies have 2^32 Locals or more, 6062
is told at the For, and no copy is made: the run is to take less than 2 GiB and 60 seconds.
"""

import resource
import subprocess
import sys
import tempfile
from pathlib import Path

WRITTEN = [(0, 1), (1, 1), (3, 5), (100, 8), (1000, 33)]
PLAIN = "If (Arg0) { Continue }"
SWITCHED = "Switch (Arg0) { Case (1) { Continue } }"
REFUSED = [(65536, 65536, PLAIN), (16384, 262144, PLAIN), (65536, 65536, SWITCHED)]


def total(count):
    """Locals that are added in pairs: the text, and the bytes without the target."""
    if count == 1:
        return "Local1", b"\x61"
    left, right = total(count // 2), total(count - count // 2)
    return f"({left[0]} + {right[0]})", b"\x72" + left[1] + right[1] + b"\x00"


def step_of(count):
    text, code = total(count)
    if count == 1:
        return f"Local0 = {text}", b"\x70\x61\x60"
    return f"Local0 = {text}", code[:-1] + b"\x60"


def source(continues, step, turn):
    lines = [f"For (Local0 = 0, Local0 < 2, {step}) {{", *[turn] * continues, "}"]
    return "\n".join(['DefinitionBlock ("", "SSDT", 2, "RATTLE", "COPIES", 1) {', "Method (M, 1) {", *lines, "}", "}", ""])


def bounded():
    resource.setrlimit(resource.RLIMIT_AS, (1 << 31, 1 << 31))
    resource.setrlimit(resource.RLIMIT_CPU, (60, 60))


def compiled(iasl, folder, continues, step, turn=PLAIN):
    (folder / "t.asl").write_text(source(continues, step, turn))
    return subprocess.run([iasl, "t.asl"], cwd=folder, capture_output=True, text=True, preexec_fn=bounded, check=False)


def main():
    iasl = Path(sys.argv[1]).resolve()
    faults = 0
    with tempfile.TemporaryDirectory() as name:
        folder = Path(name)
        for continues, count in WRITTEN:
            step, code = step_of(count)
            run = compiled(iasl, folder, continues, step)
            copies = (folder / "t.aml").read_bytes().count(code) if run.returncode == 0 else run.stdout
            if copies != continues + 1:
                faults += 1
                print(f"{continues} Continues, {count} Locals: {copies}")
        for continues, count, turn in REFUSED:
            run = compiled(iasl, folder, continues, step_of(count)[0], turn)
            if run.returncode != 1 or not run.stdout.startswith("t.asl:3:1: error 6062: too many copies"):
                faults += 1
                print(f"{continues} of {turn}, {count} Locals: {run.returncode} {run.stdout[:200]}")
    print(f"{len(WRITTEN) + len(REFUSED)} sources, {faults} faults")
    return 1 if faults else 0


if __name__ == "__main__":
    sys.exit(main())
