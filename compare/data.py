#!/usr/bin/env python3
"""Compares iasl with ACPICA's compiler on texts of data tables: ACPICA's own templates with random values.

    compare/data.py IASL COUNT SEED

Each text is the template of a table (`iasl -T`), with some of its structures in random order and with random numbers in its
fields; flags, the computed fields and what chooses a layout keep their values. The bytes must be those of ACPICA's iasl, but
for the creator's two fields and the checksum, which is checked by itself. It needs acpica-tools, and is no part of the tests.
"""

import random
import re
import subprocess
import sys
import tempfile
from pathlib import Path

from acpica import without_creator

TABLES = {"FACP": None, "APIC": "Subtable Type", "MCFG": "Base Address", "HPET": None, "SRAT": "Subtable Type", "SLIT": None}
TABLES |= {"BERT": None, "BGRT": None, "EINJ": "Action", "ERST": "Action", "GTDT": "Subtable Type", "HEST": "Subtable Type"}
TABLES |= {"NFIT": "Subtable Type", "PCCT": "Subtable Type", "SPCR": None, "TPM2": None, "WAET": None}
# Structures that docs/DATA_TABLES.md has, where ACPICA's template has others.
TYPES = {"APIC": range(6), "SRAT": range(3), "GTDT": [1], "HEST": range(6, 11), "NFIT": [0, 1, 4, 5, 7]}
KEPT = ["Signature", "Table Length", "Revision", "Checksum", "Asl Compiler", "Subtable Type", "Reserved"]
KEPT += ["ecoded ", "Space ID", "Access Width", "Localities", "Locality", "PM Profile", "Start Method", "Action"]
KEPT += ["Instruction", "Notify Type", "Notify Length"]
FIELD = re.compile(r"^(\[[0-9A-F]+\]\s*)?\[?\d+\]\s*(.*?) : ([0-9A-F]+)(\s.*)?$")


def template(folder, signature):
    """The lines of a table's header, and those of each of its structures."""
    (folder / f"{signature.lower()}.asl").unlink(missing_ok=True)
    subprocess.run(["iasl", "-T", signature], cwd=folder, capture_output=True, check=True)
    lines = []
    for line in (folder / f"{signature.lower()}.asl").read_text().split("\n"):
        if re.match(r"^\[|^\s+[^\s*].* : ", line) or lines and lines[-1].endswith("\\"):
            lines.append(line)
    head, structures, opens = [], [], TABLES[signature]
    for line in lines:
        if opens and f" {opens} : " in line:
            structures.append([])
        (structures[-1] if structures else head).append(line)
    wanted = TYPES.get(signature)
    if wanted:
        structures = [rows for rows in structures if int(rows[0].split(" : ")[1].split()[0], 16) in wanted]
    return head, structures


def varied(line):
    """A field's line with another number of its width."""
    field = FIELD.match(line)
    if not field or field[2] in ["Length", "Flags"] or any(word in field[2] for word in KEPT) or random.random() < 0.2:
        return line
    digits = len(field[3])
    return line.replace(f" : {field[3]}", f" : {random.getrandbits(4 * digits):0{digits}X}", 1)


def compiled(folder, words, text):
    (folder / "t.asl").write_text(text)
    (folder / "t.aml").unlink(missing_ok=True)
    run = subprocess.run(words + ["t.asl"], cwd=folder, capture_output=True, text=True, check=False)
    if not (folder / "t.aml").exists():
        sys.exit(f"{words[0]} wrote no table of:\n{text}\n{run.stdout}{run.stderr}")
    return (folder / "t.aml").read_bytes()


def main():
    iasl, count, seed = str(Path(sys.argv[1]).resolve()), int(sys.argv[2]), int(sys.argv[3])
    random.seed(seed)
    with tempfile.TemporaryDirectory() as name:
        folder = Path(name)
        templates = {signature: template(folder, signature) for signature in TABLES}
        for run in range(count):
            signature = random.choice(sorted(TABLES))
            head, structures = templates[signature]
            chosen = random.choices(structures, k=random.randrange(1, 9)) if structures else []
            text = "\n".join(varied(line) for rows in [head] + chosen for line in rows) + "\n"
            ours, theirs = compiled(folder, [iasl], text), compiled(folder, ["iasl"], text)
            if without_creator(ours) != without_creator(theirs):
                sys.exit(f"text {run}: other bytes:\n{text}")
    print(f"{count} texts: the same bytes")


main()
