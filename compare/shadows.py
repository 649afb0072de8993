#!/usr/bin/env python3
"""Asks what iasl tells of random small sources in which names of resource descriptors meet other names.

    compare/shadows.py IASL COUNT SEED

Each of COUNT sources has names, Devices, Scopes, Externals, aliases, methods and templates whose segments are drawn from a
few, so that most are declared more than once, used before they are declared, or hidden by a descriptor. ACPICA's compiler
has other rules for these, so nothing is compared: a run ends with status 0 or 1, never for want of memory; a table is
there after status 0 alone; a class of kinds is told alone; no line of the console stands there twice; and no place has two
messages of the class of kinds.
"""

import random
import re
import subprocess
import sys
import tempfile
from pathlib import Path

SEGMENTS = ["AAAA", "BBBB", "CCCC", "RNG0", "RNG1"]
LINE = re.compile(r"[^:]+:(\d+):(\d+): (error|warning|remark) (\d+):")
KINDS = {6050, 6051, 6054, 6056, 6072}


def path():
    """A name as it is used: mostly one segment, sometimes a path, a field, or steps up."""
    kind = random.random()
    if kind < 0.5:
        return random.choice(SEGMENTS)
    if kind < 0.7:
        return random.choice(SEGMENTS) + "." + random.choice(["_MIN", "_LEN", "_DEC", *SEGMENTS])
    if kind < 0.85:
        return "\\" + ".".join(random.choice(SEGMENTS) for _ in range(random.choice([1, 1, 2])))
    return "^" * random.choice([1, 1, 2, 3]) + random.choice(SEGMENTS) + random.choice(["", "._MIN"])


def declared():
    """A name as it is declared."""
    return random.choice(SEGMENTS) if random.random() < 0.9 else path()


def template():
    members = [f"IO (Decode16, 0x10, 0x20, 1, 4, {random.choice(SEGMENTS)})" for _ in range(random.choice([0, 1, 1, 2]))]
    return f"ResourceTemplate () {{ {' '.join(members)} }}"


def value():
    return random.choice([str(random.randrange(300)), path(), path(), f"Package () {{ {path()}, 1 }}", f"({path()} + 1)"])


def statement(depth):
    kind = random.randrange(12)
    if kind == 0 and depth:
        return f"If ({value()}) {{ {statements(depth - 1)} }}" + random.choice(["", f" Else {{ {statements(depth - 1)} }}"])
    return [
        f"Store ({value()}, {path()})",
        f"Local0 = {value()}",
        f"{path()} = 1",
        f"Return ({value()})",
        f"Acquire ({path()}, 0)",
        f"Local1 = CondRefOf ({path()})",
        f"{path()} ({value()})",
        f"Name ({declared()}, {template()})",
        f"CreateByteField ({path()}, {path()}, {declared()})",
        f"CreateBitField ({path()}, {path()}, {declared()})",
        f"Local2 = SizeOf ({path()})",
        f"Local3 = Add ({value()}, {value()})",
    ][kind]


def statements(depth):
    return " ".join(statement(depth) for _ in range(random.choice([1, 2, 3])))


def term(depth):
    kind = random.randrange(12)
    if kind < 3 and depth:
        container = random.choice(["Device", "Scope", "Device", "ThermalZone"])
        name = declared() if random.random() < 0.5 else path()
        return f"{container} ({name}) {{ {terms(depth - 1)} }}"
    if kind < 5:
        return f"Name ({declared()}, {template()})"
    return [
        f"Name ({declared()}, {value()})",
        f"External ({path()})",
        f"Alias ({path()}, {declared()})",
        f"Method ({declared()}) {{ {statements(2)} }}",
        f"OperationRegion ({declared()}, SystemMemory, 0, {random.choice(['1', '8', path()])})",
        f"Field ({path()}, DWordAcc, NoLock, Preserve) {{ {random.choice(SEGMENTS)}, 32 }}",
        f"Mutex ({declared()}, 0)",
    ][random.randrange(7)]


def terms(depth):
    return "\n".join(term(depth) for _ in range(random.choice([1, 2, 3, 4])))


def faults(status, console, table):
    """What is wrong with a run."""
    out = []
    if status not in (0, 1):
        out.append(f"status {status}")
    if table != (status == 0):
        out.append("a table without status 0, or none with it")
    lines = console.splitlines()
    out += [f"told twice: {line}" for line in set(lines) if lines.count(line) > 1]
    told = [(int(m[1]), int(m[2]), int(m[4])) for m in map(LINE.match, lines) if m]
    errors = [t for t in told if t[2] >= 6000]
    if any(6040 <= t[2] <= 6046 for t in errors) and any(t[2] in KINDS for t in errors):
        out.append("two classes")
    places = [t[:2] for t in errors if t[2] in KINDS]
    out += [f"two messages at {place}" for place in set(places) if places.count(place) > 1]
    return out


def main():
    iasl, count, seed = Path(sys.argv[1]).resolve(), int(sys.argv[2]), int(sys.argv[3])
    random.seed(seed)
    right = wrong = 0
    with tempfile.TemporaryDirectory() as folder:
        source, made = Path(folder, "t.asl"), Path(folder, "t.aml")
        for turn in range(count):
            source.write_text(f'DefinitionBlock ("", "SSDT", 2, "OEM", "TABLE", 1)\n{{\n{terms(3)}\n}}\n')
            made.unlink(missing_ok=True)
            run = subprocess.run([iasl, source.name], cwd=folder, capture_output=True, text=True)
            right += run.returncode == 0
            for fault in faults(run.returncode, run.stdout + run.stderr, made.exists()):
                wrong += 1
                print(f"source {turn}: {fault}")
                print(source.read_text())
    print(f"{count} sources, of which {right} have tables: {wrong} faults")
    sys.exit(wrong > 0)


if __name__ == "__main__":
    main()
