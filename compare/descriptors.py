#!/usr/bin/env python3
"""Compares iasl with ACPICA's compiler on the names of resource descriptors.

    compare/descriptors.py IASL COUNT SEED

Each of COUNT sources has a template of random descriptors, most of them with names, and buffer fields over it whose indexes are
fields of these. A fifth of them has instead an object of the name of a descriptor in the scope around, which is used beside the
descriptor and where a search does not meet it, and is compiled with names shortened. The bytes must be those of ACPICA's iasl,
but for the creator's two fields and the checksum, which is checked by itself. It needs acpica-tools, and is no part of the tests.
"""

import random
import sys
import tempfile
from pathlib import Path

from acpica import PLAIN, THEIRS, compiled, segment, without_creator
from templates import MACROS, argument, descriptor, members

# The fields of each macro that begin with a byte, and those that are asked for by their bits.
SPACES = "_GRA _MIN _MAX _TRA _LEN"
FLAGS = "_DEC _MIF _MAF"
MEMORY = FLAGS + " _RW _MEM"
FIELDS = {
    "IRQ": ("_INT", "_HE _LL _SHR"),
    "IRQNoFlags": ("_INT", ""),
    "DMA": ("_DMA", "_SIZ _BM _TYP"),
    "FixedDMA": ("_DMA _TYP _SIZ", ""),
    "IO": ("_MIN _MAX _ALN _LEN", "_DEC"),
    "FixedIO": ("_BAS _LEN", ""),
    "Memory24": ("_MIN _MAX _ALN _LEN", "_RW"),
    "Memory32": ("_MIN _MAX _ALN _LEN", "_RW"),
    "Memory32Fixed": ("_BAS _LEN", "_RW"),
    "Register": ("_ASI _RBW _RBO _ASZ _ADR", ""),
    "Interrupt": ("_INT", "_HE _LL _SHR"),
    "WordIO": (SPACES, FLAGS + " _RNG"),
    "DWordIO": (SPACES, FLAGS + " _RNG _TTP _TRS"),
    "QWordIO": (SPACES, FLAGS + " _RNG _TTP _TRS"),
    "ExtendedIO": (SPACES + " _ATT", FLAGS + " _RNG _TTP _TRS"),
    "DWordMemory": (SPACES, MEMORY + " _MTP _TTP"),
    "QWordMemory": (SPACES, MEMORY + " _MTP _TTP"),
    "ExtendedMemory": (SPACES + " _ATT", MEMORY + " _MTP _TTP"),
    "WordBusNumber": (SPACES, FLAGS),
    "WordSpace": (SPACES, FLAGS),
    "DWordSpace": (SPACES, FLAGS),
    "QWordSpace": (SPACES, FLAGS),
    "ExtendedSpace": (SPACES + " _ATT", FLAGS),
}
IN_BYTES = ["CreateByteField", "CreateWordField", "CreateDWordField", "CreateQWordField"]


def named(macro, name):
    """A descriptor with all its arguments, and a name."""
    kinds, rule = MACROS[macro]
    arguments = []
    for kind in kinds:
        arguments += [name] if kind == "name" else argument(kind)
    if "name" not in kinds:
        arguments.append(name)
    return descriptor(macro, arguments, rule and members(rule))


def buffer_field(buffer, name, macro, new):
    in_bytes, in_bits = (fields.split() for fields in FIELDS[macro])
    if in_bits and random.random() < 0.5:
        place = f"{buffer}, {name}.{random.choice(in_bits)}"
        return random.choice([f"CreateBitField ({place}, {new})", f"CreateField ({place}, {random.randint(1, 9)}, {new})"])
    return f"{random.choice(IN_BYTES)} ({buffer}, {name}.{random.choice(in_bytes)}, {new})"


def source():
    used, terms = set(), []
    buffer, _ = segment(used)
    descriptors, names = [], []
    for _ in range(random.randint(1, 6)):
        macro = random.choice(list(FIELDS))
        name, _ = segment(used)
        descriptors.append(named(macro, name))
        names.append((name, macro))
    terms.append(f"    Name ({buffer}, ResourceTemplate () {{\n        " + "\n        ".join(descriptors) + "\n    })\n")
    outside = random.random() < 0.5
    root = "" if outside else "\\"  # (a path of two segments is not searched for, so a method needs one from the root)
    fields = [buffer_field(buffer, root + name, macro, segment(used)[0]) for name, macro in random.choices(names, k=random.randint(1, 8))]
    if outside:
        terms += [f"    {field}\n" for field in fields]
    else:
        method, _ = segment(used)
        terms.append(f"    Method ({method})\n    {{\n" + "".join(f"        {field}\n" for field in fields) + "    }\n")
    return 'DefinitionBlock ("", "SSDT", 2, "OEMX00", "TABLE001", 1)\n{\n' + "".join(terms) + "}\n"


def hidden():
    """A name that a descriptor hides in one Device and not in another."""
    used = set()
    name, buffer, first, second, method = (segment(used)[0] for _ in range(5))
    use = f"Method ({method}) {{ Return (\\_SB.{name}) }}"
    template = f"Name ({buffer}, ResourceTemplate () {{ {named(random.choice(list(FIELDS)), name)} }})"
    devices = [f"        Device ({first}) {{ {template} {use} }}\n", f"        Device ({second}) {{ {use} }}\n"]
    random.shuffle(devices)
    terms = f"    Scope (_SB)\n    {{\n        Name ({name}, 5)\n{''.join(devices)}    }}\n"
    return 'DefinitionBlock ("", "DSDT", 2, "OEMX00", "TABLE001", 1)\n{\n' + terms + "}\n"


def main():
    iasl, count, seed = str(Path(sys.argv[1]).resolve()), int(sys.argv[2]), int(sys.argv[3])
    random.seed(seed)
    with tempfile.TemporaryDirectory() as name:
        folder = Path(name)
        for run in range(count):
            shortened = random.random() < 0.2
            text = hidden() if shortened else source()
            ours = compiled(folder / "ours", [iasl] + [word for word in PLAIN if not shortened or word != "-on"], text)
            theirs = compiled(folder / "theirs", [word for word in THEIRS if not shortened or word != "-on"], text)
            if without_creator(ours) != without_creator(theirs):
                sys.exit(f"source {run}: the bytes differ:\n{text}\n{ours.hex()}\n{theirs.hex()}")
    print(f"{count} sources: the bytes are the same")


if __name__ == "__main__":
    main()
