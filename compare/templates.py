#!/usr/bin/env python3
"""Compares iasl with ACPICA's compiler on resource templates.

    compare/templates.py IASL COUNT SEED

The first sources have, for each macro, each of its arguments left out once, each of its words once, and the least and the most
of each of its numbers; then come COUNT sources with random templates. The bytes must be those of ACPICA's iasl, but for the
creator's two fields and the checksum, which is checked by itself. It needs acpica-tools, and is no part of the tests.
"""

import random
import sys
import tempfile
from pathlib import Path

from acpica import PLAIN, THEIRS, compiled, without_creator

WORDS = {
    "usage": "ResourceProducer ResourceConsumer",
    "decode": "PosDecode SubDecode",
    "minimum": "MinNotFixed MinFixed",
    "maximum": "MaxNotFixed MaxFixed",
    "access": "ReadOnly ReadWrite",
    "caching": "NonCacheable Cacheable WriteCombining Prefetchable",
    "range": "AddressRangeMemory AddressRangeReserved AddressRangeACPI AddressRangeNVS",
    "translation": "TypeStatic TypeTranslation",
    "sparse": "DenseTranslation SparseTranslation",
    "isa": "NonISAOnlyRanges ISAOnlyRanges EntireRange",
    "io": "Decode10 Decode16",
    "mode": "Level Edge",
    "level": "ActiveHigh ActiveLow",
    "sharing": "Exclusive Shared ExclusiveAndWake SharedAndWake",
    "dma": "Compatibility TypeA TypeB TypeF",
    "master": "NotBusMaster BusMaster",
    "transfer": "Transfer8 Transfer8_16 Transfer16",
    "width": "Width8bit Width16bit Width32bit Width64bit Width128bit Width256bit",
    "space": "SystemMemory SystemIO PCI_Config EmbeddedControl SMBus SystemCMOS PciBarTarget IPMI GeneralPurposeIO "
    "GenericSerialBus FFixedHW",
}


def ranges(bits, extended=False):
    return [f"n{bits}"] * 5 + (["n64?"] if extended else ["source"])


IO = ["usage?", "minimum?", "maximum?", "decode?", "isa?"]
MEMORY = ["usage?", "decode?", "minimum?", "maximum?", "caching?", "access?"]
BUS = ["usage?", "minimum?", "maximum?", "decode?"]
SPACE = ["type", "usage?", "decode?", "minimum?", "maximum?", "n8"]

# The arguments of each macro, but for its name: a word, a number of so many bits, or both arguments of a source; with `?` it
# may be left out. Where the name would stand in front of others there is `name`. Then its list: how many members, and up to what.
MACROS = {
    "IRQ": (["mode", "level", "sharing?"], (0, 3, 15)),
    "IRQNoFlags": ([], (0, 3, 15)),
    "DMA": (["dma", "master", "transfer"], (0, 3, 7)),
    "FixedDMA": (["n16", "n16", "width?"], None),
    "IO": (["io", "n16", "n16", "n8", "n8"], None),
    "FixedIO": (["n16", "n8"], None),
    "VendorShort": ([], (1, 7, 255)),
    "VendorLong": ([], (1, 300, 255)),
    "Memory24": (["access?"] + ["n16"] * 4, None),
    "Memory32": (["access?"] + ["n32"] * 4, None),
    "Memory32Fixed": (["access?", "n32", "n32"], None),
    "Register": (["space", "n8", "n8", "n64", "size?"], None),
    "Interrupt": (["usage?", "mode", "level", "sharing?", "source"], (1, 9, 2**32 - 1)),
    "WordIO": (IO + ranges(16) + ["name", "translation?", "sparse?"], None),
    "DWordIO": (IO + ranges(32) + ["name", "translation?", "sparse?"], None),
    "QWordIO": (IO + ranges(64) + ["name", "translation?", "sparse?"], None),
    "ExtendedIO": (IO + ranges(64, True) + ["name", "translation?", "sparse?"], None),
    "DWordMemory": (MEMORY + ranges(32) + ["name", "range?", "translation?"], None),
    "QWordMemory": (MEMORY + ranges(64) + ["name", "range?", "translation?"], None),
    "ExtendedMemory": (MEMORY + ranges(64, True) + ["name", "range?", "translation?"], None),
    "WordBusNumber": (BUS + ranges(16), None),
    "WordSpace": (SPACE + ranges(16), None),
    "DWordSpace": (SPACE + ranges(32), None),
    "QWordSpace": (SPACE + ranges(64), None),
    "ExtendedSpace": (SPACE + ranges(64, True), None),
}


def written(value):
    return random.choice([str(value), hex(value)])


def bounds(kind):
    """The least and the most that a number may be; None of what is no number."""
    if kind == "type":
        return 0xC0, 0xFF
    if kind == "size":
        return 0, 4
    return (0, 2 ** int(kind[1:]) - 1) if kind[0] == "n" and kind[1:].isdigit() else None


def argument(kind):
    """Some argument of a kind: one text, and two of a source."""
    kind = kind.rstrip("?")
    if kind == "name":
        return [""]
    if kind == "source":
        source = '"' + "".join(random.choices("\\_SB.PCI0LNKA^", k=random.randrange(1, 12))).replace("\\", "\\\\") + '"'
        return random.choice([["", ""], [written(random.randrange(256)), source]])
    if kind in WORDS:
        return [random.choice(WORDS[kind].split())]
    least, most = bounds(kind)
    return [written(random.choice([least, most, random.randint(least, most)]))]


def members(rule):
    least, most, greatest = rule
    count = random.choice([least, most, random.randint(least, most)])
    numbers = random.sample(range(greatest + 1), count) if greatest < 16 else [random.randint(0, greatest) for _ in range(count)]
    return [written(number) for number in numbers]


def descriptor(macro, arguments, numbers):
    text = f"{macro} ({', '.join(arguments).rstrip(', ')})"
    return text if numbers is None else f"{text} {{{', '.join(numbers)}}}"


def some(macro, changes=None):
    """A descriptor with random arguments, but for those that are given by their places."""
    kinds, rule = MACROS[macro]
    arguments = []
    for place, kind in enumerate(kinds):
        if changes and place in changes:
            arguments += changes[place]
        elif kind.endswith("?") and random.random() < 0.3:
            arguments.append("")
        else:
            arguments += argument(kind)
    return descriptor(macro, arguments, rule and members(rule))


def each(macro):
    """A descriptor for each argument that may be left out, for each word, and for both ends of each number and list."""
    kinds, rule = MACROS[macro]
    for place, full in enumerate(kinds):
        kind = full.rstrip("?")
        if full.endswith("?"):
            yield some(macro, {place: [""]})
        for word in WORDS.get(kind, "").split():
            yield some(macro, {place: [word]})
        for number in bounds(kind) or []:
            yield some(macro, {place: [str(number)]})
        if kind == "source":
            yield some(macro, {place: ["", ""]})
            yield some(macro, {place: ["255", '"\\\\_SB.LNKA"']})
    for count in rule[:2] if rule else []:
        yield descriptor(macro, sum((argument(kind) for kind in kinds), []), [written(i % (rule[2] + 1)) for i in range(count)])
    yield some(macro)


def group():
    """Descriptors that depend on a choice, and their end."""
    head = random.choice(["StartDependentFnNoPri ()", f"StartDependentFn ({random.randrange(3)}, {random.randrange(3)})"])
    inside = "\n            ".join(some(random.choice(list(MACROS))) for _ in range(random.randrange(1, 4)))
    return f"{head}\n        {{\n            {inside}\n        }}"


def template(number, descriptors):
    inside = "\n        ".join(descriptors)
    return f"    Name (R{number:03X}, ResourceTemplate ()\n    {{\n        {inside}\n    }})\n"


def source(templates):
    return 'DefinitionBlock ("", "SSDT", 2, "OEMX00", "TABLE001", 0x1000)\n{\n' + "".join(templates) + "}\n"


def some_template(number):
    descriptors = [some(random.choice(list(MACROS))) for _ in range(random.randrange(6))]
    if random.random() < 0.4:
        descriptors += [group() for _ in range(random.randrange(1, 4))] + ["EndDependentFn ()"]
    return template(number, descriptors)


def main():
    iasl, count, seed = str(Path(sys.argv[1]).resolve()), int(sys.argv[2]), int(sys.argv[3])
    random.seed(seed)
    fixed = [source([template(number, [one]) for number, one in enumerate(each(macro))]) for macro in MACROS]
    with tempfile.TemporaryDirectory() as name:
        folder = Path(name)
        for run in range(len(fixed) + count):
            text = fixed[run] if run < len(fixed) else source([some_template(number) for number in range(random.randrange(1, 6))])
            ours, theirs = compiled(folder, [iasl] + PLAIN, text), compiled(folder, THEIRS, text)
            if without_creator(ours) != without_creator(theirs):
                sys.exit(f"source {run}: other bytes:\n{text}")
    print(f"{len(fixed)} sources of single arguments and {count} random ones: the same bytes")


if __name__ == "__main__":
    main()
