"""What the comparisons share: compilers, interpreter, and tables without what differs by right."""

import random
import re
import subprocess

# Names and words of the language that have at most four characters, which are no segments.
WORDS = """add and nand or nor xor mod not land lor lnot mid wait zero one ones noop if else case arg0 arg1 arg2 arg3
arg4 arg5 arg6 name irq dma io lock pcc ipmi mtr meq mle mlt mge mgt edge load for""".split()
ROOT = ["_GPE", "_PR_", "_SB_", "_SI_", "_TZ_", "_GL_", "_OSI", "_OS_", "_REV"]

# Letters of names, and Integers at the edges of their widths.
LETTERS = "ABCDEFGHIJKLMNOPQRSTUVWXYZ"
EDGES = [0, 1, 2, 0x7F, 0x80, 0xFF, 0x100, 0xFFFF, 0x10000, 0xFFFFFFFF, 0x100000000, 2**63 - 1, 2**64 - 2, 2**64 - 1]

# Neither compiler folds constants or shortens names; -f writes ACPICA's table also where it has errors of its own, such as a Local that is
# read before it is stored to.
PLAIN = ["-of", "-on"]
THEIRS = ["iasl", "-f", "-vs"] + PLAIN


def compiled(folder, words, text):
    """The table that a compiler makes of a source."""
    folder.mkdir(exist_ok=True)
    (folder / "t.asl").write_bytes(text if isinstance(text, bytes) else text.encode("ascii"))
    (folder / "t.aml").unlink(missing_ok=True)
    run = subprocess.run(words + ["t.asl"], cwd=folder, capture_output=True, text=True, check=False)
    table = folder / "t.aml"
    if not table.exists():
        raise SystemExit(f"{words[0]} wrote no table of:\n{text}\n{run.stdout}{run.stderr}")
    return table.read_bytes()


def without_creator(table):
    """A table whose creator and checksum are zero."""
    assert sum(table) % 256 == 0, "checksum"
    return table[:9] + b"\0" + table[10:28] + bytes(8) + table[36:]


def evaluations(folder, calls):
    """What the interpreter tells of each call, a name and its Integers."""
    commands = ";".join(f"evaluate \\{name} " + " ".join(hex(n) for n in args) for name, args in calls)
    run = subprocess.run(["acpiexec", "-b", commands, "t.aml"], cwd=folder, capture_output=True, text=True, check=False)
    return run.stdout.split("Evaluating ")[1:]


def given(told):
    """What a call gives: an Integer, a String, or the exception's name."""
    number = re.search(r"\[Integer\] = ([0-9A-F]+)", told)
    string = re.search(r'\[String\] Length [0-9A-F]+ = "(.*)"', told)
    fault = re.search(r"failed with status (AE_\w+)", told)
    return int(number[1], 16) if number else string[1] if string else fault[1] if fault else None


def evaluated(folder, calls):
    """What the interpreter gives for each call."""
    return [given(told) for told in evaluations(folder, calls)]


def printed(told):
    """The Strings that a call prints."""
    return re.findall(r'^ACPI Debug:  "(.*)"$', told, re.MULTILINE)


def segment(used):
    """A new name as it is written, and its NameSeg."""
    while True:
        rest = random.choices(LETTERS + "0123456789_", k=random.choice([0, 1, 2, 3, 3, 3]))
        written = random.choice(LETTERS) + "".join(rest)
        if random.random() < 0.3:
            written = written.lower()
        name_seg = written.upper().ljust(4, "_")
        if written.lower() not in WORDS and name_seg not in ROOT and name_seg not in used:
            used.add(name_seg)
            return written, name_seg


def number(bits=64):
    """A number of at most so many bits, and how it is written."""
    value = random.choice(EDGES) if random.random() < 0.5 else random.getrandbits(random.choice([4, 8, 16, 32, 48, 64]))
    value %= 2**bits
    return value, random.choice([str(value), hex(value), "0" + oct(value)[2:] if value else "0"])
