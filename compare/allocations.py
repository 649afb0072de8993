#!/usr/bin/env python3
"""Refuses each allocation of iasl and acpixtract in turn, one a run, on sources that end with 0 where memory is ample.

    compare/allocations.py IASL ACPIXTRACT

A run in which an allocation is refused must end with 0 or 4. With 0 it has the files and the text of the run with ample
memory; with 4 it tells `out of memory`, and its files are the first of those, each whole. The allocations are counted
and refused by a library in C that is made here and loaded before the C library. It needs gcc, and is no part of the
tests.
"""

import os
import subprocess
import sys
import tempfile
from pathlib import Path

REFUSING = r"""
#define _GNU_SOURCE
#include <dlfcn.h>
#include <stdlib.h>
#include <stdio.h>
static unsigned long calls, refused;
static void *(*next_malloc)(size_t);
static void *(*next_realloc)(void *, size_t);
__attribute__((constructor)) static void start(void)
{
    const char *text = getenv("REFUSED_ALLOCATION");
    next_malloc = dlsym(RTLD_NEXT, "malloc");
    next_realloc = dlsym(RTLD_NEXT, "realloc");
    calls = 0;
    refused = text ? strtoul(text, 0, 10) : 0;
}
void *malloc(size_t size)
{
    if (!next_malloc) next_malloc = dlsym(RTLD_NEXT, "malloc");
    return ++calls == refused ? 0 : next_malloc(size);
}
void *realloc(void *old, size_t size)
{
    if (!next_realloc) next_realloc = dlsym(RTLD_NEXT, "realloc");
    return ++calls == refused ? 0 : next_realloc(old, size);
}
__attribute__((destructor)) static void end(void)
{
    const char *name = getenv("ALLOCATIONS_FILE");
    FILE *file = name ? fopen(name, "w") : 0;
    if (file) {
        fprintf(file, "%lu", calls);
        fclose(file);
    }
}
"""

ONE_NAME = """DefinitionBlock ("", "SSDT", 2, "OEMX00", "TABLE001", 1)
{
    Name (X, 5)
}
"""

CONTROLLER = """DefinitionBlock ("ec.aml", "SSDT", 2, "OEMX00", "ECTABLE", 0x1000)
{
    External (\\_SB.PCI0, DeviceObj)
    Scope (\\_SB.PCI0) {
        Device (EC0) {
            Name (_HID, EisaId ("PNP0C09"))
            Name (_CRS, ResourceTemplate () {
                IO (Decode16, 0x62, 0x62, 0x00, 0x01)
                IO (Decode16, 0x66, 0x66, 0x00, 0x01) })
            OperationRegion (ERAM, EmbeddedControl, 0x00, 0xFF)
            Field (ERAM, ByteAcc, NoLock, Preserve) {
                Offset (0x10), LID, 1, , 7, TEMP, 8 }
            Method (_STA, 0, NotSerialized) { Return (0x0F) }
            Method (_DSM, 4, Serialized) {
                If (Arg0 == ToUUID ("e5c937d0-3553-4d7a-9117-ea4d19c3434d")) {
                    Switch (ToInteger (Arg2)) {
                        Case (0) { Return (Buffer () { 0x03 }) }
                        Case (1) { Return (TEMP) } } }
                Return (Buffer () { 0x00 })
            }
        }
    }
}
"""

DUMP = """SSDT @ 0x0000000000000000
    0000: 53 53 44 54 24 00 00 00 02 8B 4F 45 4D 58 30 30  SSDT$.....OEMX00
    0010: 54 41 42 4C 45 30 30 31 01 00 00 00 49 4E 54 4C  TABLE001....INTL
    0020: 05 01 21 20                                      ..!
DSDT @ 0x0000000000000000
    0000: 44 53 44 54 08 00 00 00
"""


def hpet(iasl, folder):
    """The text of an HPET as the program's own template gives it."""
    subprocess.run([iasl, "-T", "HPET"], cwd=folder, check=True, stdout=subprocess.PIPE)
    return (folder / "hpet.asl").read_text()


def run(program, words, text, library, refused):
    """The status, the files in the order of their writing, the text, and how many allocations there were."""
    with tempfile.TemporaryDirectory() as name:
        folder = Path(name)
        (folder / "t.asl").write_text(text)
        count = Path(name + ".count")
        env = dict(os.environ, LD_PRELOAD=str(library), ALLOCATIONS_FILE=str(count))
        if refused:
            env["REFUSED_ALLOCATION"] = str(refused)
        done = subprocess.run([program, *words, "t.asl"], cwd=folder, env=env, stdout=subprocess.PIPE)
        files = {path.name: path.read_bytes() for path in folder.iterdir() if path.name != "t.asl"}
        calls = int(count.read_text()) if count.exists() else 0
        count.unlink(missing_ok=True)
        return done.returncode, files, done.stdout, calls


def wrong(answer, ample, order):
    """What is wrong with the answer of a run in which an allocation was refused."""
    status, files, told, _ = answer
    if status == 0:
        return None if (files, told) == ample[1:3] else "0 with other files or another text"
    if status != 4:
        return f"status {status}"
    first = order[: len(files)]
    if sorted(first) != sorted(files):
        return f"4 with the files {sorted(files)}"
    if any(files[name] != ample[1][name] for name in first):
        return "4 with a file that is not whole"
    return None if told.endswith(b": out of memory\n") else "4 with another text"


def main():
    iasl, acpixtract = (str(Path(word).resolve()) for word in sys.argv[1:3])
    failed = 0
    with tempfile.TemporaryDirectory() as name:
        folder = Path(name)
        library = folder / "refusing.so"
        (folder / "refusing.c").write_text(REFUSING)
        subprocess.run(["gcc", "-O1", "-shared", "-fPIC", "-o", library, folder / "refusing.c", "-ldl"], check=True)
        runs = [
            ("a name", iasl, [], ONE_NAME, ["t.aml"]),
            ("a data table", iasl, [], hpet(iasl, folder), ["t.aml"]),
            ("a dump", acpixtract, ["-a"], DUMP, ["ssdt1.dat", "dsdt.dat"]),
            ("a controller", iasl, ["-l", "-tc"], CONTROLLER, ["ec.aml", "ec.hex", "ec.lst"]),
        ]
        for title, program, words, text, order in runs:
            ample = run(program, words, text, library, None)
            if ample[0] != 0 or sorted(ample[1]) != sorted(order):
                print(f"{title}: status {ample[0]}, files {sorted(ample[1])} with ample memory")
                failed += 1
                continue
            answers = ((n, run(program, words, text, library, n)) for n in range(1, ample[3] + 1))
            wrongs = [(n, what) for n, answer in answers if (what := wrong(answer, ample, order))]
            for n, what in wrongs[:10]:
                print(f"{title}, allocation {n}: {what}")
            print(f"{title}: {ample[3]} allocations refused, {len(wrongs)} wrong")
            failed += len(wrongs)
    return 1 if failed else 0


if __name__ == "__main__":
    sys.exit(main())
