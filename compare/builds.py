#!/usr/bin/env python3
"""Calls iasl as builds do that were made for ACPICA's compiler, and looks for the files that they take from it.

    compare/builds.py IASL

The words are those of coreboot 4.15, EDK II 2022.11, U-Boot 2023.01, Xen 4.17 and SeaBIOS 1.16.2, each with `--acpica`, which a
package gives by a wrapper of one line. The source is a small one; what such a build does with the files is not done here.
"""

import subprocess
import sys
import tempfile
from pathlib import Path

SOURCE = """DefinitionBlock ("", "DSDT", 2, "BOARD", "TABLE", 1)
{
    External (\\_SB.PCI0.LPCB, DeviceObj)
    Device (\\_SB.LID0) { Name (_HID, EisaId ("PNP0C0D")) Method (_LID) { Return (One) } }
}
"""

# A build: the source's file, the words before it, and the files that it takes.
BUILDS = {
    "coreboot": ("dsdt.asl", "-vw 2158 -we -p dsdt.aml", ["dsdt.aml"]),
    "EDK II": ("Dsdt.iiii", "-p Dsdt.aml", ["Dsdt.aml"]),
    "U-Boot": ("dsdt.asl.tmp", "-p dsdt_generated.c -tc", ["dsdt_generated.aml", "dsdt_generated.hex"]),
    "Xen": ("dsdt_pvh.asl", "-vs -p dsdt_pvh.c.tmp -tc", ["dsdt_pvh.c.aml", "dsdt_pvh.c.hex"]),
    "SeaBIOS": ("acpi-dsdt.dsl.i", "-vs -l -tc -p acpi-dsdt", ["acpi-dsdt.aml", "acpi-dsdt.hex", "acpi-dsdt.lst"]),
}


def tried(iasl, folder, build):
    """Whether a call as of this build ends well and puts these files and no others."""
    name, words, wanted = BUILDS[build]
    folder.mkdir()
    (folder / name).write_text(SOURCE)
    run = subprocess.run([iasl, "--acpica", *words.split(), name], cwd=folder, capture_output=True, text=True, check=False)
    there = sorted(path.name for path in folder.iterdir() if path.name != name)
    print(f"{build}: status {run.returncode}, {' '.join(there)}")
    return run.returncode == 0 and there == wanted


def main():
    iasl = str(Path(sys.argv[1]).resolve())
    # coreboot knows the compiler by a word of what a call without words tells
    told = subprocess.run([iasl], capture_output=True, text=True, check=False).stdout
    with tempfile.TemporaryDirectory() as folder:
        right = [tried(iasl, Path(folder) / build.replace(" ", "_"), build) for build in BUILDS]
    sys.exit(0 if all(right) and "ACPI" in told else "a build would not find what it takes")


if __name__ == "__main__":
    main()
