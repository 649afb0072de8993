#!/usr/bin/env python3
"""try.py CRATE [EDIT..]: the prover must refuse each wrong body of edits/CRATE, or those that are named.

The gate tries the few edits that stand in the crates. Those here tell inner promises, which the proofs of the callers
tell too; they are tried by hand when their crate changes. Each is laid beside the crate's own in a copy of the tree,
where `rt must-fail` tries them; its lines and its status are the answer."""
import os
import shutil
import subprocess
import sys
import tempfile

TOP = os.path.dirname(os.path.dirname(os.path.abspath(__file__)))


def main(words):
    if not words:
        print(__doc__)
        return 2
    crate, names = words[0], words[1:]
    kept = os.path.join(TOP, "edits", crate)
    edits = [name + ".edit" for name in names] or sorted(os.listdir(kept))
    with tempfile.TemporaryDirectory() as folder:
        shutil.copytree(
            os.path.join(TOP, "crates"),
            os.path.join(folder, "crates"),
            ignore=shutil.ignore_patterns("out"),
        )
        for name in ("crates.txt", "HANDLES"):
            shutil.copy(os.path.join(TOP, name), folder)
        subprocess.run(["git", "init", "-q", folder], check=True)
        own = os.path.join(folder, "crates", crate, "must-fail")
        shutil.rmtree(own, ignore_errors=True)
        os.makedirs(own)
        for name in edits:
            shutil.copy(os.path.join(kept, name), own)
        return subprocess.run(["rt", "must-fail", crate], cwd=folder).returncode


if __name__ == "__main__":
    sys.exit(main(sys.argv[1:]))
