#!/usr/bin/env python3
"""Prints each line that is over its measure: 140 characters for code, contracts, definitions and scripts, 120 for
documents, 400 for proofs. Nothing but people runs it, at the top of the repository: docs/long_lines.py"""

import subprocess

MEASURES = [("crates/*/proofs/*", 400), ("*.rt", 140), ("*.antt", 140), ("*.py", 140), ("*.md", 120)]


def main():
    told = set()
    for pattern, measure in MEASURES:
        files = subprocess.run(["git", "ls-files", pattern], capture_output=True, text=True, check=True).stdout.split("\n")
        for name in filter(None, files):
            if name in told:
                continue
            told.add(name)
            with open(name, encoding="utf8") as lines:
                for number, line in enumerate(lines, 1):
                    if len(line.rstrip("\n")) > measure:
                        print(f"{name}:{number}: {len(line) - 1} characters")


if __name__ == "__main__":
    main()
