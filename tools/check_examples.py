#!/usr/bin/env python3
"""Runs each example of docs/chomp.1 and compares what is printed with what stands there.

    tools/check_examples.py [PROGRAM]        another program than that of this repository

Nothing but Python and the built program is needed; the gate does not run this.
"""
import re
import subprocess
import sys
from pathlib import Path

ROOT = Path(__file__).resolve().parent.parent


def examples(page):
    """The words of each example with the lines that it is to print."""
    lines = None
    for line in page.splitlines():
        line = line.replace("\\-", "-")
        command = re.match(r"\$ \\fBchomp (.*)\\fR$", line)
        if command:
            lines = []
            yield command[1].split(), lines
        elif line == ".RE":
            lines = None
        elif lines is not None:
            lines.append(line)


def main():
    program = Path(sys.argv[1]).resolve() if len(sys.argv) > 1 else ROOT / "crates" / "chomp" / "out" / "chomp"
    if not program.exists():
        sys.exit("no program yet: run `bin/chomp homcubes examples/ring.txt` first")
    wrong = 0
    for words, lines in list(examples((ROOT / "docs" / "chomp.1").read_text())):
        run = subprocess.run([program, *words], cwd=ROOT, capture_output=True, text=True)
        if (run.stdout + run.stderr).splitlines() == lines:
            print("as it stands:", *words)
        else:
            wrong += 1
            print("otherwise:", *words, f"(status {run.returncode})\n" + run.stdout + run.stderr, end="")
    sys.exit(1 if wrong else 0)


if __name__ == "__main__":
    main()
