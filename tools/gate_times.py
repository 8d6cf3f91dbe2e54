#!/usr/bin/env python3
"""Runs `rt ci` and says when each crate was proved and tried, in minutes and seconds from the start.

    tools/gate_times.py                the whole gate
    tools/gate_times.py NAME..         these crates and those below them
    tools/gate_times.py --log FILE     from the log of an earlier run of this script, with --keep
    tools/gate_times.py --keep FILE    keeps the gate's lines with their times in a file, too

What `rt ci` prints stands on standard error, each line behind its time; the table is printed at the end, and the
status is that of `rt ci`. Nothing but Python and the toolchain is needed.
"""
import argparse
import re
import subprocess
import sys
import time
from pathlib import Path

ROOT = Path(__file__).resolve().parent.parent

# What a line says of a crate.
EVENTS = (
    ("proof", re.compile(r"(?:rt: )?(\w+) (?:proved|NOT PROVED)")),
    ("kept", re.compile(r"(?:rt: )?(\w+) is kept:")),
    ("tests", re.compile(r"(?:rt: )?(\w+): its tests are (?:proved|NOT PROVED)")),
    ("edits", re.compile(r"(?:rt: )?(\w+): trying its must-fail edits \((\d+)\)")),
)


def clock(seconds):
    return f"{int(seconds) // 60}:{int(seconds) % 60:02}"


def seconds_of(text):
    minutes, seconds = text.split(":")
    return 60 * int(minutes) + int(seconds)


def run_gate(names, keep):
    """The gate's lines with their times, and its status."""
    start, lines = time.monotonic(), []
    gate = subprocess.Popen(["rt", "ci", *names], cwd=ROOT, text=True, errors="replace",
                            stdout=subprocess.PIPE, stderr=subprocess.STDOUT)
    for line in gate.stdout:
        lines.append((time.monotonic() - start, line.rstrip("\n")))
        print(f"{clock(lines[-1][0]):>6}  {lines[-1][1]}", file=sys.stderr, flush=True)
    status = gate.wait()
    if keep:
        keep.write_text("".join(f"{clock(at):>6}  {line}\n" for at, line in lines))
    return lines, status


def read_log(path):
    """The lines of a log with their times."""
    lines = []
    for line in path.read_text().splitlines():
        found = re.match(r" *(\d+:\d\d)  (.*)", line)
        if found:
            lines.append((seconds_of(found[1]), found[2]))
    return lines


def events(lines):
    """What was said of each crate, and when, in the order of the first word on it."""
    crates = {}
    for at, line in lines:
        for kind, pattern in EVENTS:
            found = pattern.match(line)
            if found:
                crates.setdefault(found[1], {})[kind] = (at, *found.groups()[1:], "NOT PROVED" in line)
    return crates


def told(crate, kind):
    if kind not in crate:
        return ""
    at, *more, failed = crate[kind]
    return clock(at) + "".join(f" ({number})" for number in more) + (" failed" if failed else "")


def print_table(crates, lines):
    rows = [("crate", "proved", "its tests proved", "its edits begun")]
    for name, crate in crates.items():
        proved = "kept" if "kept" in crate else told(crate, "proof")
        rows.append((name, proved, told(crate, "tests"), told(crate, "edits")))
    widths = [max(len(row[i]) for row in rows) for i in range(4)]
    for row in rows:
        print("  ".join(cell.ljust(width) for cell, width in zip(row, widths)).rstrip())
    if lines:
        print(f"{clock(lines[-1][0])}: {lines[-1][1]}")


def main():
    words = argparse.ArgumentParser(description=__doc__.split("\n")[0])
    words.add_argument("names", nargs="*", metavar="NAME")
    words.add_argument("--log", type=Path)
    words.add_argument("--keep", type=Path)
    asked = words.parse_args()
    lines, status = (read_log(asked.log), 0) if asked.log else run_gate(asked.names, asked.keep)
    print_table(events(lines), lines)
    sys.exit(status)


if __name__ == "__main__":
    main()
