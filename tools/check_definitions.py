#!/usr/bin/env python3
"""Looks up each definition that docs/DEFINITIONS.md names, in the file that it names.

A section's heading has the folder, as (crates/NAME/specs); an entry ends with `name`, `name` (File), `name` (File).
Nothing but Python is needed; the gate does not run this.
"""
import re
import sys
from pathlib import Path

ROOT = Path(__file__).resolve().parent.parent


def defined(path):
    """The names that a file of specs defines."""
    return set(re.findall(r"^(?:abbrev |unfoldable )?pub (?:record |data )?(\w+)", path.read_text(), re.MULTILINE))


def faults(text):
    folder = None
    if "\n- " not in text:
        yield "no entry was found"
    for line in text.splitlines():
        heading = re.match(r"## .*\((crates/\w+/specs)", line)
        if heading:
            folder = ROOT / heading[1]
        elif line.startswith("- "):
            entry = line.rpartition(" — ")[2]
            groups = re.findall(r"((?:`\w+`, )*`\w+`) \((\w+)\)", entry)
            if not groups:
                yield f"no definition is named: {line[:60]}"
            for names, module in groups:
                path = folder / f"{module}.antt"
                known = defined(path) if path.exists() else set()
                yield from (f"{path.relative_to(ROOT)}: no `{name}`"
                            for name in re.findall(r"\w+", names) if name not in known)


def main():
    found = list(faults((ROOT / "docs" / "DEFINITIONS.md").read_text()))
    print("\n".join(found) if found else "each definition is there")
    sys.exit(1 if found else 0)


if __name__ == "__main__":
    main()
