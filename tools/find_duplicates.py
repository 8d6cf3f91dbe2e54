#!/usr/bin/env python3
"""Lists what is written twice in the code, the definitions and the proofs, by the command `duplicates`.

    tools/find_duplicates.py                 all of crates/
    tools/find_duplicates.py --specs         the definitions and proofs alone
    tools/find_duplicates.py --code          the code alone
    tools/find_duplicates.py --most 40 ..    further words are those of `duplicates`

The command does not read the endings .rt and .antt: the files are copied into a temporary folder under endings that
it reads, and named in its answer as they stand here. A row is a place to look, and no verdict. The gate does not run this.
"""
import re
import shutil
import subprocess
import sys
import tempfile
from pathlib import Path

ROOT = Path(__file__).resolve().parent.parent
ENDINGS = {".rt": ".rs", ".antt": ".hs"}


def copy_files(to, endings):
    """Copies the files of these endings, of which git knows, and says how many there are."""
    listed = subprocess.run(["git", "ls-files", "-co", "--exclude-standard", "crates"], cwd=ROOT, text=True,
                            capture_output=True, check=True).stdout.split("\n")
    files = [Path(name) for name in listed if Path(name).suffix in endings and (ROOT / name).is_file()]
    for name in files:
        copied = to / name.with_suffix(ENDINGS[name.suffix])
        copied.parent.mkdir(parents=True, exist_ok=True)
        shutil.copyfile(ROOT / name, copied)
    return len(files)


def named_here(text):
    """The answer with the endings that the files have here."""
    for ending, read in ENDINGS.items():
        text = re.sub(rf"(crates/[\w/+.-]*?){re.escape(read)}\b", rf"\1{ending}", text)
    return text


def main():
    if not shutil.which("duplicates"):
        sys.exit("the command `duplicates` is not on the PATH")
    words, endings = sys.argv[1:], set(ENDINGS)
    for option, ending in (("--specs", ".antt"), ("--code", ".rt")):
        if option in words:
            words.remove(option)
            endings = {ending}
    if "--help" in words:
        sys.exit(__doc__.strip())
    with tempfile.TemporaryDirectory() as folder:
        print(f"files: {copy_files(Path(folder), endings)}")
        run = subprocess.run(["duplicates", "--seconds", "120", "--repo", folder, *words], text=True, capture_output=True)
        print(named_here(run.stdout + run.stderr), end="")


if __name__ == "__main__":
    main()
