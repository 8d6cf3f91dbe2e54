#!/usr/bin/env python3
"""Times the proved program on inputs that are made here, and prints a table.

    bin/chomp homcubes examples/ring.txt     builds the program where it is missing
    bench/run.py                             all inputs, some minutes
    bench/run.py --quick                     small inputs alone, under half a minute
    bench/run.py --only WORD                 the lines whose names have this word
    bench/run.py --program FILE              another program than that of this repository
    bench/run.py --markdown                  the rows of docs/PERFORMANCE.md

Each line has the number of cells (generators of a chain file, members of a set that is printed), the least processor time of three
runs and the peak memory, in all and for each cell, and for sets how many times longer the run is than that of floor.c, which
only parses the files and counts their cubes: that can be compared between machines. Answers are compared with what is known
of the input. Nothing but Python is needed, and `cc` for the last column; the gate does not run this.
"""
import argparse
import os
import random
import shutil
import subprocess
import sys
import tempfile
from concurrent.futures import ProcessPoolExecutor
from itertools import product
from pathlib import Path
from typing import Callable, NamedTuple, Optional

ROOT = Path(__file__).resolve().parent.parent


# ---- inputs: each maker answers a text and the number of its cells

def set_text(cubes):
    return "\n".join("(" + " ".join(map(str, cube)) + ")" for cube in cubes) + "\n"


def squares_with_holes(n):
    """A board of 2n + 1 by 2n + 1 squares without those that are odd in both coordinates."""
    side = range(2 * n + 1)
    return set_text((x, y) for x in side for y in side if x % 2 == 0 or y % 2 == 0), 15 * n * n + 24 * n + 9


def dust(n):
    """Squares that do not touch each other."""
    return set_text((2 * x, 2 * y) for x in range(n) for y in range(n)), 9 * n * n


def curve(n):
    """A band of squares that goes to and fro n times: rows of 2n squares, each joined to the next at one end."""
    rows = [(x, 2 * y) for y in range(n) for x in range(2 * n)]
    joints = [(0 if y % 2 else 2 * n - 1, 2 * y + 1) for y in range(n - 1)]
    # A row has 3 (4n + 1) cells; a joint adds itself and two edges.
    return set_text(rows + joints), 3 * n * (4 * n + 1) + 3 * (n - 1)


def sponge(level):
    """Menger's sponge: of the 27 parts of a cube those that are in the middle along at most one axis, again and again."""
    parts = [part for part in product(range(3), repeat=3) if part.count(1) < 2]
    cubes = [(0, 0, 0)]
    for _ in range(level):
        cubes = [tuple(3 * x + d for x, d in zip(cube, part)) for cube in cubes for part in parts]
    side = 2 * 3**level + 1
    corners = [(2 * x * side + 2 * y) * side + 2 * z for x, y, z in cubes]
    steps = [(a * side + b) * side + c for a, b, c in product(range(3), repeat=3)]
    return set_text(cubes), len({corner + step for corner in corners for step in steps})


def border(n):
    """The outermost squares of the board with holes."""
    side = range(2 * n + 1)
    return set_text((x, y) for x in side for y in side if x in (0, 2 * n) or y in (0, 2 * n)), None


def shuffled(cubes):
    random.Random(5).shuffle(cubes)
    return cubes


# The same set told in another way, or moved.
CHANGES = {
    "plain": lambda cubes: cubes,
    "mirrored": lambda cubes: [(-cube[0], *cube[1:]) for cube in reversed(cubes)],
    "transposed": lambda cubes: [cube[::-1] for cube in cubes],
    "shuffled": shuffled,
    "shifted": lambda cubes: [tuple(x + 123_456_789 for x in cube) for cube in cubes],
}


def random_cubes(dimension, side, share, seed, change="plain"):
    """Each cube of a block is taken with this share. A cell is, along each axis, an end or the interval between."""
    chance = random.Random(seed)
    cubes = [cube for cube in product(range(side), repeat=dimension) if chance.random() < share]
    cells = {cell for cube in cubes for cell in product(*((2 * x, 2 * x + 1, 2 * x + 2) for x in cube))}
    return set_text(CHANGES[change](cubes)), len(cells)


def board(side, first=0):
    """Squares from `first` on along the first axis."""
    return set_text((first + x, y) for x in range(side) for y in range(side)), None


def circle(n):
    """A chain complex of n points and n edges, from each point to the next."""
    edges = "\n".join(f"# {i} = 1 * {i % n + 1} + -1 * {i}" for i in range(1, n + 1))
    return f"chain complex max dimension 1\ndimension 0: {n}\ndimension 1: {n}\n{edges}\n", 2 * n


def long_boundary(n, seed):
    """A chain complex of n points and one generator whose boundary names all of them, in random order."""
    chance = random.Random(seed)
    points = list(range(1, n + 1))
    chance.shuffle(points)
    terms = " + ".join(f"{chance.randint(1, 46)} * {point}" for point in points)
    return f"chain complex max dimension 1\ndimension 0: {n}\ndimension 1: 1\n# 1 = {terms}\n", n + 1


# ---- what is run

class Case(NamedTuple):
    name: str
    words: str
    inputs: dict[str, tuple]
    dimensions: Optional[list[int]] = None
    members: Optional[int] = None


def holes(n, options="", name="squares with holes"):
    return Case(f"{name}, N = {n}", f"homcubes X {options}", {"X": (squares_with_holes, n)}, dimensions=[1, n * n, 0])


def sets(quick, modulus):
    """What the times of a cell are aimed at."""
    options = f"--mod {modulus}"
    sizes = (40, 100) if quick else (40, 100, 300, 527)
    yield from (holes(n, options, f"modulo {modulus}: holes") for n in sizes)
    yield Case(f"modulo {modulus}: random squares, 300 by 300, 3/5", f"homcubes X {options}",
               {"X": (random_cubes, 2, 300, 0.6, 1)})
    yield Case(f"modulo {modulus}: a curve", f"homcubes X {options}", {"X": (curve, 100 if quick else 300)},
               dimensions=[1, 0, 0])
    pieces = 100 if quick else 400
    yield Case(f"modulo {modulus}: dust", f"homcubes X {options}", {"X": (dust, pieces)}, dimensions=[pieces**2, 0, 0])
    yield Case(f"modulo {modulus}: random cubes, 30 by 30 by 30, 1/2", f"homcubes X {options}",
               {"X": (random_cubes, 3, 30, 0.5, 2)})
    yield Case(f"modulo {modulus}: a sponge", f"homcubes X {options}", {"X": (sponge, 2 if quick else 4)})
    yield Case(f"modulo {modulus}: dimension 4, side 10, 2/5", f"homcubes X {options}", {"X": (random_cubes, 4, 10, 0.4, 4)})
    n = 100 if quick else 300
    # The border goes once round all holes, so relative to it one class of degree 1 is gone, and the piece.
    yield Case(f"modulo {modulus}: a pair: holes, N = {n}, and border", f"homcubes X A {options}",
               {"X": (squares_with_holes, n), "A": (border, n)}, dimensions=[0, n * n - 1, 0])


def cases(quick):
    size = 8 if quick else 1
    side, half, full = 1000 // size, 724 // size, 1024 // size
    points = 2**19 // size**2
    yield from sets(quick, 3)
    yield from sets(quick, 47)
    yield from (holes(n, "--cycles", "with cycles: holes") for n in (100, 527) if n < 200 or not quick)
    for change in CHANGES:
        yield Case(f"random squares, {change}", "homcubes X", {"X": (random_cubes, 2, 300, 0.6, 1, change)})
    yield Case("chain file: a circle", "homchain C", {"C": (circle, points)}, dimensions=[1, 1])
    yield Case("chain file: a circle, cycles", "homchain C --mod 47 --cycles", {"C": (circle, points)}, dimensions=[1, 1])
    yield Case("chain file: a long boundary", "homchain C --mod 47", {"C": (long_boundary, 2 * points - 2, 3)},
               dimensions=[2 * points - 3, 0])
    yield Case(f"union of two boards, {half} by {half}", "cubunion X Y", {"X": (board, half), "Y": (board, half, half)},
               members=2 * half * half)
    yield Case(f"intersection of two, {full} by {full}", "cubinter X Y", {"X": (board, full), "Y": (board, full, full // 2)},
               members=full * full // 2)
    yield Case(f"neighbourhood, {side} by {side}", "cubnbhd X", {"X": (board, side)}, members=(side + 2) ** 2)
    yield Case(f"cells of a board, {side // 2} by {side // 2}", "cubcells X", {"X": (board, side // 2)},
               members=(side // 2 * 2 + 1) ** 2)


# ---- runs

def timed(program, words, folder):
    """Processor time in seconds, peak memory in bytes, and the file with what was printed. The program has one thread."""
    out = folder / "out"
    with open(out, "wb") as sink:
        child = os.posix_spawn(program, [str(program), *words], os.environ,
                               file_actions=[(os.POSIX_SPAWN_DUP2, sink.fileno(), 1)])
        _, status, usage = os.wait4(child, 0)
    if status != 0:
        sys.exit(f"{' '.join(words)}: ended with wait status {status}")
    return usage.ru_utime + usage.ru_stime, usage.ru_maxrss * 1024, out


# What was printed is read line by line: the peak memory of a child is told as at least that of its parent.

def dimensions(path):
    """The dimensions that the group lines of a report give."""
    with open(path) as lines:
        groups = [line.strip().split(" = ")[1] for line in lines if line.startswith("H_")]
    return [0 if group == "0" else int(group.partition("^")[2] or 1) for group in groups]


def members(path):
    """How many lines a printed set has behind its first."""
    with open(path) as lines:
        return sum(1 for _ in lines) - 1


def compare(case, path):
    if case.dimensions is not None and dimensions(path) != case.dimensions:
        sys.exit(f"{case.name}: {dimensions(path)} was printed, {case.dimensions} is right")
    if case.members is not None and members(path) != case.members:
        sys.exit(f"{case.name}: {members(path)} members were printed, {case.members} is right")


def write_input(path, maker: Callable, *arguments):
    text, cells = maker(*arguments)
    path.write_text(text)
    return cells


PLAIN = "{:48} {:>9} {:>8.2f} s {:>7.0f} ns {:>7.0f} MiB {:>6.0f} B {:>6}"
MARKDOWN = "| {} | {:,} | {:.2f} s | {:.0f} ns | {:.0f} MiB | {:.0f} B | {} |"


def built_floor(folder):
    """The plain reader, where there is a C compiler."""
    compiler, floor = shutil.which("cc"), folder / "floor"
    if compiler is None:
        return None
    subprocess.run([compiler, "-O2", "-o", floor, ROOT / "bench" / "floor.c"], check=True)
    return floor


def times_floor(floor, case, paths, taken, folder):
    """How many times longer than the plain reader, of a file of full cubes."""
    if floor is None or not case.words.startswith("homcubes"):
        return "-"
    least = min(timed(floor, [str(path) for path in paths.values()], folder)[0] for _ in range(3))
    return f"{taken / max(least, 0.001):.1f}"


def measure(program, floor, case, makers, folder):
    """The name, the number of cells, the time, that of a cell in nanoseconds, the memory in MiB and that of a cell in bytes,
    and the times of the plain reader."""
    paths = {operand: folder / operand for operand in case.inputs}
    counts = [makers.submit(write_input, paths[operand], *made).result() for operand, made in case.inputs.items()]
    words = [str(paths.get(word, word)) for word in case.words.split()]
    runs = [timed(program, words, folder) for _ in range(3)]
    compare(case, runs[0][2])
    cells = case.members or counts[0]
    taken, memory = min(run[0] for run in runs), min(run[1] for run in runs)
    ratio = times_floor(floor, case, paths, taken, folder)
    return case.name, cells, taken, taken / cells * 1e9, memory / 2**20, memory / cells, ratio


def main():
    parser = argparse.ArgumentParser(description=__doc__.splitlines()[0])
    parser.add_argument("--quick", action="store_true", help="small inputs alone")
    parser.add_argument("--only", default="", metavar="WORD", help="the lines whose names have this word")
    parser.add_argument("--markdown", action="store_true", help="rows of a table in a document")
    parser.add_argument("--program", type=Path, default=ROOT / "crates" / "chomp" / "out" / "chomp")
    options = parser.parse_args()
    if not options.program.exists():
        sys.exit("no program yet: run `bin/chomp homcubes examples/ring.txt` first")
    if not options.markdown:
        print(f"{'input':48} {'cells':>9} {'time':>10} {'a cell':>10} {'memory':>11} {'a cell':>8} {'floor':>6}")
    # Inputs are made in a process of their own: the peak memory of a child is told as at least that of its parent.
    with tempfile.TemporaryDirectory() as folder, ProcessPoolExecutor(max_workers=1) as makers:
        floor = built_floor(Path(folder))
        for case in cases(options.quick):
            if options.only in case.name:
                row = measure(options.program.resolve(), floor, case, makers, Path(folder))
                print((MARKDOWN if options.markdown else PLAIN).format(*row), flush=True)


if __name__ == "__main__":
    main()
