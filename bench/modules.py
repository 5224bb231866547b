#!/usr/bin/env python3
"""Times `pack build` of graphs of 1,000 to 16,000 modules joined by bare imports: a chain, a star and a random graph.

Prints, for each shape and number of modules, the least processor time of 7 runs for each module, and how much more the
largest graph takes for each module than the smallest.
Run it as: python3 bench/modules.py
"""
import os
import random
import subprocess
import sys
import tempfile
from pathlib import Path

SIZES = [1_000, 2_000, 4_000, 8_000, 16_000]
RUNS = 7
TOP = Path(__file__).resolve().parent.parent


def chain(count):
    """Each module imports the next."""
    return [[place + 1] if place + 1 < count else [] for place in range(count)]


def star(count):
    """The entry imports all others."""
    return [list(range(1, count))] + [[] for _ in range(count - 1)]


def scattered(count):
    """Each module is imported by an earlier one, and imports two more of any number."""
    numbers = random.Random(count)
    edges = [[numbers.randrange(count), numbers.randrange(count)] for _ in range(count)]
    for place in range(1, count):
        edges[numbers.randrange(place)].append(place)
    return edges


def write(folder, edges):
    """A file for each module, in folders of a hundred. The entry is `src/index.js`."""
    def at(place):
        return "src/index.js" if place == 0 else f"src/lib{place // 100}/module{place}.js"

    for place, targets in enumerate(edges):
        path = folder / at(place)
        path.parent.mkdir(parents=True, exist_ok=True)
        up = "./" if place == 0 else "../"
        lines = [f'import "{up}{at(target)[4:]}";\n' for target in targets]
        path.write_text("".join(lines) + f'module{place}("{place}", {place});\n' * 8)


def seconds(program, folder):
    """Processor seconds of one run."""
    child = subprocess.Popen([program, "build"], cwd=folder, stdout=subprocess.PIPE)
    printed = child.stdout.read()
    _, status, used = os.wait4(child.pid, 0)
    if status:
        sys.exit(f"pack build ended with {status}: {printed.decode()}")
    return used.ru_utime + used.ru_stime, printed


def main():
    program = TOP / "crates/pack_program/out/pack_program"
    if not program.exists():
        subprocess.run([TOP / "bin/pack"], cwd=tempfile.gettempdir(), stdout=subprocess.DEVNULL)
    for name, edges_of in (("chain", chain), ("star", star), ("random", scattered)):
        each = []
        for count in SIZES:
            with tempfile.TemporaryDirectory() as folder:
                folder = Path(folder)
                write(folder, edges_of(count))
                runs = [seconds(program, folder) for _ in range(RUNS)]
                if f"built {count} modules 1 groups 1 files".encode() not in runs[0][1]:
                    sys.exit(f"{name} of {count}: {runs[0][1].decode()}")
                each.append(min(spent for spent, _ in runs) / count)
        shown = ", ".join(f"{count}: {spent * 1e6:.1f}" for count, spent in zip(SIZES, each))
        print(f"{name}: microseconds for each module {shown}; largest by smallest {each[-1] / each[0]:.2f}")


main()
