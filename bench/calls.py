#!/usr/bin/env python3
"""Times `pack build` of one file of 4 MiB of calls against bench/plain_calls.rs (rustc -O), in one run.

Prints the least processor time of each over 21 runs in turn, their ratio, and the most memory that pack's own process
had in place at once over these runs (the peak of its resident set, with the pages of its file that it touched). The
system counts into a process's peak what the process that starts it has in place at that moment, so each program is
started by a small interpreter of its own, whose own peak is printed too: nothing below it can be told.
Run it as: python3 bench/calls.py
"""
import subprocess
import sys
import tempfile
from pathlib import Path

SIZE = 4_194_304
RUNS = 21
TOP = Path(__file__).resolve().parent.parent


def text():
    """4 MiB of calls whose names and arguments vary."""
    lines, size, k = [], 0, 0
    while True:
        line = f'name{k % 977}({k}, "text {k * 7 % 1009}", $v_{k % 13});\n'
        if size + len(line) > SIZE:
            return "".join(lines) + " " * (SIZE - size)
        lines.append(line)
        size += len(line)
        k += 1


# Starts the program that its words name, waits for that very process, and tells its status, processor seconds and KiB.
STARTER = """
import posix, sys
pid = posix.posix_spawn(sys.argv[1], sys.argv[1:], posix.environ)
_, status, used = posix.wait4(pid, 0)
print(status, used.ru_utime + used.ru_stime, used.ru_maxrss, file=sys.stderr)
"""


def once(words, folder):
    """Processor seconds and peak KiB of one run of a program in a folder, and what it printed."""
    starter = [sys.executable, "-I", "-S", "-c", STARTER, *map(str, words)]
    ended = subprocess.run(starter, cwd=folder, capture_output=True, check=True)
    status, seconds, peak = ended.stderr.split()[-3:]
    if int(status):
        sys.exit(f"{words} ended with {int(status)}")
    return float(seconds), int(peak), ended.stdout


def main():
    with tempfile.TemporaryDirectory() as top:
        top = Path(top)
        plain = top / "plain"
        subprocess.run(["rustc", "-O", "-o", plain, TOP / "bench/plain_calls.rs"], check=True)
        program = TOP / "crates/pack_program/out/pack_program"
        if not program.exists():
            subprocess.run([TOP / "bin/pack"], cwd=top, stdout=subprocess.DEVNULL)
        folders = {}
        for name in ("pack", "plain"):
            folders[name] = top / name.upper()
            (folders[name] / "src").mkdir(parents=True)
            (folders[name] / "src/index.js").write_text(text())
        words = {"pack": [program, "build"], "plain": [plain]}
        seconds = {"pack": [], "plain": []}
        memory, printed = 0, {}
        for _ in range(RUNS):
            for name in words:
                spent, peak, printed[name] = once(words[name], folders[name])
                seconds[name].append(spent)
                if name == "pack":
                    memory = max(memory, peak)
        bodies = [(folders[name] / "dist/main.js").read_bytes()[2764:] for name in words]
        if bodies[0] != bodies[1] or printed["pack"] != printed["plain"]:
            sys.exit("the two programs made different bundles")
        least = {name: min(seconds[name]) for name in words}
        print(f"pack {least['pack'] * 1000:.1f} ms, plain {least['plain'] * 1000:.1f} ms, ratio {least['pack'] / least['plain']:.2f}")
        _, least_told, _ = once(["/bin/true"], top)
        print(f"pack's process had at most {memory / 1024:.1f} MiB in place; less than {least_told / 1024:.1f} MiB can't be told")


main()
