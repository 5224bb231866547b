#!/usr/bin/env python3
"""What parsing costs: time a byte, beside that of lexing alone, memory, and the time of texts that are made to be slow.

Run it as: python3 bench/parse.py [FILE ..]
FILES are scripts (three.js by default, of Debian's libjs-three). parse_run parses each file at both goals, so a parse takes
half of its time; tokens_run lexes the same text once. Times are the least processor time of several runs in turn.
"""
import os
import subprocess
import sys
import tempfile
from pathlib import Path

from programs import CRATES

RUNS = 7
THREE = "/usr/share/javascript/three/three.js"
NEST = 250

# A text by its nest: what is repeated before and behind, and what stands in the middle.
NESTS = {
    "parentheses": ("(", "a", ")"),
    "parentheses, wrong at the end": ("(", "a b", ")"),
    "arrays": ("[", "a", "]"),
    "arrays, wrong at the end": ("[", "a b", "]"),
    "objects": ("({a:", "b", "})"),
    "objects, wrong at the end": ("({a:", "b c", "})"),
    "assignments in parentheses": ("(a=", "b", ")"),
    "assignments in parentheses, wrong at the end": ("(a=", "b c", ")"),
    "assignments in brackets": ("[a=", "b", "]"),
    "arrows": ("(a)=>", "a", ""),
    "arrows in defaults": ("(a=", "b", ")=>a"),
    "arrows in defaults, wrong at the end": ("(a=", "b c", ")=>a"),
    "async calls": ("async(", "a", ")"),
    "async arrows in defaults": ("async(a=", "b", ")=>a"),
    "patterns": ("[", "a", "]=[]"),
    "object patterns": ("({a:", "b", "}={})"),
    "templates": ("`${", "a", "}`"),
    "classes in heads": ("(class extends ", "a", "{})"),
    "functions": ("(function(){", "a", "})"),
    "blocks": ("{", "a", "}"),
    "for heads": ("for(a of [", "b", "]);"),
    "new": ("new (", "a", ")"),
}


def spent(command, given=b""):
    """Processor seconds, peak KiB and output of one run."""
    with tempfile.TemporaryFile() as told, tempfile.TemporaryFile() as out:
        told.write(given)
        told.seek(0)
        child = subprocess.Popen([str(c) for c in command], stdin=told, stdout=out, cwd="/")
        _, status, used = os.wait4(child.pid, 0)
        out.seek(0)
        if status:
            sys.exit(f"{command} ended with {status}")
        return used.ru_utime + used.ru_stime, used.ru_maxrss, out.read()


def least(command, given=b"", runs=RUNS):
    return min((spent(command, given) for _ in range(runs)), key=lambda one: one[0])


def main():
    parse, lex = (CRATES / name / "out" / name for name in ("parse_run", "tokens_run"))
    for program in (parse, lex):
        if not program.exists():
            sys.exit(f"{program} is not built: rt ci parse_run tokens_run")
    base = least([parse])[0]
    lex_base = least([lex])[0]
    with tempfile.TemporaryDirectory() as top:
        top = Path(top)

        def both(name, text, runs=RUNS):
            path = top / "text.js"
            path.write_bytes(text)
            seconds, peak, told = least([parse], str(path)[1:].encode() + b"\n", runs)
            lexed = least([lex], text, runs)[0] - lex_base
            parsed = (seconds - base) / 2
            size = max(len(text), 1)
            print(f"{name}: {size} bytes, {parsed * 1e9 / size:.1f} ns a byte, {parsed / max(lexed, 1e-9):.2f} of lexing, "
                  f"peak {peak / 1024:.0f} MiB;{told.decode().split(':', 1)[1].rstrip()}")

        for name in sys.argv[1:] or [THREE]:
            text = Path(name).read_bytes()
            both(Path(name).name, text)
            both(Path(name).name + ", eight times", b";\n".join(b"{" + text + b"}" for _ in range(8)), 3)
        both("`a;`, 1 MiB", b"a;" * (1 << 19))
        for count in (10_000, 100_000, 1_000_000, 4_000_000):
            both(f"statements, {count} bytes", (b"var a = b(c, [d, e], { f: g }) + h.i;\n" * (count // 38)))
        for name, unit in (("operands", b"a+"), ("suffixes", b"a."), ("commas", b"a,"), ("parentheses of a target", None)):
            text = b"(" * 100_000 + b"a" + b")" * 100_000 + b"=1" if unit is None else unit * 100_000 + b"a"
            both(f"100,000 {name}", text)
        for name, (before, middle, behind) in NESTS.items():
            path = top / "nest.js"
            path.write_text(before * NEST + middle + behind * NEST)
            seconds, _, told = least([parse], str(path)[1:].encode() + b"\n", 1)
            print(f"{name}, {NEST} deep: {(seconds - base) * 500:.2f} ms a parse;{told.decode().split(':', 1)[1].rstrip()}")


main()
