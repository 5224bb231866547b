#!/usr/bin/env python3
"""Times tokens_run, which calls next_token until the end, against bench/plain_tokens.rs (rustc -O), over 4 MiB of code, in one run.

Prints the least processor time of each over 15 runs in turn, less that of an empty text, as MB/s, and the ratio.
Run it as: python3 bench/tokens.py
"""
import os
import subprocess
import sys
import tempfile
from pathlib import Path

SIZE = 4_194_304
RUNS = 15
TOP = Path(__file__).resolve().parent.parent

PIECE = """// module {k}: what the cart of a customer holds
import {{ reduce_{k} as reduce, Cart }} from "./lib/cart_{k}.js";

/*
 * Sums the items, each with its price in cents.
 */
export function total_{k}(items, {{ rate = 0.2{d}, currency: unit }} = {{}}) {{
  const found = items.filter((item) => item !== null && item.count > 0);
  let sum = found.reduce((so_far, item) => so_far + item.price * item.count, 0x{k:x});
  if (sum >= 1_000 && !/^[a-z/]+_{d}$/i.test(unit ?? "EUR")) {{
    sum -= Math.round(sum * rate) / 100;
  }}
  return `${{unit}} ${{sum}} for ${{items}} at {k}`;
}}

class Line{k} extends Cart {{
  #count = {k};
  static names = ['caf\\u00e9', "na\u00efve \\n", 'plain text of some length'];
  get count() {{ return this.#count ** 2 >>> 1; }}
  async *each(from, ...rest) {{
    for (let i = from; i < this.#count; i += 1.5e0) {{ yield await rest?.[i] ?? i; }}
  }}
}}

"""


def text():
    """4 MiB of code whose names and numbers vary."""
    pieces, size, k = [], 0, 0
    while True:
        piece = PIECE.format(k=k, d=k % 10).encode()
        if size + len(piece) > SIZE:
            return b"".join(pieces) + b" " * (SIZE - size)
        pieces.append(piece)
        size += len(piece)
        k += 1


def once(program, path):
    """Processor seconds of one run of a program over a file, and what it printed."""
    with tempfile.TemporaryFile() as out, open(path, "rb") as given:
        child = subprocess.Popen([program], stdin=given, stdout=out)
        _, status, used = os.wait4(child.pid, 0)
        out.seek(0)
        if status:
            sys.exit(f"{program} ended with {status}")
        return used.ru_utime + used.ru_stime, out.read()


def main():
    with tempfile.TemporaryDirectory() as top:
        top = Path(top)
        plain = top / "plain"
        subprocess.run(["rustc", "-O", "-o", plain, TOP / "bench/plain_tokens.rs"], check=True)
        programs = {"tokens_run": TOP / "crates/tokens_run/out/tokens_run", "plain": plain}
        whole, empty = top / "whole.js", top / "empty.js"
        whole.write_bytes(text())
        empty.write_bytes(b"")
        seconds = {name: [] for name in programs}
        base = {name: [] for name in programs}
        printed = {}
        for _ in range(RUNS):
            for name, program in programs.items():
                spent, printed[name] = once(program, whole)
                seconds[name].append(spent)
                base[name].append(once(program, empty)[0])
        if printed["tokens_run"] != printed["plain"]:
            sys.exit(f"the two programs counted differently: {printed}")
        least = {name: min(seconds[name]) - min(base[name]) for name in programs}
        for name in programs:
            print(f"{name}: {least[name] * 1000:.1f} ms, {SIZE / 1e6 / least[name]:.0f} MB/s")
        print(f"ratio {least['tokens_run'] / least['plain']:.2f}, tokens {printed['plain'].decode().strip()}")


main()
