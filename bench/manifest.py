#!/usr/bin/env python3
"""Times look-ups in large manifests by the program package_run, in one run, and prints how the time grows.

Run it as: python3 bench/manifest.py
"""
import sys

from programs import Program

SIZE = 4_194_304
KEYS = (25_000, 50_000, 100_000)
LOOKUPS = 200
RUNS = 7


def least(runs):
    """The least seconds of runs of package_run on each of these lists of lines, and what each printed."""
    return Program("package_run").least({name: "\n".join(lines) + "\n" for name, lines in runs.items()}, RUNS)


def exports(count, size):
    """A manifest of that size with that many keys, every second one a pattern."""
    names = (f"k{number:06}{'/*' if number % 2 else '/f'}" for number in range(count))
    members = (f'"./{name}":"./{name[1:]}{"x" * (size // count - 2 * len(name) - 9)}"' for name in names)
    text = '{"exports":{' + ",".join(members) + "}}"
    return text + " " * (size - len(text))


def doubled(title, seconds):
    """Prints times at doubling sizes, and how much longer each takes than the one before."""
    names = list(seconds)
    steps = [seconds[b] / seconds[a] for a, b in zip(names, names[1:])]
    times = ", ".join(f"{name}: {seconds[name] * 1000:.1f} ms" for name in names)
    print(f"{title}: {times}; each doubling takes {', '.join(f'{step:.2f}' for step in steps)} times as long")


def look_ups():
    """Look-ups at growing counts of keys: what they take above the reading of the manifest."""
    runs, questions = {}, {}
    for count in KEYS:
        first = "manifest\t" + exports(count, SIZE * count // KEYS[-1])
        middle = count // 2
        asked = [f"./k{middle + step:06}/{'abc' if step % 2 else 'f'}" for step in range(LOOKUPS)]
        questions[count] = asked
        runs[count, 0] = [first]
        runs[count, 1] = [first] + [f"exports\timport\t{key}" for key in asked]
    seconds, printed = least(runs)
    each = {}
    for count in KEYS:
        answers = printed[count, 1].splitlines()
        if len(answers) != LOOKUPS or any(not line.startswith("file ./0") for line in answers):
            sys.exit(f"wrong answers at {count} keys: {answers[:3]}")
        each[count] = (seconds[count, 1] - seconds[count, 0]) / LOOKUPS / count
        whole = (seconds[count, 1] - seconds[count, 0]) / LOOKUPS
        print(f"{count} keys: {whole * 1e6:.0f} us a look-up, {each[count] * 1e9:.2f} ns a key; the manifest is read in {seconds[count, 0] * 1000:.1f} ms")
    ratio = max(each.values()) / min(each.values())
    print(f"time a key, greatest by least: {ratio:.2f}")
    return ratio


def long_parts():
    """A `*` that stands for 1, 2 and 4 MiB."""
    first = 'manifest\t{"exports":{"./*":"./a/*.js"}}'
    runs = {f"{size} MiB": [first, "exports\timport\t./" + "x" * (size << 20)] for size in (1, 2, 4)}
    seconds, printed = least(runs)
    for size in (1, 2, 4):
        if printed[f"{size} MiB"] != "file ./a/" + "x" * (size << 20) + ".js\n":
            sys.exit("a wrong answer with a long part")
    doubled("a part of a key", seconds)


def deep_paths():
    """`sideEffects` with `**` against deep paths, and long patterns that fit nearly everywhere in them."""
    first = 'manifest\t{"sideEffects":["**/a/**/b/**/c/**/d.js"]}'
    depths = [1 << 17, 1 << 18, 1 << 19]
    runs = {f"{depth} segments": [first, "flagged\t" + "a/b/" * (depth // 2) + "x.js"] for depth in depths}
    seconds, printed = least(runs)
    if set(printed.values()) != {"flagged\n"}:
        sys.exit("a wrong answer with a deep path")
    doubled("one pattern, paths of growing depth", seconds)
    runs = {}
    for size in (256, 512, 1024):
        pattern = "**/" + "a/" * size + "b.js"
        path = "a/" * (16 * size) + "c.js"
        runs[f"{size} by {16 * size} segments"] = ['manifest\t{"sideEffects":"' + pattern + '"}', "flagged\t" + path]
    seconds, printed = least(runs)
    if set(printed.values()) != {"flagged\n"}:
        sys.exit("a wrong answer with a long pattern")
    doubled("pattern and path both growing, so their product by 4", seconds)


def main():
    ratio = look_ups()
    long_parts()
    deep_paths()
    if ratio > 1.5:
        sys.exit("the time a key grows with the keys")


main()
