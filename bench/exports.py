#!/usr/bin/env python3
"""Times what exported names stand for, by the program exports_run: through chains of 1,000 to 16,000 stars, in modules that
have as many as 10,000 stars, and in modules that export 1,000 to 10,000 names of as many others.

Each graph is read with many questions, with as many that the last module answers by itself, and without any. Prints, for each
shape and size, from the least processor times of 5 runs, what the first take above the second, and how much more the largest
takes than the smallest: for stars, for each module or star that a question goes through; for names, for each question, and
also what it takes in all, above none; without a resolver that is kept, for each name of the module. The shape of all names
asks another module each time and shows what caches hold: it grows with the graph, though each question takes the same steps.
What reading the graph takes for each module is printed too, the start of the program included.
Run it as: python3 bench/exports.py
"""
import random
import sys

from programs import Program

CHAINS = [1_000, 2_000, 4_000, 8_000, 16_000]
BARRELS = [1_000, 2_000, 5_000, 10_000]
RUNS = 5


def chain(count):
    """Each module has a star of the next, and the last has the name."""
    rows = [f"E *{place + 1}" for place in range(count - 1)] + ["E x"]
    return rows, ["0.x"], [f"binding 0 of {count - 1}"]


def last_name(count):
    """The first module exports a name of each other one, and the last of them is asked."""
    rows = ["E " + " ".join(f"a{place:05}={place}.x" for place in range(1, count + 1))] + ["E x"] * count
    return rows, [f"0.a{count:05}"], [f"binding 0 of {count}"]


def stars(count):
    """The first module has a star of each other one, and the last of them has the name."""
    rows = ["E " + " ".join(f"*{place}" for place in range(1, count + 1))] + ["E y"] * (count - 1) + ["E x"]
    return rows, ["0.x"], [f"binding 0 of {count}"]


def last_name_alone(count):
    """The same without a resolver that is kept from one question to the next."""
    rows, questions, found = last_name(count)
    return rows, [question.replace(".", ":") for question in questions], found


def all_names(count):
    """The modules of `last_name`, but each of the names is asked, again and again in an order without a pattern."""
    rows, _, _ = last_name(count)
    places = list(range(1, count + 1))
    random.Random(count).shuffle(places)
    return rows, [f"0.a{place:05}" for place in places], [f"binding 0 of {place}" for place in places]


def measured(shape, sizes, asked, goes_through):
    """What asking takes above a question to the last module, what it takes in all, and what reading takes, in nanoseconds."""
    runs, wanted, parts = {}, {}, {}
    for count in sizes:
        rows, questions, found = shape(count)
        through = count if goes_through else 1
        rounds = max(1, asked // through // len(questions))
        parts[count] = rounds * len(questions) * through
        wanted[count] = "".join(f"{question} is {one}\n" for question, one in zip(questions, found)) * rounds
        near = f"{len(rows) - 1}{questions[0][1]}x"
        for key, asking in (("far", questions * rounds), ("near", [near] * (len(questions) * rounds)), ("none", [])):
            runs[count, key] = " ".join(asking) + "\n" + "\n".join(rows) + "\n"
    seconds, printed = Program("exports_run").least(runs, RUNS)
    for count in sizes:
        if printed[count, "far"] != wanted[count]:
            sys.exit(f"a wrong answer in {shape.__name__} of {count}: {printed[count, 'far'][:80]}")

    def above(base):
        return [(seconds[count, "far"] - seconds[count, base]) / parts[count] * 1e9 for count in sizes]

    return above("near"), above("none"), [seconds[count, "none"] / count * 1e9 for count in sizes]


def main():
    for title, shape, sizes, asked, part in (
        ("a chain of stars", chain, CHAINS, 4_000_000, "module"),
        ("the last of a module's stars", stars, BARRELS, 4_000_000, "star"),
        ("the last of a module's names", last_name, BARRELS, 500_000, None),
        ("all of a module's names", all_names, BARRELS, 500_000, None),
        ("the last of a module's names alone", last_name_alone, BARRELS, 4_000_000, "name"),
    ):
        near, whole, reading = measured(shape, sizes, asked, part is not None)
        lines = [("asking", part or "question", near), ("reading", "module", reading)]
        if part is None:
            lines.insert(1, ("asking in all", "question", whole))
        for what, each, values in lines:
            shown = ", ".join(f"{count}: {value:.1f}" for count, value in zip(sizes, values))
            print(f"{title}, {what}: nanoseconds for each {each} {shown}; largest by smallest {values[-1] / values[0]:.2f}")


main()
