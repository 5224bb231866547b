#!/usr/bin/env python3
"""Facts of real files: where `facts_run` and acorn differ, and what scopes and facts cost beside the parse and beside esbuild.

Run it as: python3 bench/facts.py [FOLDER ..]
FOLDERS are under /usr/share/nodejs or /usr/share/javascript (Debian's lodash-es, d3, rxjs, three, core-js and moment by
default). Each file is told as `.js`, so it is a script where it parses as one. `bench/facts_of.js` makes the same lines by
acorn with scopes of its own. A fault that both find may be told by other words where acorn stops at the parse.
"""
import os
import subprocess
import sys
from pathlib import Path

from programs import CRATES

FOLDERS = [
    "/usr/share/nodejs/lodash-es",
    "/usr/share/nodejs/d3-array",
    "/usr/share/nodejs/d3-scale",
    "/usr/share/nodejs/rxjs",
    "/usr/share/nodejs/core-js",
    "/usr/share/nodejs/moment",
    "/usr/share/javascript/three",
]
SHOWN = 12


def files_of(folder):
    """The scripts and modules beneath a folder, by path."""
    return sorted(p for e in ("*.js", "*.mjs", "*.cjs", "*.json") for p in Path(folder).rglob(e) if p.is_file())


def told(command, paths, folder):
    """What a program tells of each path, a line each."""
    given = "".join(f"{p.relative_to(folder)}\n" for p in paths)
    environment = {**os.environ, "NODE_PATH": "/usr/share/nodejs"}
    run = subprocess.run(command, input=given.encode(), capture_output=True, cwd=folder, env=environment)
    if run.returncode:
        sys.exit(f"{command} ended with {run.returncode}: {run.stderr.decode()[-400:]}")
    return run.stdout.decode("utf8").splitlines()


def same(ours, theirs):
    """Whether two lines say the same; of several refusals at one place any will do."""
    if ours == theirs:
        return True
    at = ours.rfind(" at ")
    if at < 0 or "|" not in theirs or not theirs.endswith(ours[at:]):
        return False
    start = ours.find(":") + 2
    return ours[start:at] in theirs[theirs.find(":") + 2 : theirs.rfind(" at ")].split("|")


def main():
    program = CRATES / "facts_run" / "out" / "facts_run"
    oracle = ["node", str(Path(__file__).with_name("facts_of.js"))]
    count = differ = 0
    for folder in sys.argv[1:] or FOLDERS:
        paths = files_of(folder)
        for ours, theirs in zip(told([str(program)], paths, folder), told(oracle, paths, folder), strict=True):
            count += 1
            if not same(ours, theirs):
                differ += 1
                if differ <= SHOWN:
                    print(f"{folder}\n  facts_run {ours[:600]}\n  acorn     {theirs[:600]}")
    print(f"{count} files, {differ} differ")


if __name__ == "__main__":
    main()
