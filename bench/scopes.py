#!/usr/bin/env python3
"""What scopes and facts cost beside the parse that they stand on, and beside esbuild's whole parse, on real and on bad texts.

Run it as: python3 bench/scopes.py [FOLDER ..]
FOLDERS are Debian's lodash-es, d3, rxjs, core-js, moment and three by default. Times are the least processor time of several runs
in turn. `parse_run` parses each file at both goals, and `facts_run` a script once and a module at both, so the files are told
apart by what `parse_run` says of them: a parse is half of its time on scripts, and all of it on modules. What `facts_run` takes
besides are scopes and facts, and their printing. esbuild's time is its scan on one processor, which reads, parses and binds.
"""
import os
import re
import subprocess
import sys
import tempfile
from pathlib import Path

from programs import CRATES

RUNS = 5
FOLDERS = [
    "/usr/share/nodejs/lodash-es",
    "/usr/share/nodejs/d3-array",
    "/usr/share/nodejs/d3-scale",
    "/usr/share/nodejs/d3-geo",
    "/usr/share/nodejs/rxjs",
    "/usr/share/nodejs/core-js",
    "/usr/share/nodejs/moment",
    "/usr/share/javascript/three",
]
PARSE, FACTS = (CRATES / name / "out" / name for name in ("parse_run", "facts_run"))


def spent(program, given, folder):
    """Processor seconds and output of one run of a program in a folder."""
    with tempfile.TemporaryFile() as told, tempfile.TemporaryFile() as out:
        told.write(given)
        told.seek(0)
        child = subprocess.Popen([program], stdin=told, stdout=out, cwd=folder)
        _, status, used = os.wait4(child.pid, 0)
        out.seek(0)
        if status:
            sys.exit(f"{program} ended with {status}")
        return used.ru_utime + used.ru_stime, out.read().decode("utf8", "replace")


def least(given, folder, runs=RUNS):
    """The least seconds of the parser and of facts on a list of paths, and what facts_run printed last."""
    parses, facts, told = [], [], ""
    for _ in range(runs):
        parses.append(spent(PARSE, given, folder)[0])
        seconds, told = spent(FACTS, given, folder)
        facts.append(seconds)
    return min(parses), min(facts), told


def esbuild(paths, runs=RUNS):
    """The least seconds of esbuild's scan of these files on one processor."""
    best = None
    with tempfile.TemporaryDirectory() as top:
        command = ["esbuild", "--timing", "--log-limit=0", "--bundle=false", f"--outdir={top}", *map(str, paths)]
        for _ in range(runs):
            run = subprocess.run(command, capture_output=True, env={**os.environ, "GOMAXPROCS": "1"}, text=True)
            found = re.search(r"Scan phase: (\d+)ms", run.stderr)
            if found:
                best = min(int(found[1]) / 1000, best if best is not None else 1e9)
    return best


def show(name, size, parse, facts, other=None):
    beside = f", {(parse + facts) / other:.2f} of esbuild's {other * 1e9 / size:.1f}" if other else ""
    print(
        f"{name}: {size} bytes; parse {parse * 1e9 / size:.1f} ns a byte, scopes and facts {facts * 1e9 / size:.1f}, "
        f"{facts / parse:.2f} of the parse{beside}"
    )


def real(folder, base):
    """Shows the scripts and the modules of a folder."""
    paths = sorted(p for p in Path(folder).rglob("*.js") if p.is_file())
    given = "".join(f"{p.relative_to(folder)}\n" for p in paths).encode()
    kinds = {"scripts": [], "modules": []}
    for path, line in zip(paths, spent(PARSE, given, folder)[1].splitlines(), strict=True):
        script, module = line.rsplit(":", 1)[1].split(";")[:2]
        if "tokens" in script:
            kinds["scripts"].append(path)
        elif "tokens" in module:
            kinds["modules"].append(path)
    for kind, some in kinds.items():
        size = sum(p.stat().st_size for p in some)
        if size < 20_000:
            continue
        given = "".join(f"{p.relative_to(folder)}\n" for p in some).encode()
        parse, facts, _ = least(given, folder)
        parse = (parse - base[0]) / (2 if kind == "scripts" else 1)
        show(f"{Path(folder).name}, {len(some)} {kind}", size, parse, facts - base[1] - parse, esbuild(some))


def in_shadow(count):
    """Scopes that each declare the name that those around them declare, 200 in one another, until there are so many."""
    one = "{let a=a;" * 200 + "}" * 200
    return one * (count // 200)


BAD = {
    "100,000 `var` of one name": lambda n: "var a;" * n,
    "100,000 `var` in a block": lambda n: "{" + "var a;" * n + "}",
    "100,000 `var` of names of their own": lambda n: "".join(f"var a{k};" for k in range(n)),
    "100,000 references to one name": lambda n: "var a;" + "a;" * n,
    "200,000 references to free names": lambda n: "".join(f"a{k};" for k in range(2 * n)),
    "10,000 scopes in one another's shadow": lambda n: in_shadow(n // 10),
    "100,000 functions of one name": lambda n: "function f(){}" * n,
    "100,000 blocks with one name": lambda n: "{let a;a}" * n,
    "100,000 names used 200 blocks deep": lambda n: "var a;" + "{" * 200 + "a;" * n + "}" * 200,
    "100,000 `var` 200 blocks deep": lambda n: "{" * 200 + "var a;" * n + "}" * 200,
    "100,000 exports": lambda n: "".join(f"export let a{k};" for k in range(n)),
    "100,000 exports in one list": lambda n: "let a;export{" + ",".join(f"a as b{k}" for k in range(n)) + "}",
    "100,000 imports of one request": lambda n: "".join(f'import{{a as b{k}}}from"x";' for k in range(n)),
    "100,000 requests": lambda n: "".join(f'import"x{k}";' for k in range(n)),
    "100,000 uses of an import": lambda n: 'import{a}from"x";' + "a();" * n,
    "100,000 members of a namespace": lambda n: 'import*as a from"x";' + "a.b;" * n,
    "100,000 `require`": lambda n: 'require("x");' * n,
    "100,000 writes": lambda n: "let a;" + "a+=1;" * n,
    "100,000 names of a pattern": lambda n: "let[" + ",".join(f"a{k}" for k in range(n)) + "]=[];",
}


def bad(base):
    """Shows texts that are made to be slow, at the size of their names and at a quarter of it."""
    with tempfile.TemporaryDirectory() as top:
        for name, text in BAD.items():
            flat = []
            for count in (25_000, 100_000):
                path = Path(top) / "text.mjs"
                path.write_text(text(count))
                parse, facts, told = least(b"text.mjs\n", top, 2)
                size = path.stat().st_size
                flat.append((facts - base[1]) * 1e9 / size)
            print(f"{name}: {flat[0]:.0f} and {flat[1]:.0f} ns a byte; {told.split(':', 1)[1].strip()[:40]}")


def main():
    for program in (PARSE, FACTS):
        if not program.exists():
            sys.exit(f"{program} is not built: rt ci parse_run facts_run")
    base = least(b"", "/")[:2]
    for folder in sys.argv[1:] or FOLDERS:
        real(folder, base)
    bad(base)


main()
