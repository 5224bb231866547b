#!/usr/bin/env python3
"""Bundles Debian's JavaScript packages, runs each bundle in node with a stub of a page, and compares what it reports with node's own
run of the same sources.

usage: bench/packages.py [PACKAGE ..]        needs: nodejs and the packages below (apt-get install, see NEEDS)

A package is copied with what it depends on beneath `node_modules` of a new folder, whose entry imports (or requires) it, tells the
shape of what it exports, and reports what some calls give. `pack build` makes the bundle there. A line for each package: the lines
of the build, its time, and whether both runs report the same.
"""
import json, os, shutil, subprocess, sys, tempfile, time

TOP = os.path.dirname(os.path.dirname(os.path.abspath(__file__)))
PACK = os.environ.get("PACK", f"{TOP}/bin/pack")
PAGE = f"{TOP}/bench/page.cjs"
PLACES = ["/usr/share/nodejs", "/usr/lib/nodejs", "/usr/share/javascript"]
NEEDS = """nodejs node-lodash-es node-lodash node-d3 node-rxjs libjs-three node-core-js node-moment node-acorn node-react node-uuid
node-semver node-yaml node-immutable node-underscore node-bluebird node-async node-qs node-nanoid node-ms node-deepmerge node-minimist
node-marked node-preact node-redux node-ramda node-classnames node-object-assign node-clone node-eventemitter3 node-inherits
node-escape-string-regexp node-fast-deep-equal node-js-yaml"""

# the name, how it is asked for, and calls whose values are reported; `p` is what is asked for
PACKAGES = [
    ("lodash-es", "import", ["p.chunk([1, 2, 3, 4, 5], 2)", "p.camelCase('Foo Bar')", "p.groupBy([6.1, 4.2, 6.3], Math.floor)"]),
    ("lodash", "require", ["p.chunk([1, 2, 3, 4, 5], 2)", "p.template('a <%= b %>')({ b: 1 })", "p.merge({ a: { b: 1 } }, { a: { c: 2 } })"]),
    ("d3-array", "import", ["p.extent([3, 1, 2])", "p.bin()([1, 2, 3, 8]).length", "p.ticks(0, 10, 4)"]),
    ("d3-scale", "import", ["p.scaleLinear().domain([0, 4]).range([0, 100])(3)", "p.scaleLog().ticks(3)"]),
    ("d3-shape", "import", ["p.line()([[0, 0], [1, 2]])", "p.pie()([1, 2]).length"]),
    ("d3", "import", ["p.sum([1, 2, 3])", "p.csvParse('a,b\\n1,2').length"]),
    ("three", "/usr/share/javascript/three/three.module.js", ["new p.Vector3(1, 2, 3).length()", "new p.BoxGeometry(1, 1, 1).attributes.position.count"]),
    ("rxjs", "import", ["(() => { const seen = []; p.of(1, 2, 3).pipe(p.map((x) => x * 2)).subscribe((x) => seen.push(x)); return seen; })()"]),
    ("core-js", "require", ["Array.from(new Set([1, 1, 2])).length"]),
    ("moment", "require", ["p.utc('2020-02-03T04:05:06Z').add(1, 'month').format()", "p.duration(90, 'minutes').humanize()"]),
    ("acorn", "require", ["p.parse('let x = 1', { ecmaVersion: 2020 }).body.length"]),
    ("react", "require", ["p.createElement('a', { b: 1 }, 'c').props"]),
    ("uuid", "require", ["p.validate('not one')", "p.v5('a', p.v5.DNS)"]),
    ("semver", "require", ["p.satisfies('1.2.3', '^1.0.0')", "p.inc('1.2.3', 'minor')"]),
    ("yaml", "require", ["p.parse('a: [1, 2]')", "p.stringify({ a: 1 })"]),
    ("immutable", "require", ["p.List([1, 2]).push(3).toJS()"]),
    ("underscore", "require", ["p.uniq([1, 1, 2])"]),
    ("bluebird", "require", ["typeof p.resolve(1).then"]),
    ("async", "require", ["Object.keys(p).length"]),
    ("qs", "require", ["p.parse('a[b]=1&c=2')", "p.stringify({ a: [1, 2] })"]),
    ("ms", "require", ["p('2 days')", "p(60000)"]),
    ("deepmerge", "require", ["p({ a: { b: 1 } }, { a: { c: 2 } })"]),
    ("minimist", "require", ["p(['-a', '1', 'b'])"]),
    ("marked", "require", ["p.parse ? p.parse('# a') : p('# a')"]),
    ("preact", "require", ["p.h('a', { b: 1 }).props"]),
    ("redux", "require", ["p.createStore((s = 1) => s).getState()"]),
    ("ramda", "require", ["p.map(p.inc, [1, 2])", "p.pipe(p.add(1), p.multiply(2))(3)"]),
    ("classnames", "require", ["p('a', { b: true, c: false })"]),
    ("object-assign", "require", ["p({}, { a: 1 })"]),
    ("clone", "require", ["p({ a: [1] })"]),
    ("eventemitter3", "require", ["(() => { const e = new p(); let n = 0; e.on('a', () => n++); e.emit('a'); return n; })()"]),
    ("inherits", "require", ["typeof p"]),
    ("escape-string-regexp", "require", ["typeof p === 'function' ? p('a.b') : Object.keys(p)"]),
    ("fast-deep-equal", "require", ["p({ a: 1 }, { a: 1 })"]),
    ("js-yaml", "require", ["p.load('a: 1')"]),
]


def found(name):
    for place in PLACES:
        if os.path.isdir(f"{place}/{name}"):
            return f"{place}/{name}"
    return None


def copy(name, modules, done):
    """Copies a package and what it depends on."""
    if name in done:
        return
    done.add(name)
    place = found(name)
    if place is None:
        return
    shutil.copytree(place, f"{modules}/{name}", ignore=lambda folder, names: [n for n in names if n.endswith((".map", ".d.ts"))],
                    ignore_dangling_symlinks=True)
    manifest = f"{place}/package.json"
    if os.path.exists(manifest):
        said = json.load(open(manifest))
        for other in {**said.get("dependencies", {}), **said.get("peerDependencies", {})}:
            copy(other, modules, done)


def entry_of(form, name, calls):
    told = "".join(f"report({call});\n" for call in calls)
    if form == "require":
        return "cjs", f'const p = require("{name}");\nreport(shape(p));\n{told}'
    return "mjs", f'import * as p from "{name}";\nreport(shape(p));\n{told}'


def output_of(words, folder):
    run = subprocess.run(words, cwd=folder, capture_output=True, text=True, timeout=300)
    return run.returncode, run.stdout, run.stderr


def main():
    wanted = sys.argv[1:]
    same = built = tried = 0
    for name, form, calls in PACKAGES:
        if wanted and name not in wanted:
            continue
        tried += 1
        with tempfile.TemporaryDirectory() as folder:
            os.makedirs(f"{folder}/src")
            os.makedirs(f"{folder}/node_modules")
            asked, how = name, form
            if form.startswith("/"):
                if not os.path.exists(form):
                    print(f"{name}: not installed")
                    continue
                shutil.copy(form, f"{folder}/src/{name}.mjs")
                asked, how = f"./{name}.mjs", "import"
            elif found(name) is None:
                print(f"{name}: not installed")
                continue
            else:
                copy(name, f"{folder}/node_modules", set())
            end, text = entry_of(how, asked, calls)
            open(f"{folder}/src/index.{end}", "w").write(text)
            open(f"{folder}/pack.json", "w").write(json.dumps({"entry": f"./src/index.{end}"}))
            begun = time.perf_counter()
            status, lines, _ = output_of([PACK, "build"], folder)
            took = time.perf_counter() - begun
            last = lines.strip().split("\n")[-1]
            if status != 0:
                print(f"{name}: {last} ({took:.2f} s)")
                continue
            built += 1
            own = output_of(["node", "-r", PAGE, f"src/index.{end}"], folder)
            page = output_of(["node", PAGE, f"{folder}/dist", "main"], folder)
            equal = own[:2] == page[:2]
            same += equal
            print(f"{name}: {last} ({took:.2f} s): {'the same' if equal else 'ANOTHER REPORT'}")
            if not equal:
                for which, (status, out, err) in (("sources", own), ("bundle", page)):
                    print(f"    {which}: status {status}, {out[:300]!r} {err.strip().splitlines()[-6:]}")
    print(f"{tried} packages, {built} built, {same} report the same")


main()
