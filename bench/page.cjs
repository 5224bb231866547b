// A stub of a page for the scripts of a bundle: `document` loads scripts from a folder, and `report` prints a line.
//
// `node -r ./page.cjs FILE` runs sources with the same globals; `node page.cjs DIST ENTRY` runs the bundle in DIST from
// `ENTRY.js` on.
"use strict";
const fs = require("fs");
const path = require("path");
const vm = require("vm");

const folder = require.main === module ? process.argv[2] : null;

const run = (src) => {
  const file = path.join(folder, path.basename(src));
  document.currentScript = { src };
  vm.runInThisContext(fs.readFileSync(file, "utf8"), { filename: file });
  document.currentScript = null;
};

globalThis.document = {
  currentScript: null,
  createElement: () => ({}),
  head: {
    appendChild(script) {
      setImmediate(() => {
        try {
          run(script.src);
        } catch (error) {
          if (error.code !== "ENOENT") throw error;
          script.onerror(error);
        }
      });
    },
  },
};

// What a value is: of an object or a function the names of its properties with what they are.
const shape = (value, depth) => {
  if (value === null) return "null";
  if (typeof value !== "object" && typeof value !== "function") return `${typeof value} ${String(value)}`;
  const word = typeof value === "function" ? `function/${value.length}` : "object";
  if (depth === 0) return word;
  const names = Object.keys(value).sort();
  return `${word} {${names.map((name) => `${name}: ${shape(value[name], depth - 1)}`).join(", ")}}`;
};

globalThis.shape = (value) => shape(value, 1);
globalThis.report = (value) => console.log(typeof value === "string" ? value : JSON.stringify(value));

if (folder !== null) run(`https://page/${process.argv[3]}.js`);
