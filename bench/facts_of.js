// Facts of modules by acorn, in the lines that `facts_run` prints: what `bench/facts.py` compares.
// Usage: node facts_of.js < list of paths, a line each.
"use strict";
const fs = require("fs");
const acorn = require("acorn");

const LATEST = { ecmaVersion: "latest", locations: false, ranges: false };

// ---- scopes

class Scope {
  constructor(parent, isVar) {
    this.parent = parent;
    this.isVar = isVar;
    this.names = new Map();
    this.isTopClass = false;
  }
  declare(name, how) {
    if (!this.names.has(name)) this.names.set(name, how);
  }
  varScope() {
    let scope = this;
    while (!scope.isVar) scope = scope.parent;
    return scope;
  }
}

class Analysis {
  constructor(text, goal) {
    this.text = text;
    this.goal = goal;
    this.top = new Scope(null, true);
    this.scopes = [this.top];
    this.references = []; // {node, scope, parents}
    this.bound = []; // {node, scope, how, given}
    this.parents = new Map();
    this.topBindings = []; // {name, kind, place}
    this.imports = []; // {request node, name, place, local}
    this.exports = [];
    this.asks = []; // {place, text, form, json, declared}
    this.stars = [];
    this.refusals = [];
    this.assignedMembers = new Set();
  }

  open(parent, isVar) {
    const scope = new Scope(parent, isVar);
    this.scopes.push(scope);
    return scope;
  }

  // Declares the names that statements of a list declare in their own scope, and all `var`s beneath.
  bind(node, scope, how, given) {
    if (node === null) return;
    switch (node.type) {
      case "Identifier":
        this.bound.push({ node, scope, how, given });
        (how === "var" ? scope.varScope() : scope).declare(node.name, { how, node });
        break;
      case "ObjectPattern":
        for (const property of node.properties) {
          if (property.type === "RestElement") this.bind(property.argument, scope, how, given && "pattern");
          else {
            if (property.computed) this.visit(property.key, scope, property);
            this.bind(property.value, scope, how, given && "pattern");
          }
        }
        break;
      case "ArrayPattern":
        for (const item of node.elements) this.bind(item, scope, how, given && "pattern");
        break;
      case "AssignmentPattern":
        this.bind(node.left, scope, how, given);
        this.visit(node.right, scope, node);
        break;
      case "RestElement":
        this.bind(node.argument, scope, how, given);
        break;
      default:
        throw new Error("bind " + node.type);
    }
  }

  // A target of an assignment: names in it are assigned.
  assign(node, scope, how, parent) {
    if (node === null) return;
    switch (node.type) {
      case "Identifier":
        this.refer(node, scope, how, parent);
        break;
      case "ObjectPattern":
        for (const property of node.properties) {
          if (property.type === "RestElement") this.assign(property.argument, scope, how, property);
          else {
            if (property.computed) this.visit(property.key, scope, property);
            this.assign(property.value, scope, how, property);
          }
        }
        break;
      case "ArrayPattern":
        for (const item of node.elements) this.assign(item, scope, how, node);
        break;
      case "AssignmentPattern":
        this.assign(node.left, scope, how, node);
        this.visit(node.right, scope, node);
        break;
      case "RestElement":
        this.assign(node.argument, scope, how, node);
        break;
      case "ParenthesizedExpression":
        this.parents.set(node, parent);
        this.assign(node.expression, scope, how, node);
        break;
      default:
        if (node.type === "MemberExpression") this.assignedMembers.add(node);
        this.visit(node, scope, parent);
    }
  }

  refer(node, scope, how, parent) {
    this.parents.set(node, parent);
    this.references.push({ node, scope, how });
  }

  isOutsideFunctions(scope) {
    for (let s = scope; s !== null; s = s.parent) if (s.isFunction) return false;
    return true;
  }

  func(node, scope, isArrow) {
    const outer = scope;
    const params = this.open(outer, false);
    params.isFunction = true;
    if (!isArrow) params.declare("arguments", { how: "arguments", node });
    for (const param of node.params) this.bind(param, params, "parameter");
    if (node.body.type === "BlockStatement") {
      const body = this.open(params, true);
      this.list(node.body.body, body);
    } else {
      params.isVar = false;
      this.visit(node.body, params, node);
    }
  }

  klass(node, scope) {
    const inner = this.open(scope, false);
    if (node.id) {
      inner.declare(node.id.name, { how: "class", node: node.id });
      if (node.type === "ClassDeclaration" && scope === this.top) inner.isTopClass = true;
    }
    if (node.superClass) this.visit(node.superClass, inner, node);
    for (const item of node.body.body) {
      if (item.type === "StaticBlock") {
        const block = this.open(inner, true);
        this.list(item.body, block);
        continue;
      }
      if (item.computed) this.visit(item.key, inner, item);
      if (item.value) this.visit(item.value, inner, item);
    }
  }

  // Function declarations are declared where they stand; the order of first declarations is that of places, so names are
  // collected first in order.
  list(statements, scope) {
    for (const statement of statements) this.statement(statement, scope, null);
  }

  declaration(node, scope) {
    for (const one of node.declarations) {
      this.bind(one.id, scope, node.kind, one.init ? "init" : undefined);
      if (one.init) this.visit(one.init, scope, one);
    }
  }

  statement(node, scope) {
    switch (node.type) {
      case "VariableDeclaration":
        return this.declaration(node, scope);
      case "FunctionDeclaration":
        if (node.id) {
          this.bound.push({ node: node.id, scope, how: "function" });
          scope.declare(node.id.name, { how: "function", node: node.id });
        }
        return this.func(node, scope, false);
      case "ClassDeclaration":
        if (node.id) {
          this.bound.push({ node: node.id, scope, how: "class" });
          scope.declare(node.id.name, { how: "class", node: node.id });
        }
        return this.klass(node, scope);
      case "BlockStatement":
        return this.list(node.body, this.open(scope, false));
      case "ForStatement": {
        const head = this.open(scope, false);
        if (node.init) {
          if (node.init.type === "VariableDeclaration") this.declaration(node.init, head);
          else this.visit(node.init, head, node);
        }
        if (node.test) this.visit(node.test, head, node);
        if (node.update) this.visit(node.update, head, node);
        return this.statement(node.body, head);
      }
      case "ForInStatement":
      case "ForOfStatement": {
        const head = this.open(scope, false);
        if (node.await && this.isOutsideFunctions(head)) this.refuse("top-level await", this.wordAfter(node.start, "await"));
        if (node.left.type === "VariableDeclaration") {
          this.bind(node.left.declarations[0].id, head, node.left.kind, "each");
          if (node.left.declarations[0].init) this.visit(node.left.declarations[0].init, head, node);
        } else this.assign(node.left, head, "write", node);
        this.visit(node.right, head, node);
        return this.statement(node.body, head);
      }
      case "SwitchStatement": {
        this.visit(node.discriminant, scope, node);
        const inner = this.open(scope, false);
        for (const one of node.cases) {
          if (one.test) this.visit(one.test, inner, one);
          this.list(one.consequent, inner);
        }
        return;
      }
      case "TryStatement":
        this.statement(node.block, scope);
        if (node.handler) {
          const caught = this.open(scope, false);
          if (node.handler.param) this.bind(node.handler.param, caught, "catch");
          this.statement(node.handler.body, caught);
        }
        if (node.finalizer) this.statement(node.finalizer, scope);
        return;
      case "LabeledStatement":
        if (node.label.name.startsWith("__webpack_")) this.refuse("reserved name", node.label.start);
        return this.statement(node.body, scope);
      case "WithStatement":
        this.refuse("with", node.start);
        this.visit(node.object, scope, node);
        return this.statement(node.body, scope);
      case "IfStatement":
        this.visit(node.test, scope, node);
        this.statement(node.consequent, scope);
        if (node.alternate) this.statement(node.alternate, scope);
        return;
      case "WhileStatement":
        this.visit(node.test, scope, node);
        return this.statement(node.body, scope);
      case "DoWhileStatement":
        this.statement(node.body, scope);
        return this.visit(node.test, scope, node);
      case "ExpressionStatement":
        return this.visit(node.expression, scope, node);
      case "ReturnStatement":
      case "ThrowStatement":
        if (node.argument) this.visit(node.argument, scope, node);
        return;
      case "BreakStatement":
      case "ContinueStatement":
        if (node.label && node.label.name.startsWith("__webpack_")) this.refuse("reserved name", node.label.start);
        return;
      case "EmptyStatement":
      case "DebuggerStatement":
        return;
      case "ImportDeclaration":
        return this.importDeclaration(node);
      case "ExportNamedDeclaration":
        return this.exportNamed(node, scope);
      case "ExportDefaultDeclaration":
        return this.exportDefault(node, scope);
      case "ExportAllDeclaration":
        return this.exportAll(node);
      default:
        throw new Error("statement " + node.type);
    }
  }

  wordAfter(place, word) {
    return this.text.indexOf(word, place);
  }

  refuse(word, place) {
    this.refusals.push({ word, place });
  }

  ask(node, form, json, declared) {
    const at = node.start;
    this.asks.push({ place: at, text: node.value, form, json, declared });
  }

  attributes(node) {
    const pairs = node.attributes;
    const has = pairs !== undefined && pairs.length > 0;
    if (!has) return false;
    const one = pairs.length === 1 && (pairs[0].key.name === "type" || pairs[0].key.value === "type") && pairs[0].value.value === "json";
    if (!one) this.refuse("import attribute", this.wordAfter(node.source.end, "with"));
    return one;
  }

  importDeclaration(node) {
    const json = this.attributes(node);
    this.ask(node.source, "import", json, true);
    for (const one of node.specifiers) {
      this.bound.push({ node: one.local, scope: this.top, how: "import" });
      this.top.declare(one.local.name, { how: "import", node: one.local, entry: this.imports.length, space: one.type === "ImportNamespaceSpecifier" });
      const place = one.start;
      const name =
        one.type === "ImportDefaultSpecifier" ? "default" : one.type === "ImportNamespaceSpecifier" ? null : nameOf(one.imported);
      this.imports.push({ source: node.source, json, name, place, local: one.local });
    }
  }

  exportNamed(node, scope) {
    if (node.declaration) {
      const before = this.bound.length;
      this.statement(node.declaration, scope);
      for (const bound of this.bound.slice(before)) {
        const own = node.declaration.type === "VariableDeclaration" ? this.isOf(node.declaration, bound) : bound.node === node.declaration.id;
        if (own) this.exports.push({ name: bound.node.name, own: bound.node.name, place: bound.node.start });
      }
      return;
    }
    if (node.source) {
      const json = this.attributes(node);
      this.ask(node.source, "import", json, true);
      for (const one of node.specifiers) {
        const name = nameOf(one.exported);
        this.exports.push({ name, from: node.source, json, foreign: nameOf(one.local), place: one.start });
      }
      return;
    }
    for (const one of node.specifiers) {
      this.exports.push({ name: nameOf(one.exported), own: one.local.name, place: one.start });
      this.listed = this.listed || [];
      this.listed.push(one.local);
    }
  }

  // Whether a name is bound by this declaration itself, and not deeper within its values.
  isOf(declaration, bound) {
    const inPattern = (node) => {
      if (node === null) return false;
      switch (node.type) {
        case "Identifier":
          return node === bound.node;
        case "ObjectPattern":
          return node.properties.some((p) => inPattern(p.type === "RestElement" ? p.argument : p.value));
        case "ArrayPattern":
          return node.elements.some(inPattern);
        case "AssignmentPattern":
          return inPattern(node.left);
        case "RestElement":
          return inPattern(node.argument);
      }
      return false;
    };
    return declaration.declarations.some((one) => inPattern(one.id));
  }

  exportDefault(node, scope) {
    const place = this.wordAfter(node.start + 6, "default");
    const what = node.declaration;
    if (what.type === "FunctionDeclaration" || what.type === "ClassDeclaration") {
      if (what.id) {
        this.statement(what, scope);
        this.exports.push({ name: "default", own: what.id.name, place });
        return;
      }
      const kind = what.type === "FunctionDeclaration" ? "function" : "class";
      this.topBindings.push({ name: "__webpack_default", kind, place, end: place + 7 });
      this.exports.push({ name: "default", own: "__webpack_default", place });
      this.statement(what, scope);
      return;
    }
    this.topBindings.push({ name: "__webpack_default", kind: "const", place, end: place + 7 });
    this.exports.push({ name: "default", own: "__webpack_default", place });
    this.visit(what, scope, node);
  }

  exportAll(node) {
    const json = this.attributes(node);
    this.ask(node.source, "import", json, true);
    const place = this.wordAfter(node.start + 6, "*");
    if (node.exported) this.exports.push({ name: nameOf(node.exported), from: node.source, json, space: true, place });
    else this.stars.push({ source: node.source, json });
  }

  visit(node, scope, parent) {
    if (node === null || node === undefined) return;
    this.parents.set(node, parent);
    switch (node.type) {
      case "Identifier":
        return this.refer(node, scope, "read", parent);
      case "FunctionExpression": {
        const named = this.open(scope, false);
        if (node.id) {
          this.bound.push({ node: node.id, scope: named, how: "function" });
          named.declare(node.id.name, { how: "function", node: node.id });
        }
        return this.func(node, named, false);
      }
      case "ArrowFunctionExpression":
        return this.func(node, scope, true);
      case "ClassExpression": {
        const named = this.open(scope, false);
        if (node.id) {
          this.bound.push({ node: node.id, scope: named, how: "class" });
          named.declare(node.id.name, { how: "class", node: node.id });
        }
        return this.klass(node, named);
      }
      case "AssignmentExpression":
        this.assign(node.left, scope, node.operator === "=" ? "write" : "update", node);
        return this.visit(node.right, scope, node);
      case "UpdateExpression":
        return this.assign(node.argument, scope, "update", node);
      case "ObjectExpression":
        for (const property of node.properties) {
          if (property.type === "SpreadElement") this.visit(property.argument, scope, property);
          else {
            if (property.computed) this.visit(property.key, scope, property);
            this.visit(property.value, scope, property);
          }
        }
        return;
      case "MemberExpression":
        this.visit(node.object, scope, node);
        if (node.computed) this.visit(node.property, scope, node);
        return;
      case "ImportExpression": {
        const source = node.source;
        if (source.type === "Literal" && typeof source.value === "string" && !node.options) {
          this.asks.push({ place: node.start, text: source.value, form: "import", json: false, declared: false, call: node });
        } else this.refuse("computed import", node.start);
        this.visit(source, scope, node);
        if (node.options) this.visit(node.options, scope, node);
        return;
      }
      case "AwaitExpression":
        if (this.isOutsideFunctions(scope)) this.refuse("top-level await", node.start);
        return this.visit(node.argument, scope, node);
      case "MetaProperty":
        if (node.meta.name === "import") this.refuse("import.meta", node.start);
        return;
      default:
        for (const key of Object.keys(node)) {
          if (key === "type" || key === "start" || key === "end") continue;
          const value = node[key];
          if (Array.isArray(value)) {
            for (const item of value) if (item && typeof item.type === "string") this.visit(item, scope, node);
          } else if (value && typeof value.type === "string") this.visit(value, scope, node);
        }
    }
  }

  resolve(name, scope) {
    for (let s = scope; s !== null; s = s.parent) if (s.names.has(name)) return { scope: s, ...s.names.get(name) };
    return null;
  }
}

// ---- facts

function outward(analysis, node) {
  let inner = node;
  let outer = analysis.parents.get(node);
  while (outer && outer.type === "ParenthesizedExpression") {
    inner = outer;
    outer = analysis.parents.get(outer);
  }
  return { inner, outer };
}

function factsOf(text, goal, program) {
  const a = new Analysis(text, goal);
  a.list(program.body, a.top);
  const isModule = goal === "module";
  // free names, and what is refused of them
  const free = new Set();
  const sites = [];
  const own = new Map();
  const topKinds = ["var", "let", "const", "class", "function"];
  for (const [name, how] of a.top.names) {
    if (topKinds.includes(how.how)) a.topBindings.push({ name, kind: how.how, place: how.node.start });
  }
  a.topBindings.sort((x, y) => x.place - y.place);
  a.topBindings.forEach((binding, number) => own.set(binding.name, number));
  const requests = [];
  const numberOf = (text, form, json) => {
    let number = requests.findIndex((r) => r.text === text && r.form === form && r.json === json);
    if (number < 0) number = requests.push({ text, form, json }) - 1;
    return number;
  };
  for (const ref of a.references) {
    const found = a.resolve(ref.node.name, ref.scope);
    ref.found = found;
    const name = ref.node.name;
    const parent = a.parents.get(ref.node);
    if (found === null) {
      free.add(name);
      const { inner, outer } = outward(a, ref.node);
      const isCallee = outer && outer.type === "CallExpression" && outer.callee === inner && !outer.optional;
      if (name === "eval" && isCallee) a.refuse("eval", ref.node.start);
      const isTypeof = parent && parent.type === "UnaryExpression" && parent.operator === "typeof";
      if (name === "require") {
        const member = parent && parent.type === "MemberExpression" && parent.object === ref.node;
        if (isModule) {
          if (!isTypeof) a.refuse("require in a module", ref.node.start);
        } else if (member) a.refuse("require member", ref.node.start);
        else if (!isTypeof) {
          const call = parent && parent.type === "CallExpression" && parent.callee === ref.node && !parent.optional;
          const argument = call && parent.arguments.length === 1 ? parent.arguments[0] : null;
          if (argument && argument.type === "Literal" && typeof argument.value === "string") {
            a.asks.push({ place: ref.node.start, text: argument.value, form: "require", json: false, declared: false, call: parent });
          } else a.refuse("computed require", ref.node.start);
        }
      }
      if (name === "module" && parent && parent.type === "MemberExpression" && parent.object === ref.node && !parent.computed && !parent.optional && parent.property.name === "hot")
        a.refuse("module.hot", ref.node.start);
    }
    if (name.startsWith("__webpack_")) a.refuse("reserved name", ref.node.start);
  }
  for (const bound of a.bound) if (bound.node.name.startsWith("__webpack_")) a.refuse("reserved name", bound.node.start);
  for (const local of a.listed || []) if (local.name && local.name.startsWith("__webpack_")) a.refuse("reserved name", local.start);
  if (a.refusals.length > 0) {
    const least = Math.min(...a.refusals.map((r) => r.place));
    return { refused: a.refusals.filter((r) => r.place === least).map((r) => r.word), place: least };
  }
  a.asks.sort((x, y) => x.place - y.place);
  const order = [];
  for (const one of a.asks) {
    one.number = numberOf(one.text, one.form, one.json);
    if (one.declared && !order.includes(one.number)) order.push(one.number);
  }
  const requestOf = (source, json) => numberOf(source.value, "import", json);
  // sites
  const refOf = (found) => {
    if (found === null || found.scope !== a.top) return null;
    if (found.how === "import") {
      if (found.space) return { space: requestOf(a.imports[found.entry].source, a.imports[found.entry].json) };
      return { word: `import ${found.entry}` };
    }
    if (!topKinds.includes(found.how)) return null;
    return { word: `own ${own.get(found.node.name)}` };
  };
  if (isModule) {
    for (const bound of a.bound) {
      const found = a.resolve(bound.node.name, bound.scope);
      const ref = refOf(found);
      if (ref === null || ref.space !== undefined) continue;
      if (["let", "const", "class"].includes(bound.how)) {
        if (ref.word.startsWith("own ")) sites.push({ word: `init ${own.get(bound.node.name)}`, start: bound.node.start, end: bound.node.end, order: 0 });
      } else if (bound.how === "var" && bound.given) sites.push({ word: `write ${ref.word}`, start: bound.node.start, end: bound.node.end, order: 1 });
    }
    for (const binding of a.topBindings)
      if (binding.name === "__webpack_default" && binding.kind !== "function")
        sites.push({ word: `init ${own.get("__webpack_default")}`, start: binding.place, end: binding.end, order: 0 });
    for (const { node, found, how } of a.references) {
      const ref = refOf(found);
      if (ref === null) continue;
      if (ref.space !== undefined) {
        const parent = a.parents.get(node);
        if (parent && parent.type === "MemberExpression" && parent.object === node && !parent.computed && !parent.optional && parent.property.type === "Identifier") {
          const { outer } = outward(a, parent);
          const assigned = a.assignedMembers.has(parent);
          const deleted = outer && outer.type === "UnaryExpression" && outer.operator === "delete";
          if (!assigned && !deleted) {
            sites.push({ word: `member ${ref.space}.${parent.property.name}`, start: node.start, end: parent.property.end, order: 0 });
            continue;
          }
        }
        sites.push({ word: `space ${ref.space}`, start: node.start, end: node.end, order: 0 });
        continue;
      }
      if (how === "read" || how === "update") sites.push({ word: `read ${ref.word}`, start: node.start, end: node.end, order: 0 });
      if (how === "write" || how === "update") sites.push({ word: `write ${ref.word}`, start: node.start, end: node.end, order: 1 });
    }
  }
  for (const one of a.asks)
    if (one.call) sites.push({ word: `${one.form === "require" ? "require" : "call"} ${one.number}`, start: one.call.start, end: one.call.end, order: 0 });
  sites.sort((x, y) => x.start - y.start || x.order - y.order);
  // inner names
  const inner = new Set();
  for (const scope of a.scopes) {
    if (scope === a.top || scope.isTopClass) continue;
    for (const name of scope.names.keys()) inner.add(name);
  }
  let line = isModule ? " es" : " cjs";
  for (const r of requests) line += `; ${r.form}${r.json ? " json" : ""} "${bytes(r.text)}"`;
  if (order.length) line += `; order ${order.join(" ")}`;
  for (const entry of a.imports) line += `; import ${requestOf(entry.source, entry.json)}.${entry.name === null ? "*" : bytes(entry.name)} at ${entry.place}`;
  a.exports.sort((x, y) => x.place - y.place);
  for (const entry of a.exports) {
    let origin;
    if (entry.space) origin = `${requestOf(entry.from, entry.json)}.*`;
    else if (entry.from) origin = `${requestOf(entry.from, entry.json)}.${bytes(entry.foreign)}`;
    else {
      const how = a.top.names.get(entry.own);
      if (how && how.how === "import") {
        const imported = a.imports[how.entry];
        origin = `${requestOf(imported.source, imported.json)}.${imported.name === null ? "*" : bytes(imported.name)}`;
      } else origin = `own ${own.get(entry.own)}`;
    }
    line += `; export ${bytes(entry.name)} ${origin} at ${entry.place}`;
  }
  if (a.stars.length) line += `; stars ${a.stars.map((s) => requestOf(s.source, s.json)).join(" ")}`;
  for (const binding of a.topBindings) line += `; ${binding.kind} ${bytes(binding.name)}`;
  for (const site of sites) line += `; ${site.word} at ${site.start}-${site.end}`;
  const listed = (word, names) => {
    const sorted = [...names].map((n) => Buffer.from(n)).sort(Buffer.compare);
    if (sorted.length) line += `; ${word} ${sorted.map((n) => n.toString("latin1")).join(" ")}`;
  };
  listed("free", free);
  listed("inner", inner);
  return { line };
}

// The name of a specifier; the profile has none that are written as strings.
function nameOf(node) {
  if (node.type !== "Identifier") throw new SyntaxError("a name written as a string");
  return node.name;
}

function bytes(text) {
  return Buffer.from(text).toString("latin1");
}

// ---- files

function parsed(text, sourceType) {
  return acorn.parse(text, { ...LATEST, sourceType, preserveParens: true, allowHashBang: true, allowReturnOutsideFunction: false, allowAwaitOutsideFunction: sourceType === "module" });
}

function early(error) {
  if (/already been declared/.test(error.message)) return ` declared twice at ${error.pos}`;
  if (/Duplicate export/.test(error.message)) return ` exported twice at ${error.pos}`;
  if (/^Export .* is not defined/.test(error.message)) return ` exports undeclared at ${error.pos}`;
  return null;
}

function lineOf(name, raw) {
  if (name.endsWith(".json")) {
    try {
      JSON.parse(raw.toString("utf8").replace(/^\ufeff/, ""));
      return " json";
    } catch (_) {
      return " bad JSON";
    }
  }
  // Places are bytes, so characters beyond ASCII are one byte each here.
  const text = raw.toString("latin1");
  const goals = name.endsWith(".mjs") ? ["module"] : name.endsWith(".cjs") ? ["script"] : ["script", "module"];
  let fault = " syntax";
  for (const goal of goals) {
    try {
      const facts = factsOf(text, goal, parsed(text, goal));
      if (facts.refused) return ` ${facts.refused.join("|")} at ${facts.place}`;
      return facts.line;
    } catch (error) {
      if (!(error instanceof SyntaxError)) throw error;
      fault = early(error) ?? " syntax";
      if (fault !== " syntax") return fault;
    }
  }
  return fault;
}

for (const name of fs.readFileSync(0, "utf8").split("\n")) {
  if (name === "") continue;
  if (name.startsWith("= ")) {
    const at = name.indexOf(" ", 2);
    const text = name.slice(at + 1).replace(/\\(.)/g, (_, c) => (c === "n" ? "\n" : c));
    console.log(`${name.slice(2, at)}:${lineOf(name.slice(2, at), Buffer.from(text))}`);
  } else console.log(`${name}:${lineOf(name, fs.readFileSync(name))}`);
}
