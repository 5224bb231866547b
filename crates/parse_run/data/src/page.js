// A page's script.
var list = [1, , ...others], { a, b: [c = 2] = [], ...rest } = given;
function* each(first, { second } = {}, ...more) {
  for (const x of list) yield x ** 2
  for (var i = 0; i < 3; i++) label: { continue }
  try { throw new Error(`no ${first}`) } catch { } finally { list?.[0]?.() }
}
class Shape extends Object { static #count = 0; static { this.x = 1 } get area() { return 0 } async *walk() { await 0 } }
(a, [b] = [1]) => a ?? b
async (x) => { ({ a, b: c.d = 1 } = x); [e] = x; (f) += 1; ++g.h }
