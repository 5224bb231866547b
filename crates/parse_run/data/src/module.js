import first, { second as third, default as fourth } from "./a.js";
import * as space from "./b.js" with { type: "json" };
export default class { }
export { first, third as last };
