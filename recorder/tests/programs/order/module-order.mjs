// Modules are evaluated depth first and once; CommonJS is required at once; import() comes later.
import { createRequire } from "node:module";
import "./module-parts/first.mjs";
import { second } from "./module-parts/second.mjs";

console.log("main", second);
const require = createRequire(import.meta.url);
const third = require("./module-parts/third.cjs");
const { exports } = require.cache[require.resolve("./module-parts/third.cjs")];
console.log(third, require("./module-parts/third.cjs") === exports);
const { default: again, name } = await import("./module-parts/third.cjs");
console.log(again.name, name);
console.log((await import("./module-parts/second.mjs")).second);
await import("./module-parts/missing.mjs").catch(({ code }) => console.log(code));
try {
  require("./module-parts/missing.cjs");
} catch ({ code }) {
  console.log(code);
}
