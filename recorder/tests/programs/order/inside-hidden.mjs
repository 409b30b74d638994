// Nobody finds the modules of node's inside.
import { builtinModules, createRequire, isBuiltin } from "node:module";

const require = createRequire(import.meta.url);
const firstLine = ({ code, message }) => `${code} ${message.split("\n")[0].replace(/ imported from .*/, "")}`;
for (const id of ["internal/util", "node:internal/util", "node:internal/test/binding", "node:nothing"]) {
  console.log(id, isBuiltin(id), process.getBuiltinModule?.(id));
  for (const act of [() => require(id), () => require.resolve(id), () => import(id)]) {
    try {
      await act();
      console.log("never");
    } catch (error) {
      console.log(firstLine(error));
    }
  }
}
console.log(builtinModules.some((id) => id.startsWith("internal/")), isBuiltin("fs"), isBuiltin("node:test"));
console.log(typeof require("node:fs").readFileSync, typeof (await import("node:test")).test);
