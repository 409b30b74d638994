// A test of SpiderMonkey's, or one of test262 as SpiderMonkey has it, behind the files that its folders put before it.

import { existsSync, readFileSync } from "node:fs";
import { fileURLToPath } from "node:url";
import { FETCHED } from "../folder.mjs";
import { run, shell } from "./shell.mjs";

const ROOT = new URL("firefox/js/src/", FETCHED);
const name = process.argv[2];
const isJit = name.startsWith("jit-test/");

const folders = name.split("/").slice(0, -1).map((_, index, all) => all.slice(0, index + 1).join("/"));
const before = isJit ? ["jit-test/lib/prologue.js"] : folders.map((folder) => `${folder}/shell.js`);
const read = (path) => readFileSync(new URL(path, ROOT), "utf8");
const first = before.filter((path) => existsSync(new URL(path, ROOT))).map(read).join("\n");
// Scripts of functions' scope: what a test looks for among the globals has to be put there.
const prefix = `${first}\nif (typeof $DONE === "function") globalThis.$DONE = $DONE;\n`;
const scope = shell();
if (!isJit) {
  process.once("exit", () => {
    if (!scope.passes) throw new Error("the test says nowhere that it has passed");
  });
}
run(scope, prefix + read(name), fileURLToPath(new URL(name, ROOT)), 1 - prefix.split("\n").length);
