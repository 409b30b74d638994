// The parts of a whole program's thread together: what a program prints is what node itself prints, and each run takes
// the same steps.

import assert from "node:assert/strict";
import { test } from "node:test";
import { fileURLToPath, pathToFileURL } from "node:url";
import { GRAPH_FLAGS } from "../../lib/program/node/graph-flags.cjs";
import { jsonOf, nodeThere } from "../helpers/common.mjs";
import { programOf } from "../helpers/whole-programs.mjs";

const PROCESS = fileURLToPath(new URL("../helpers/parts-process.mjs", import.meta.url));

const PROGRAM = `
  import { readFile } from "fs/promises"; import fs from "node:fs";
  import { setTimeout as wait } from "timers/promises";
  import { createHash, pbkdf2 } from "crypto"; import { promisify } from "util";
  import { once, EventEmitter } from "events";
  import { Readable } from "stream"; import { pipeline } from "stream/promises"; import { gzip, gunzip } from "zlib";
  import { AsyncLocalStorage } from "async_hooks";
  const out = new URL("out", import.meta.url);
  console.log((await readFile(new URL(import.meta.url), "utf8")).length);
  await wait(20); console.log("waited"); console.log((await import("./late.mjs")).late);
  console.log((await promisify(pbkdf2)("a",
    "b", 1, 8, "sha1")).toString("hex"), createHash("sha1").update("x").digest("hex"));
  const emitter = new EventEmitter(); setImmediate(() => emitter.emit("go", 1)); console.log(await once(emitter, "go"));
  await pipeline(Readable.from(["a", "b"]), fs.createWriteStream(out)); console.log(fs.readFileSync(out, "utf8"));
  const handle = await fs.promises.open(out); for await (const line of handle.readLines()) console.log("line", line);
  console.log((await promisify(gunzip)(await promisify(gzip)("packed"))).toString());
  await new AsyncLocalStorage().run(5, async () => { await wait(1); });
  const timer = setTimeout(() => console.log("never"), 5); clearTimeout(Number(timer));
  AbortSignal.timeout(3); setTimeout(console.log, 30, "end");`;

const REFUSED = `
  import { fork } from "cluster"; import { takeCoverage } from "v8"; import fs from "fs";
  import { register } from "module";
  for (const act of [() => fork(), () => takeCoverage("x"), () => new PerformanceObserver(() => {}),
    () => fs.watch("."),
    () => register("x"),
    () => fs.openAsBlob("x"), () => process.chdir("/")]) try { act();
    } catch (error) { console.log(error.message); }`;

async function runsOf(file) {
  return jsonOf(await nodeThere(["--no-warnings", ...GRAPH_FLAGS, PROCESS, pathToFileURL(file).href, "3"]));
}

test("a program with files, timers, promises and streams goes as in node, and repeats", async (context) => {
  const late = `export const late = await new Promise((done) => setTimeout(done, 10, "late"));`;
  const file = programOf(context, { "main.mjs": PROGRAM, "late.mjs": late });
  const { stdout } = await nodeThere(["--no-warnings", file]);
  const runs = await runsOf(file);
  assert.deepEqual(`${runs[0].lines.join("\n")}\n`, stdout);
  assert.equal(runs[0].lines.at(-1), "end");
  for (const run of runs) assert.deepEqual(run, runs[0]);
});

test("functions that aren't simulated are refused by name in ES modules, too", async (context) => {
  const file = programOf(context, { "main.mjs": REFUSED });
  const names = ["cluster.fork", "v8.takeCoverage", "PerformanceObserver", "fs.watch", "module.register",
    "fs.openAsBlob", "process.chdir"];
  for (const { lines } of await runsOf(file)) assert.deepEqual(lines, names.map((name) => `refused: ${name}`));
});
