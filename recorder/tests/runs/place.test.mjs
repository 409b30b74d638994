// Where the code of a worker is that goes on without end.

import assert from "node:assert/strict";
import { existsSync, realpathSync, writeFileSync } from "node:fs";
import { join } from "node:path";
import { test } from "node:test";
import { setTimeout as sleep } from "node:timers/promises";
import { pathToFileURL } from "node:url";
import { Worker } from "node:worker_threads";
import { framesOf } from "../../lib/processes/place-of-thread.mjs";
import { soon, temporaryFolder } from "../helpers/common.mjs";
import { withShell } from "../helpers/needs.mjs";

/**
 * A worker that runs some code in a file of its own, and has begun. The code has to write the file `mark`.
 * @param {import("node:test").TestContext} context
 * @param {(mark: string) => string} code of an ES module
 */
async function workerOf(context, code) {
  const folder = realpathSync(temporaryFolder(context));
  const [file, mark] = ["worker.mjs", "mark"].map((name) => join(folder, name));
  writeFileSync(file, code(JSON.stringify(mark)));
  const worker = new Worker(pathToFileURL(file));
  context.after(() => worker.terminate());
  while (!existsSync(mark)) await sleep(10);
  return { worker, file: pathToFileURL(file).href, mark };
}

test("the frames of code that loops, whatever it has made of Error", async (context) => {
  const { worker, file } = await workerOf(context, (mark) => `import { writeFileSync } from "node:fs";
Error.stackTraceLimit = 0;
globalThis.Error = undefined;
const loop = () => {
  for (;;);
};
writeFileSync(${mark}, "");
[1].forEach(() => loop());
`);
  const frames = await framesOf(worker);
  const own = frames.filter((frame) => frame.file === file).map(({ line, column }) => `${line}:${column}`);
  assert.deepEqual(own, ["5:3", "8:19", "8:5"]);
  // It goes on, and is there again.
  assert.deepEqual(await framesOf(worker), frames);
});

test("a worker that answers too late isn't paused then, and can be ended", withShell, async (context) => {
  const { worker, mark } = await workerOf(context, (path) => `import { execSync } from "node:child_process";
import { writeFileSync } from "node:fs";
const mark = ${path};
execSync(\`touch '\${mark}'; while [ -e '\${mark}' ] && [ ! -e '\${mark}-go' ]; do sleep 0.05; done\`);
writeFileSync(\`\${mark}-gone\`, "");
for (;;);
`);
  assert.deepEqual(await framesOf(worker, 0.1), []);
  writeFileSync(`${mark}-go`, "");
  assert.ok(await soon(() => existsSync(`${mark}-gone`)));
  assert.equal(await worker.terminate(), 1);
});
