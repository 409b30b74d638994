// Modules without a semicolon that may be left out, and on the fewest lines, are learned and searched as in their own
// form.

import assert from "node:assert/strict";
import { readFileSync } from "node:fs";
import { join } from "node:path";
import { test } from "node:test";
import { fileURLToPath, pathToFileURL } from "node:url";
import { formsOf, inAllForms } from "../../bench/same-forms.mjs";
import { fileIn, temporaryFolder } from "../helpers/common.mjs";

const MODULES = [
  "examples/mutex-naive.agents.mjs", "examples/late-notify.agents.mjs", "examples/ring.agents.mjs",
  "bench/programs/queue-publishes-first.mjs", "bench/programs/seqlock-even.mjs", "bench/pieces/audio-queue.mjs",
  "bench/pieces/mailbox-message.mjs", "bench/pieces/vyukov-queue.mjs", "tests/known/seqlock-atomic.mjs",
  "tests/known/stack-aba.mjs",
];
const BASE = new URL("../../", import.meta.url);
const RESULTS = inAllForms(MODULES.map((path) => new URL(path, BASE).href));

for (const [at, path] of MODULES.entries()) {
  test(`${path} is learned in other forms as in its own`, async () => {
    const { own, differs } = (await RESULTS)[at];
    assert.equal(own.problem, undefined);
    assert.ok(own.merged.isClosed && own.merged.edges > 1);
    assert.deepEqual(differs, []);
  });
}

const TEXT = `#!/usr/bin/env node
import { a } from "./other.mjs"; // the first; of all
export const b = [1]; b[0] = a();
let c = \`;
\`; [c] = [b]; (c); +c; ++b.c; /x;/.test(";"); ;
class D { static; get; x; [c] = 1; *m() { return; } in = 2; y = () => { b; }; }
if (a) b(); else c();
for (let i = 0; i < 2; i++); for (const d of b) d;
do c(); while (a); switch (a) { case 1: b(); c(); break; default: }
export default function () { return b; } // the end
`;

test("a semicolon stays only where the next line would go on with the statement", async () => {
  const folder = temporaryFolder();
  fileIn(folder, "other.mjs", "export const a = () => 1;\n");
  const url = pathToFileURL(fileIn(folder, "one.mjs", TEXT)).href;
  const forms = await formsOf(join(folder, "forms"), [url], folder);
  const [bare, short] = Object.values(forms).map(([one]) => readFileSync(fileURLToPath(one), "utf8"));
  assert.equal(bare.trimStart(), `import { a } from "./other.mjs" // the first; of all
export const b = [1]
 b[0] = a()
let c = \`;
\`; [c] = [b]; (c); +c
 ++b.c; /x;/.test(";"); ;
class D { static; get; x; [c] = 1; *m() { return } in = 2
 y = () => { b } }
if (a) b()
 else c()
for (let i = 0; i < 2; i++); for (const d of b) d
do c()
 while (a)
 switch (a) { case 1: b()
 c()
 break
 default: }
export default function () { return b } // the end
`);
  assert.equal(short, `import { a } from "./other.mjs"; export const b = [1]; b[0] = a(); let c = \`;
\`; [c] = [b]; (c); +c; ++b.c; /x;/.test(";"); ; class D { static; get; x; [c] = 1; *m() { return; } in = 2; `
    + `y = () => { b; }; } if (a) b(); else c(); for (let i = 0; i < 2; i++); for (const d of b) d; `
    + `do c(); while (a); switch (a) { case 1: b(); c(); break; default: } export default function () { return b; }\n`);
});
