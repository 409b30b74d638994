// Modules of agents in TypeScript, where node loads them by leaving the types out: lines are those of the file. A node
// that was made without that is given a hook that does the same for these files.

import assert from "node:assert/strict";
import { mkdirSync, readFileSync, writeFileSync } from "node:fs";
import { join } from "node:path";
import { test } from "node:test";
import { RECORD, fileIn, nodeNow, temporaryFolder } from "../helpers/common.mjs";
import { CHECKING } from "../helpers/needs.mjs";
import { typeScriptWords, withTypeScript } from "../helpers/typescript-hook.mjs";

const LOCK = `type Words = Int32Array;
export class Lock {
  words: Words;
  constructor(words: Words) { this.words = words; }
  lock(): void {
    while (Atomics.exchange(this.words, 0, 1) !== 0) Atomics.wait(this.words, 1, 0);
  }
  unlock(): void {
    Atomics.store(this.words, 0, 0);
    Atomics.notify(this.words, 1, 1);
  }
}
`;

const AGENTS = `import { Lock } from "./lock.ts";
type Given = { buffers: SharedArrayBuffer[] };

export const setup: { agents: number, buffers: number[] } = { agents: 2, buffers: [12] };

export default function agent({ buffers }: Given): void {
  const words: Int32Array = new Int32Array(buffers[0]);
  const lock = new Lock(words);
  lock.lock();
  lock.unlock();
  words[2] += 1;
}
`;

/** What is a type in these files, and becomes spaces. */
const OF_NAMES = String.raw`(?:Words|void|Given|Int32Array|\{ agents: number, buffers: number\[\] \})`;
const TYPES = new RegExp(String.raw`^type .*|^  words: Words;$|: ${OF_NAMES}`, "gm");

/** @param {string} code @returns {string} of the same length, without types */
const stripped = (code) => code.replace(TYPES, (type) => " ".repeat(type.length));

withTypeScript("an agents' module in TypeScript has its own lines, and the page its text", (context) => {
  const folder = temporaryFolder(context);
  mkdirSync(join(folder, "found"));
  writeFileSync(join(folder, "lock.ts"), LOCK);
  const nodeWords = typeScriptWords(folder, TYPES);
  for (const name of ["agents.mts", "agents.ts"]) {
    const file = fileIn(folder, name, AGENTS);
    writeFileSync(join(folder, "package.json"), '{ "type": "module" }');
    const out = join(folder, "found", name);
    const words = [...nodeWords, RECORD, file, "--seeds", "1..40", "--no-shorten", "--out", out, ...CHECKING];
    const { status, stdout, stderr } = nodeNow(words);
    assert.equal(status, 1, `${stdout}${stderr}`);
    const line = AGENTS.split("\n").findIndex((each) => each.includes("words[2] += 1")) + 1;
    const column = AGENTS.split("\n")[line - 1].indexOf("words[2]") + 1;
    assert.match(stdout, new RegExp(`${name.replace(".", "\\.")}:${line}:${column}`));
    assert.match(stdout, /lock\.ts:6:/);
    const page = readFileSync(join(out, /seed-\d+\.html/.exec(stdout)[0]), "utf8");
    assert.ok(page.includes("constructor(words: Words)"), "the page has the file's own text");
  }
});

test("what is left out of these files changes no line and no column", () => {
  for (const code of [LOCK, AGENTS]) assert.equal(stripped(code).length, code.length);
  assert.doesNotMatch(stripped(AGENTS), /number|Given|void/);
});
