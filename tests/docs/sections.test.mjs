// What tools/sections.mjs makes from the table of options, in docs/RECORDER.md and in the declared types, is in step
// with the table.

import assert from "node:assert/strict";
import { spawnSync } from "node:child_process";
import { cpSync, mkdtempSync, readFileSync, rmSync, writeFileSync } from "node:fs";
import { tmpdir } from "node:os";
import { join } from "node:path";
import { test } from "node:test";
import { OPTIONS, optionWord } from "../../recorder/lib/options/table.mjs";
import { TOP, textOf } from "./documents.mjs";

const FILES = ["docs/RECORDER.md", "recorder/options.d.cts", "recorder/testing.d.cts"];

/** @param {string[]} words of the tool's command line */
function made(...words) {
  const { status, stdout, stderr } = spawnSync(process.execPath, [join(TOP, "tools/sections.mjs"), ...words]);
  return { status, output: `${stdout}${stderr}` };
}

test("what is made from the table of options is in step with it", () => {
  assert.deepEqual(made("--check"), { status: 0, output: "" });
});

test("each option is in the reference, and in the types if the library takes it", () => {
  const [reference, ...types] = FILES.map(textOf);
  for (const [name, { of }] of Object.entries(OPTIONS)) {
    if (of.includes("command")) assert.ok(reference.includes(`\n| \`--${optionWord(name)}`), name);
    const isOfLibrary = of.some((taker) => taker !== "command");
    assert.equal(new RegExp(`^  ${name}\\??: (?!undefined)`, "m").test(types.join("\n")), isOfLibrary, name);
  }
});

test("a section that isn't in step is named, and is made anew", (context) => {
  const folder = mkdtempSync(join(tmpdir(), "sections-"));
  context.after(() => rmSync(folder, { recursive: true }));
  for (const name of FILES) cpSync(join(TOP, name), join(folder, name));
  const changed = FILES.slice(1);
  for (const name of changed) writeFileSync(join(folder, name), textOf(name).replace("; else ", "; or "));
  writeFileSync(join(folder, FILES[0]), textOf(FILES[0]).replace("| `--web` | ", "$&also "));
  const complaints = FILES.map((name) =>
    `${name} isn't in step with recorder/lib/options/table.mjs: run node tools/sections.mjs\n`);
  assert.deepEqual(made("--check", folder), { status: 1, output: complaints.join("") });
  assert.deepEqual(made(folder), { status: 0, output: "" });
  for (const name of FILES) assert.equal(readFileSync(join(folder, name), "utf8"), textOf(name));
});
