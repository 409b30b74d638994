// README's answers to what people ask before they try the recorder: each is there, its numbers are right, its
// configuration for VS Code replays a kept run, and its links lead to sections.

import assert from "node:assert/strict";
import { readFileSync } from "node:fs";
import { test } from "node:test";
import { commandOptionsOf } from "../../lib/command/options.mjs";

const TOP = new URL("../../../", import.meta.url);
const README = readFileSync(new URL("recorder/README.md", TOP), "utf8");
const [, SECTION] = /\n## Questions\n([^]*)$/.exec(README);

/** The answers, by their questions. */
const ANSWERS = new Map(SECTION.trim().split(/^- /m).slice(1).map((text) => {
  const [, question, answer] = /^\*\*(.*?)\*\* ([^]*)$/.exec(text);
  return [question, answer];
}));

test("each question has an answer", () => {
  assert.deepEqual([...ANSWERS.keys()], [
    "Mac and Windows?", "Code for browsers?", "Wasm, Rust or C++ threads?", "Limits of time?", "How fast?", "VS Code?",
    "jest or vitest?", "All schedules?", "How sure am I?",
  ]);
  for (const [question, answer] of ANSWERS) assert.ok(answer.length > 40, question);
});

test("the configuration for VS Code replays a kept run", () => {
  const text = ANSWERS.get("VS Code?");
  const { configurations: [{ type, request, program, args }] } = JSON.parse(text.slice(text.indexOf("{")));
  assert.deepEqual([type, request], ["node", "launch"]);
  const { name, bin } = JSON.parse(readFileSync(new URL("package.json", TOP), "utf8"));
  assert.equal(program, `\${workspaceFolder}/node_modules/${name}/${bin["sabsim-record"]}`);
  const { module, replay } = commandOptionsOf(args);
  assert.deepEqual([module, replay.file], ["lock.mjs", "found/seed-10.json"]);
});

test("the likelihoods are those of the formula", () => {
  const answer = ANSWERS.get("How sure am I?").replace(/\s+/g, " ");
  const [, shown] = /With N = (\d+), /.exec(answer);
  const [, ...rest] = /, (\d+) seeds miss it with likelihood ([\d.]+), and ([\d,]+) seeds with ([\d.]+)\./.exec(answer);
  const [few, likely, many, unlikely] = rest.map((number) => Number(number.replace(",", "")));
  const missed = (seeds) => (1 - Number(shown) / 1_000) ** seeds;
  assert.equal(missed(few).toFixed(2), likely.toFixed(2));
  assert.equal(missed(many).toFixed(3), unlikely.toFixed(3));
  assert.match(answer, /with likelihood \(1-N\/1000\)\^S\./);
});

test("the sections that the answers lead to are there", () => {
  const anchorOf = (text) => text.toLowerCase().replace(/[^a-z ]/g, "").replaceAll(" ", "-");
  const headingsOf = (text) => [...text.matchAll(/^#+ (.*)$/gm)].map(([, heading]) => anchorOf(heading));
  const links = [...SECTION.matchAll(/\]\(([^)#]*)#([^)]+)\)/g)];
  assert.ok(links.length > 0);
  for (const [, file, link] of links) {
    const text = file === "" ? README : readFileSync(new URL(file, new URL("recorder/", TOP)), "utf8");
    assert.ok(headingsOf(text).includes(link), link);
  }
  assert.match(ANSWERS.get("jest or vitest?"), /`await assertAgents\(\{ module, seeds \}\)` of `sabsim\/test`/);
});
