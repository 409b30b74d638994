// What `require` gets of `sabsim/test` where it can't load ES modules, in a CommonJS module of one's own.
"use strict";

const assert = require("node:assert/strict");
const { tmpdir } = require("node:os");
const { resolve } = require("node:path");
const { test } = require("node:test");
const { pathToFileURL } = require("node:url");
const { assertAgents, testAgents, testProgram } = require("sabsim/test");

const out = resolve("found");
// A relative path of a module is taken from this file.
process.chdir(tmpdir());

testAgents("agents", { module: "./lock.mjs", args: ["counting"], seeds: 10 });

testProgram("a program", { program: "./main.mjs", args: ["counting"], seeds: 2 });

/** What a trial fails with, with the line that has asked for it. */
const failureOf = (trial) => trial.then(() => "none", ({ stack }) => stack);

test("a run that fails is an error with the line of the test", async () => {
  const text = await failureOf(assertAgents({ module: "./lock.mjs", seeds: "1..50", shorten: false, out }));
  assert.match(text, /^RunFailed: seed 10: deadlock[^]*\nkept in .*found: seed-10[^]*\n\n {4}at .*apart\.cjs:23:32$/);
});

test("what another process can't take is refused by its name", async () => {
  const values = { init: () => {}, check: () => {}, signal: AbortSignal.timeout(60_000) };
  for (const [name, value] of Object.entries(values)) {
    const text = await failureOf(assertAgents({ module: "./lock.mjs", [name]: value }));
    const refused = `^Error: \`${name}\` can't be given: .* in a process of its own.*\\n {4}at .*apart\\.cjs:30:34$`;
    assert.match(text, new RegExp(refused));
  }
  const text = await failureOf(assertAgents({ module: "./lock.mjs", args: [() => {}] }));
  assert.match(text, /^Error: `args` can't be sent: .* in a process of its own\n {4}at .*apart\.cjs:34:32$/);
});

test("other options are refused as ever", async () => {
  const text = await failureOf(assertAgents({ module: "./lock.mjs", seed: 3 }));
  assert.match(text, /^Error: there is no option `seed`: is seeds meant\?\n {4}at .*apart\.cjs:39:32$/);
  assert.match(await failureOf(assertAgents({ module: "./none.mjs" })),
    /^Error: there is no file .*none\.mjs: `module` is /);
  assert.match(await failureOf(assertAgents()), /^Error: `module` is missing/);
});

test("a URL is taken, and an option that is undefined", async () => {
  const module = pathToFileURL(resolve(__dirname, "lock.mjs"));
  await assertAgents({ module, args: ["counting"], seeds: 2, check: undefined, signal: undefined });
});
