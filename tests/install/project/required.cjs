// What `require` gets of `sabsim` and of `sabsim/test` in node itself, in a CommonJS module of one's own.
"use strict";

const assert = require("node:assert/strict");
const { test } = require("node:test");
const { Refused, explore, record } = require("sabsim");
const { assertAgents, testAgents, testProgram } = require("sabsim/test");

testAgents("agents", { module: "./lock.mjs", args: ["counting"], seeds: 10 });

testProgram("a program", { program: "./main.mjs", args: ["counting"], seeds: 2 });

test("a run that fails is an error with the line of the test", async () => {
  const trial = assertAgents({ module: "./lock.mjs", seeds: "1..50", shorten: false, out: "found" });
  const { stack } = await trial.catch((error) => error);
  assert.match(stack, /^RunFailed: seed 10: deadlock[^]*\n\n {4}at .*required\.cjs:14:17$/);
});

test("functions of this process are called", async () => {
  let calls = 0;
  const check = () => {
    calls += 1;
  };
  await assertAgents({ module: "./lock.mjs", args: ["counting"], seeds: 3, check });
  assert.equal(calls, 4);
});

test("the library records a run, and many", async () => {
  const { ending } = await record({ module: "./lock.mjs", args: ["counting"], seed: 2 });
  assert.equal(ending, "finished");
  const seeds = [];
  for await (const { seed } of explore({ module: "./lock.mjs", args: ["counting"], seeds: 3 })) seeds.push(seed);
  assert.deepEqual(seeds, [1, 2, 3]);
  await assert.rejects(record({ module: "./lock.mjs", seeds: 3 }), Refused);
});
