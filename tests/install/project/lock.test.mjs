import assert from "node:assert/strict";
import { test } from "node:test";
import { explore, record, Refused } from "sabsim";
import { assertAgents, testAgents } from "sabsim/test";

testAgents("none is lost where each ring counts", { module: "./lock.mjs", args: ["counting"], seeds: 10 });

test("a wake-up is lost by the bell", async () => {
  const options = { module: "./lock.mjs", sabsim: false };
  for await (const { fails, seed, ending, detail } of explore({ ...options, seeds: "1..50" })) {
    if (!fails) continue;
    assert.equal(ending, "deadlock");
    assert.match(detail, /waits at byte 4 of block 0/);
    const alone = await record({ ...options, seed });
    assert.equal(alone.detail, detail);
    return;
  }
  assert.fail("no run has failed");
});

test("a run that fails is an error of that name", async () => {
  const trial = assertAgents({ module: "./lock.mjs", seeds: "1..50", out: "found" });
  await assert.rejects(trial, /^RunFailed: seed \d+: deadlock/);
});

test("an option that isn't known is refused", async () => {
  await assert.rejects(record({ module: "./lock.mjs", seeds: 3 }), Refused);
});
