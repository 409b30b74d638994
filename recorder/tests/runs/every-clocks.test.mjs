// `--all` of agents that look at clocks or draw random numbers: the tool chooses when time passes, and what is drawn.

import assert from "node:assert/strict";
import { readFileSync } from "node:fs";
import { join } from "node:path";
import { test } from "node:test";
import { pathToFileURL } from "node:url";
import { everyText } from "../../lib/every/every-text.mjs";
import { learnApart } from "../../lib/every/learning/apart.mjs";
import { everySchedule } from "../../recorder.mjs";
import { commandHere } from "../helpers/command-here.mjs";
import { FEW_WORKERS, moduleOf, refusedInALine, temporaryFolder } from "../helpers/common.mjs";

/** @param {string} body of each agent @param {string} [more] lines behind the agent */
const agents = (body, more = "") => `export const setup = { agents: 2, buffers: [8], names: { PERMITS: 0, INSIDE: 1 } };
export const init = ([buffer]) => void (new Int32Array(buffer)[0] = 1);
export default function agent({ buffers, agents, again, choose }) {
  const words = new Int32Array(buffers[0]);
  ${body}
}
${more}`;

const CHECK = "export const check = ([buffer]) => new Int32Array(buffer)[0] === 1;\n";

const ANY = "while (again())";
const TWO = "for (let round = 0; round < 2; round += 1)";
const GIVES_UP_WRONGLY = "Atomics.compareExchange(words, 0, 1, 0); return false;";

/**
 * A semaphore of one permit, of which an agent gets one within 50 ms, or gives up.
 * @param {object} [how] what is wrong
 * @param {string} [how.givesUp] what an agent does that gives up
 * @param {string} [how.rounds] how a loop over its rounds begins
 * @param {string} [how.wakes] what it does when it has given its permit back
 */
const semaphore = ({ givesUp = "return false;", rounds = ANY, wakes = "Atomics.notify(words, 0, 1);" } = {}) => `
  const acquire = () => {
    const deadline = performance.now() + 50;
    for (;;) {
      const permits = Atomics.load(words, 0);
      if (permits > 0 && Atomics.compareExchange(words, 0, permits, permits - 1) === permits) return true;
      const left = deadline - performance.now();
      if (left <= 0) { ${givesUp} }
      if (permits <= 0) Atomics.wait(words, 0, permits, left);
    }
  };
  ${rounds} {
    if (!acquire()) continue;
    if (Atomics.add(words, 1, 1) > 0) throw new Error("two are inside");
    Atomics.sub(words, 1, 1);
    Atomics.add(words, 0, 1);
    ${wakes}
  }`;

/** @param {import("node:test").TestContext} context @param {string} text @param {object} [more] */
const learned = (context, text, more = {}) => learnApart({
  module: pathToFileURL(moduleOf(context, text)).href, args: [], place: {}, timeouts: "early", limit: 100_000,
  within: 60, ...more,
}, { seconds: 20 });

/** @param {{ kind: string }[]} found */
const kindsOf = (found) => [...new Set(found.map(({ kind }) => kind))];

test("a semaphore with a timeout by a deadline, for any number of rounds", async (context) => {
  const right = agents(semaphore(), CHECK);
  const { counts, findings, hidden, isClosed, kept } = await learned(context, right, { place: { agents: 3 } });
  assert.deepEqual([isClosed, hidden, findings, kept], [true, [], [], undefined]);
  assert.ok(counts.choices > 2);
  const never = await learned(context, right, { timeouts: "never" });
  assert.deepEqual([never.isClosed, never.findings], [true, []]);
});

test("a permit that is lost when an agent gives up is found, and shown by real runs", async (context) => {
  const module = moduleOf(context, agents(semaphore({ givesUp: GIVES_UP_WRONGLY }), CHECK));
  const out = temporaryFolder(context);
  const done = await commandHere([module, "--all", "--seeds", "1..10", "--out", out]);
  assert.equal(done.status, 1, done.stderr);
  assert.match(done.stdout, /^every schedule of 2 agents was tried: agents can fail check/);
  assert.doesNotMatch(done.stdout, /not shown/);
  assert.match(done.stdout, /; 10 real runs agree\n/);
  const { agents: choices } = JSON.parse(readFileSync(join(out, "all-1.choices.json"), "utf8"));
  assert.ok(choices.flat().some(([does]) => does === "time"), JSON.stringify(choices));
  const explained = readFileSync(join(out, "all-1.explained"), "utf8");
  assert.match(explained, /\nagent \d looked at a clock .*, at agents\.mjs:7:34\n/);
  const replayed = await commandHere([module, "--replay", join(out, "all-1.json")]);
  assert.deepEqual([replayed.status, replayed.stderr], [1, ""]);
});

test("a lost wake-up that a timeout hides is found with `never`, and shown", async (context) => {
  const text = agents(semaphore({ wakes: "" }), CHECK);
  const early = await learned(context, text);
  assert.deepEqual([early.isClosed, early.findings], [true, []]);
  const never = { ...FEW_WORKERS, module: moduleOf(context, text), seeds: 3, timeouts: /** @type {const} */ ("never") };
  const { closed, found, realRuns } = await everySchedule(never);
  assert.deepEqual([closed, kindsOf(found), realRuns], [true, ["deadlock"], 3]);
  assert.equal(found[0].notShown, null);
});

test("a semaphore with a timeout by a deadline, for two rounds without `again`", async (context) => {
  /** @param {{ givesUp?: string, wakes?: string }} how @param {object} [more] */
  const found = async (how, more = {}) => {
    const text = agents(semaphore({ ...how, rounds: TWO }), CHECK);
    const wanted = { place: { agents: 3 }, limit: 1_000_000, within: 600, ...more };
    const { findings, hidden, isClosed } = await learned(context, text, wanted);
    assert.deepEqual(hidden, []);
    return [isClosed, kindsOf(findings)];
  };
  const never = { timeouts: "never" };
  assert.deepEqual(await found({}), [true, []]);
  assert.deepEqual(await found({}, never), [true, []]);
  assert.deepEqual(await found({ wakes: "" }, never), [true, ["deadlock"]]);
  assert.deepEqual(await found({ givesUp: GIVES_UP_WRONGLY }), [true, ["check"]]);
  const module = moduleOf(context, agents(semaphore({ rounds: TWO }), CHECK));
  const { closed, found: none, realRuns } = await everySchedule({ ...FEW_WORKERS, module, seeds: 20 });
  assert.deepEqual([closed, none, realRuns], [true, [], 20]);
});

test("a backoff by chance, for two rounds without `again`", async (context) => {
  /** @param {string} fails whether an agent fails to get the lock */
  const backoff = (fails) => agents(`for (let round = 0; round < 2; round += 1) {
    for (let tries = 0; ${fails}; tries = Math.min(tries + 1, 3)) {
      Atomics.wait(words, 1, 0, Math.random() * 2 ** tries);
    }
    if (Atomics.exchange(words, 1, 1) === 1) throw new Error("two are inside");
    Atomics.store(words, 1, 0);
    Atomics.store(words, 0, 1);
  }`, CHECK);
  const right = backoff("Atomics.compareExchange(words, 0, 1, 0) !== 1");
  const { findings, hidden, isClosed } = await learned(context, right, { place: { agents: 3 } });
  assert.deepEqual([isClosed, hidden, findings], [true, [], []]);
  const wrong = backoff("Atomics.load(words, 0) !== 1 || Atomics.store(words, 0, 0) > 0");
  const data = await everySchedule({ ...FEW_WORKERS, module: moduleOf(context, wrong), seeds: 5 });
  assert.deepEqual([data.closed, kindsOf(data.found), data.found[0].notShown], [true, ["threw"], null]);
});

test("clocks of each kind show an agent its own time", async (context) => {
  const text = agents(`
  const [before, date, day, said] = [performance.now(), Date.now(), new Date(), Date()];
  const [[seconds], nanoseconds, up] = [process.hrtime(), process.hrtime.bigint(), process.uptime()];
  const isEqual = date + 0 >= 946_684_800_000 && day.getTime() >= date && seconds <= up && typeof said === "string";
  if (!isEqual || BigInt(seconds) * 1_000_000_000n > nanoseconds) throw new Error("clocks differ");
  const timed = Atomics.wait(words, 1, 0, 50);
  const after = performance.now();
  if (timed === "timed-out" && after - before < 50) throw new Error("too early");
  Atomics.store(words, 1, Math.min(9, Math.floor((after - before) / 1e9)));`);
  const data = await everySchedule({ ...FEW_WORKERS, module: moduleOf(context, text), agents: 1, seeds: 5 });
  assert.deepEqual([data.closed, data.found, data.realRuns, data.finalCount], [true, [], 5, 8]);
});

test("a time that an agent keeps from round to round is named, and its clock goes on", async (context) => {
  const keeps = `const begun = performance.now();
  while (again()) {
    Atomics.load(words, 0);
    if (performance.now() - begun > 2e9) break;
  }`;
  const data = await everySchedule({ ...FEW_WORKERS, module: moduleOf(context, agents(keeps)), seeds: 8 });
  assert.deepEqual([data.closed, data.found, data.realRuns, data.keptClock], [true, [], 8, "agents.mjs:5:29"]);
  assert.match(everyText(data), /\n {2}clocks go on from round to round: .* keeps its time of agents\.mjs:5:29\n/);
  const later = `while (again()) {
    Atomics.load(words, 0);
    if (performance.now() > 1e8) break;
  }`;
  assert.deepEqual((await learned(context, agents(later))).kept, { line: "agents.mjs:7:21", isDraw: false });
});

test("what agents keep of a long time, or only if they choose to look, is noticed", async (context) => {
  const week = `let isOld = false;
  while (again()) {
    const isNow = performance.now() > 604_800_000;
    if (isOld && !isNow) throw new Error("the clock went back");
    isOld ||= isNow;
  }`;
  const year = `let last = 0;
  while (again()) {
    const now = new Date().getFullYear();
    if (now < last) throw new Error("the clock went back");
    last = now;
  }`;
  // A round in which it doesn't look leads to the same moment as one in which no time has passed.
  const chosen = `let isLate = false;
  while (again()) {
    if (choose(2) === 1 && performance.now() > 1000) isLate = true;
    Atomics.load(words, 0);
    if (isLate && performance.now() < 1000) throw new Error("the clock went back");
  }`;
  // What it has read of the clock before is another thing only if the clock begins at another time.
  const unused = `let isLate = false;
  while (again()) {
    const now = performance.now();
    if (choose(2) === 1) isLate = now > 1000;
    Atomics.load(words, 0);
    if (isLate && performance.now() < 1000) throw new Error("the clock went back");
  }`;
  const lines = [];
  for (const body of [week, year, chosen, unused]) {
    const { findings, kept } = await learned(context, agents(body), { limit: 300 });
    lines.push([kept?.line, findings]);
  }
  const overflow = `while (again()) {
    const now = performance.now() | 0;
    Atomics.load(words, 0);
    if (now < 0) throw new Error("the time is below 0");
  }`;
  const one = await learned(context, agents(overflow), { limit: 300, place: { agents: 1 } });
  assert.deepEqual([one.kept?.line, one.findings.map(({ text }) => text)],
    ["agents.mjs:6:29", ["Error: the time is below 0"]]);
  assert.deepEqual(lines, [["agents.mjs:7:31", []], ["agents.mjs:7:17", []], ["agents.mjs:7:40", []],
    ["agents.mjs:7:29", []]]);
});

test("a wait's time is all of its timeout, and none if that is below 0", async (context) => {
  const late = agents(`const deadline = performance.now() + 50;
  const before = performance.now();
  Atomics.wait(words, 1, 0, deadline - before);
  if (performance.now() < before) throw new Error("the clock went back");`);
  assert.deepEqual((await learned(context, late)).findings, []);
  const fraction = agents(`const begun = performance.now();
  Atomics.wait(words, 1, 0, choose(2) === 0 ? 10 : 10.75);
  const waited = performance.now() - begun;
  if (waited < 1e9) Atomics.store(words, 1, waited * 100);`);
  const data = await everySchedule({ ...FEW_WORKERS, module: moduleOf(context, fraction), agents: 1, seeds: 5 });
  assert.deepEqual([data.closed, data.found, data.realRuns, data.finalCount], [true, [], 5, 3]);
});

test("a lock that waits for random times up to a deadline has the same times whenever its clock begins", async (
  context,
) => {
  const text = agents(`const tryLock = () => {
    const deadline = performance.now() + 5;
    for (let delay = 1; Atomics.compareExchange(words, 0, 1, 0) !== 1; delay = 2) {
      if (performance.now() >= deadline) return false;
      Atomics.wait(words, 0, 0, Math.random() * delay);
    }
    return true;
  };
  while (again()) {
    if (!tryLock()) continue;
    Atomics.store(words, 0, 1);
    Atomics.notify(words, 0, 1);
  }`, CHECK);
  const { findings, isClosed, kept } = await learned(context, text);
  assert.deepEqual([isClosed, findings, kept], [true, [], undefined]);
});

test("a random number is the least, one in the middle or the greatest", async (context) => {
  const backs = `while (again()) {
    while (Atomics.compareExchange(words, 0, 1, 0) !== 1) {
      for (let left = Math.floor(Math.random() * 3); left > 0; left -= 1) Atomics.load(words, 1);
    }
    if (Atomics.add(words, 1, 1) > 0) throw new Error("two are inside");
    Atomics.sub(words, 1, 1);
    Atomics.store(words, 0, 1);
  }`;
  const right = await learned(context, agents(backs, CHECK), { place: { agents: 3 } });
  assert.deepEqual([right.isClosed, right.findings, right.hidden, right.drawn.numbers], [true, [], [], true]);
  const drawn = agents(`
  const [one, other] = [Math.random(), crypto.randomInt(5, 8)];
  if (!(one >= 0 && one < 1) || other < 5 || other > 7) throw new Error("out of range");
  Atomics.store(words, 1, 10 * other + Math.floor(one * 4));`);
  const module = moduleOf(context, `import crypto from "node:crypto";\n${drawn}`);
  const data = await everySchedule({ ...FEW_WORKERS, module, agents: 1, seeds: 6 });
  assert.deepEqual([data.closed, data.found, data.realRuns], [true, [], 6]);
  const numbers = data.finals.map(({ text }) => Number(/INSIDE (\d+)/.exec(text)?.[1]));
  assert.deepEqual(numbers.sort((one, other) => one - other), [50, 52, 53, 60, 62, 63, 70, 72, 73]);
  assert.match(everyText(data), /\n {2}of random numbers only the least, one in the middle and the greatest were /);
  const alike = `Atomics.add(words, 1, Math.floor(Math.random() * 9) + 1);
  if (Atomics.load(words, 1) === 18) throw 18;`;
  const same = await everySchedule({ ...FEW_WORKERS, module: moduleOf(context, agents(alike)), seeds: 1 });
  assert.deepEqual(same.found.map(({ drewSame, notShown }) => [drewSame, notShown]), [[true, null]]);
  assert.match(everyText(same), /\n {4}two agents draw the same random number there\n/);
});

test("fewer than eight random bytes are the least, some in the middle or the greatest", async (context) => {
  const drawn = agents(`
  const [[one], few, [sign]] = [crypto.getRandomValues(new Uint16Array(1)), randomBytes(3), signed()];
  if (![0, 0x8000, 0xffff].includes(one) || ![-128, 0, 127].includes(sign)) throw new Error(\`\${[one, sign]}\`);
  const filled = nodeCrypto.randomFillSync(new Uint8Array(4), 1, 2);
  if (filled[0] + filled[3] !== 0 || filled[1] !== filled[2] || few[0] !== few[2]) throw new Error(\`\${filled}\`);
  Atomics.store(words, 1, 64 * (one & 3) + 16 * (few[1] & 3) + 4 * (filled[1] & 3) + (sign & 3));`);
  const signed = "const signed = () => nodeCrypto.webcrypto.getRandomValues(new Int8Array(1));";
  const text = `import nodeCrypto, { randomBytes } from "node:crypto";\n${signed}\n${drawn}`;
  const data = await everySchedule({ ...FEW_WORKERS, module: moduleOf(context, text), agents: 1, seeds: 6 });
  assert.deepEqual([data.closed, data.found, data.hidden, data.realRuns], [true, [], [], 6]);
  assert.deepEqual([data.finalCount, data.drawsRandom, data.drawsUnique], [16, true, false]);
  const alike = "if (Atomics.add(words, 1, crypto.getRandomValues(new Uint8Array(1))[0]) === 255) throw 255;";
  const same = await everySchedule({ ...FEW_WORKERS, module: moduleOf(context, agents(alike)), seeds: 1 });
  assert.deepEqual(same.found.map(({ drewSame, notShown }) => [drewSame, notShown]), [[false, null]]);
  await assert.rejects(learned(context, agents("crypto.getRandomValues(words);")),
    refusedInALine(/it draws random bytes into shared memory, at agents\.mjs:5:10/));
  await assert.rejects(learned(context, agents("crypto.subtle;")), refusedInALine(/it reads `crypto\.subtle`/));
});

/** @param {string} draw @param {string} [then] in each round @returns {string} a lock whose owner leaves its name */
const named = (draw, then = "") => `import { randomBytes } from "node:crypto";\n${agents(`
  const [names, name] = [new BigInt64Array(buffers[0]), ${draw}];
  const mine = typeof name === "string" ? BigInt(\`0x\${name.slice(0, 8)}\`) : name[0];
  while (again()) {
    if (Atomics.compareExchange(names, 0, 1n, mine) !== 1n) continue;
    if (Atomics.load(names, 0) !== mine) throw new Error("two are inside");
    ${then}
    Atomics.store(names, 0, 1n);
  }`)}`;

test("a UUID, and eight random bytes, are never equal to others", async (context) => {
  for (const draw of ["crypto.randomUUID()", "crypto.getRandomValues(new BigInt64Array(1))"]) {
    const module = moduleOf(context, named(draw));
    const data = await everySchedule({ ...FEW_WORKERS, module, agents: 3, seeds: 10 });
    assert.deepEqual([data.closed, data.found, data.hidden, data.realRuns], [true, [], [], 10]);
    assert.deepEqual([data.drawsRandom, data.drawsUnique, data.keptClock], [false, true, null]);
    assert.equal(data.keptDraw, "agents.mjs:7:64");
    assert.match(everyText(data), /\n {2}of eight and more random bytes only draws that are never equal were tried\n/);
    assert.match(everyText(data), /\n {2}what is drawn differs from round to round: an agent keeps its draw at agents/);
  }
  const within = await learned(context, named("[2n]", "if (crypto.randomUUID() === crypto.randomUUID()) throw 1;"));
  assert.deepEqual([within.isClosed, within.hidden, within.kept], [true, [], undefined]);
  const each = named("[2n]", "Atomics.store(words, 1, randomBytes(8)[0]);");
  const open = await learned(context, each, { limit: 3_000 });
  assert.deepEqual([open.isClosed, open.bound, open.kept?.isDraw], [false, "states", true]);
});

test("a run whose agents have drawn bytes that are never equal is kept, and replayed", async (context) => {
  const fails = "if (Atomics.exchange(words, 1, 1) === 1) throw new Error(crypto.randomUUID());";
  const module = moduleOf(context, named("crypto.randomUUID()", fails));
  const out = temporaryFolder(context);
  const done = await commandHere([module, "--all", "--seeds", "1..3", "--within", "300", "--out", out]);
  assert.equal(done.status, 1, done.stdout);
  const { agents: choices } = JSON.parse(readFileSync(join(out, "all-1.choices.json"), "utf8"));
  assert.ok(choices.flat().some(([does]) => does === "lasting unique"), JSON.stringify(choices));
  assert.match(readFileSync(join(out, "all-1.explained"), "utf8"), /\nagent \d drew random bytes that are never equal/);
  const replayed = await commandHere([module, "--replay", join(out, "all-1.json")]);
  assert.deepEqual([replayed.status, replayed.stderr], [1, ""]);
});

test("what is made of a look besides the time keeps moments apart", async (context) => {
  const text = agents(`const before = [Atomics.load(words, 0), 0];
  const [seconds] = process.hrtime(before);
  Atomics.store(words, 1, seconds < 0 ? 1 : 2);`);
  const { hidden, isClosed } = await learned(context, text);
  assert.equal(isClosed, true);
  assert.deepEqual(hidden.map(({ why }) => why), ["what is made of a look at a clock"]);
  const other = agents(`if (choose(2) === 0) process.hrtime([0, 0]);
  else Atomics.load(words, 0);`);
  assert.deepEqual((await learned(context, other)).hidden.map(({ nodes }) => nodes), [1]);
});
