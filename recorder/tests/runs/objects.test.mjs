// Modules of objects, by `--all` and by seeds: what is right, what isn't linearizable, and what loses a wake-up.

import assert from "node:assert/strict";
import { existsSync, readFileSync } from "node:fs";
import { join } from "node:path";
import { describe, test } from "node:test";
import { fileURLToPath, pathToFileURL } from "node:url";
import { learnApart } from "../../lib/every/learning/apart.mjs";
import { Refused, everySchedule, explore } from "../../recorder.mjs";
import { assertObject } from "../../testing.mjs";
import { difference } from "../../../tests/objects/compare.mjs";
import { drawn } from "../../../tests/objects/draw.mjs";
import { commandHere } from "../helpers/command-here.mjs";
import { fileIn, moduleOf, temporaryFolder } from "../helpers/common.mjs";

/** @param {string} name of an example's module of an object */
const example = (name) => fileURLToPath(new URL(`../../examples/${name}.object.mjs`, import.meta.url));

const OBJECT = new URL("../../object.mjs", import.meta.url);

/**
 * The text of a module of an object, which has words.
 * @param {string} members of its class
 * @param {string} operations
 * @param {string} [more] lines behind it
 */
const objectOf = (members, operations, more = "") => `import { blocked } from "${OBJECT}";
class Tried { constructor(buffer) { this.w = new Int32Array(buffer); } ${members} }
export const setup = { buffers: [16] };
export const object = ({ buffers }) => new Tried(buffers[0]);
export const operations = { ${operations} };
export const unused = blocked;
${more}`;

/** @param {import("node:test").TestContext} context @param {string} text @param {object} [more] */
const learned = (context, text, more = {}) => learnApart({
  module: pathToFileURL(moduleOf(context, text)).href, args: [], place: { agents: 2 }, timeouts: "early",
  limit: 200_000, within: 60, each: 2, ...more,
}, { seconds: 20 });

/** @param {{ findings: { kind: string, text: string }[] }} report @returns {string[]} */
const foundIn = ({ findings }) => findings.map(({ kind, text }) => `${kind}: ${text.split("\n")[0]}`);

const LOCK = "lock() { while (Atomics.compareExchange(this.w, 0, 0, 1) !== 0) Atomics.wait(this.w, 0, 1); }";
const SPINS = "lock() { while (Atomics.exchange(this.w, 0, 1) !== 0); }";
const NOTIFIES = "unlock() { Atomics.store(this.w, 0, 0); Atomics.notify(this.w, 0, 1); }";
const WEAK = `push() { Atomics.add(this.w, 0, 1); }
  tryPop() {
    const n = Atomics.load(this.w, 0);
    return n > 0 && Atomics.compareExchange(this.w, 0, n, n - 1) === n ? n : undefined;
  }`;
// open() leaves the waking to the one that spins, which waits for those that sleep.
const GATE = `spin() {
    Atomics.add(this.w, 1, 1);
    while (Atomics.load(this.w, 0) === 0 || Atomics.load(this.w, 2) > 0);
    Atomics.sub(this.w, 1, 1);
  }
  sleep() {
    Atomics.add(this.w, 2, 1);
    while (Atomics.load(this.w, 0) === 0) Atomics.wait(this.w, 0, 0);
    Atomics.sub(this.w, 2, 1);
  }
  open() {
    Atomics.store(this.w, 0, 1);
    if (Atomics.load(this.w, 1) === 0) Atomics.notify(this.w, 0);
  }`;
const GATE_MODEL = `export class Model {
  isOpen = false;
  spin() { return this.isOpen ? undefined : blocked; }
  sleep() { return this.isOpen ? undefined : blocked; }
  open() { this.isOpen = true; }
}`;
const OF_LOCK = 'lock: [], unlock: { after: "lock" }';
const NEVER_FREE = objectOf(`${SPINS} unlock() { Atomics.store(this.w, 0, 2); }`, OF_LOCK, `export class Model {
  held = false;
  lock() { if (this.held) return blocked; this.held = true; }
  unlock() { this.held = false; }
}`);

describe("every use by two agents with up to two operations each", () => {
  for (const [what, text, wanted] of /** @type {[string, string, string[]][]} */ ([
    ["of a lock is right, though its holder may not give it back", objectOf(`${LOCK} ${NOTIFIES}`, OF_LOCK), []],
    ["of a lock that doesn't notify loses a wake-up",
      objectOf(`${LOCK} unlock() { Atomics.store(this.w, 0, 0); }`, OF_LOCK),
      ["lost wake-up: lock() waits for ever, and in every order that fits some operation that waits could go on"]],
    ["of a lock that spins, and is never free again, is found too",
      NEVER_FREE,
      ["lost wake-up: lock() waits for ever, and in every order that fits some operation that waits could go on"]],
    ["of a lock that spins is right",
      objectOf(`${SPINS} unlock() { Atomics.store(this.w, 0, 0); }`, OF_LOCK), []],
    ["of a counter by load and store isn't linearizable",
      objectOf("add() { const n = Atomics.load(this.w, 0); Atomics.store(this.w, 0, n + 1); return n; }", "add: []"),
      ["not linearizable: add() returns 0, and in every order that fits it returns 1"]],
    ["without a call of Atomics is right: each operation is an act of its own",
      objectOf("name() { return 'tried'; }", "name: []"), []],
    ["whose result goes by the number of calls of this agent alone isn't right",
      objectOf("calls = 0; next() { this.calls += 1; Atomics.load(this.w, 0); return this.calls; }", "next: []"),
      ["not linearizable: next() returns 1, and in every order that fits it returns 2"]],
    ["that throws as it does alone is right, and is named",
      objectOf("fail() { Atomics.load(this.w, 0); throw new RangeError('no'); }", "fail: []"), []],
    ["may fail where that is said", objectOf(WEAK, "push: [], tryPop: { mayFail: undefined }"), []],
    ["is right if only its memory goes by chance",
      objectOf("draw() { Atomics.store(this.w, Math.random() < 0.5 ? 1 : 2, 1); }", "draw: []"), []],
    ["with a race has the race alone: no history is known",
      objectOf("get() { return this.w[0]; } set(value) { this.w[0] = value; }", "get: [], set: [1]"),
      ["race: agents.mjs:2:123 and agents.mjs:2:93", "race: agents.mjs:2:123 and agents.mjs:2:123"]],
    ["with a race elsewhere isn't linearizable, either",
      objectOf(`add() { const n = Atomics.load(this.w, 0); Atomics.store(this.w, 0, n + 1); return n; }
        touch() { this.w[1] = 1; Atomics.load(this.w, 2); }`, "add: [], touch: []"),
      ["race: agents.mjs:3:29 and agents.mjs:3:29",
        "not linearizable: add() returns 0, and in every order that fits it returns 1"]],
  ])) {
    test(what, async (context) => {
      const report = await learned(context, text);
      assert.deepEqual([report.isClosed, report.hidden, foundIn(report)], [true, [], wanted]);
    });
  }

  test("of like agents, of which one spins and one sleeps for ever, loses a wake-up", async (context) => {
    const report = await learned(context, objectOf(GATE, "spin: [], sleep: [], open: []", GATE_MODEL),
      { place: { agents: 3 }, each: 1 });
    assert.match(foundIn(report).join("\n"), /^lost wake-up: [a-z() ]* wait for ever, [^\n]*$/);
  });

  test("that may fail, but isn't said to, isn't linearizable", async (context) => {
    const report = await learned(context, objectOf(WEAK, "push: [], tryPop: []"));
    assert.match(foundIn(report).join("\n"), /^not linearizable: tryPop\(\) returns undefined, and in every order/);
  });

  test("that looks at its agent's number goes by that of agent 0, and so it is said", async (context) => {
    const text = objectOf("own() { return Atomics.load(this.w, 0); }", "own: []")
      .replace("({ buffers }) => new", "({ agent, buffers }) => agent > 9 || new");
    const { object } = await learned(context, text);
    assert.equal(object?.looksAtNumber, true);
    const other = await learned(context, objectOf("own() { return 1; }", "own: { agents: [0, 1] }"));
    assert.equal(other.object?.looksAtNumber, false);
  });

  test("a model's counts, and what always throws alone, are reported", async (context) => {
    const { object } = await learned(context,
      objectOf("fail() { Atomics.load(this.w, 0); throw new RangeError('no'); }", "fail: []"));
    const { alwaysThrow, hasModel, modelStates, notJudged } = /** @type {any} */ (object);
    assert.deepEqual([hasModel, alwaysThrow, modelStates, notJudged], [false, ["fail"], 1, 0]);
  });
});

describe("a module that can't be tried is refused", () => {
  for (const [what, text, why] of /** @type {[string, string, RegExp][]} */ ([
    ["if it names no method", objectOf("push() {}", "pushh: []"),
      /names `pushh`, and the object has no such method, at agents\.mjs:5/],
    ["if its model has no method for it", objectOf("push() {}", "push: []", "export class Model { pop() {} }"),
      /names `push`, and `Model` has no such method, at agents\.mjs:5/],
    ["if an operation returns a promise", objectOf("async push() { Atomics.load(this.w, 0); }", "push: []"), /promise/],
    ["if it returns a view", objectOf("view() { return this.w; }", "view: []"),
      /view\(\) returns a buffer, a view of one or a proxy.*, at agents\.mjs:5/],
    ["if it returns a function", objectOf("fn() { return () => 1; }", "fn: []"), /returns a function/],
    ["if its model looks at a clock",
      objectOf("push() { return 1; }", "push: []", "export class Model { push() { return Date.now() > 5 ? 1 : 2; } }"),
      /`Model` looks at a clock, at agents\.mjs:7:\d+/],
    ["if its model draws a random number", objectOf("push() { return 1; }", "push: []",
      "export class Model { push() { return Math.random() > 0.5 ? 1 : 2; } }"), /`Model` looks at chance, at/],
    ["if what it returns goes by chance",
      objectOf("toss() { Atomics.load(this.w, 0); return Math.random() < 0.5; }", "toss: []"),
      /how toss\(\) ends goes by chance, at agents\.mjs:2:\d+/],
    ["if its operations are none", objectOf("push() {}", "push: 1"), /the operation `push` must have a list of calls/],
  ])) {
    test(what, async (context) => {
      await assert.rejects(learned(context, text), (/** @type {Error} */ error) => {
        assert.ok(error instanceof Refused);
        assert.match(error.message, why);
        return true;
      });
    });
  }

  test("by seeds, too", async (context) => {
    const module = moduleOf(context, objectOf("push() {}", "pushh: []"));
    await assert.rejects(async () => {
      for await (const outcome of explore({ module, seeds: 1 })) assert.equal(outcome.fails, false);
    }, /names `pushh`, and the object has no such method/);
  });
});

describe("the real runs", () => {
  test("go on behind a history that isn't linearizable, as it was learned", async (context) => {
    const text = objectOf(`acquire() {
        while (Atomics.load(this.w, 0) === 0) Atomics.wait(this.w, 0, 0);
        Atomics.sub(this.w, 0, 1);
      }
      release() { Atomics.add(this.w, 0, 1); Atomics.notify(this.w, 0, 1); }`, "acquire: [], release: []");
    const words = ["--all", "--agents", "2", "--each", "2", "--seeds", "1..40"];
    const done = await commandHere([moduleOf(context, text), ...words]);
    assert.deepEqual([done.status, done.stderr], [1, ""]);
    assert.match(done.stdout, /^not linearizable: [^]* 40 real runs agree/);
  });

  test("that are rightly blocked, and have a race, end as a race", async (context) => {
    const module = moduleOf(context, objectOf("sleep() { this.w[1] = 1; Atomics.wait(this.w, 0, 0); }", "sleep: []"));
    let many = 0;
    for await (const { ending, races } of explore({ module, seeds: 10, agents: 2 })) {
      assert.equal(ending === "race", races.length > 0);
      many += races.length;
    }
    assert.ok(many > 0);
  });
});

describe("the verdicts are those of a checker that goes through permutations", () => {
  // In the last one a race is open while an agent chooses its next operation.
  for (const [seed, each] of [[2, 1], [5, 1], [9, 1], [11, 1], [40, 2]]) {
    const { mutation, name, text } = drawn(seed);
    test(`seed ${seed}: ${name}, ${mutation ?? "right"}, ${each} operations of each agent`, async (context) => {
      const file = fileIn(temporaryFolder(context), "drawn.object.mjs", text);
      assert.equal(await difference(file, 2, each), undefined);
    });
  }
});

describe("the examples", () => {
  test("the queue with sequence numbers isn't linearizable, and the run that shows it is kept", async (context) => {
    const out = temporaryFolder(context);
    const module = example("sequence-queue");
    const words = ["--all", "--agents", "2", "--each", "2", "--seeds", "1..10", "--out", out];
    const done = await commandHere([module, ...words]);
    assert.deepEqual([done.status, done.stderr], [1, ""]);
    assert.match(done.stdout, /^not linearizable: 2 agents, 3 operations; shown by \d+ acts with 1 change of agents\n/);
    assert.match(done.stdout, /\n {2}tryTake\(\) returns undefined, and in every order that fits it returns [12]\n/);
    const lines = done.stdout.split("\n").map((line) => line.trim());
    assert.match(lines[3], /^tryPut\([12]\), at sequence-queue\.mjs:31:39$/);
    assert.match(lines[4], /^\.\. {2,}tryPut\([12]\) returns true, at sequence-queue\.mjs:33:15$/);
    assert.match(lines[5], /^\.\. {2,}tryTake\(\) returns undefined, at sequence-queue\.mjs:43:32$/);
    assert.ok(existsSync(join(out, "all-1.html")));
    const replayed = await commandHere([module, "--agents", "2", "--each", "2", "--replay", join(out, "all-1.json")]);
    assert.deepEqual([replayed.status, replayed.stderr], [1, ""]);
    assert.match(replayed.stdout, /1 of 1 run failed: 1 not linearizable/);
  });

  test("the queue of one producer and one consumer is right", async () => {
    const words = ["--all", "--agents", "2", "--each", "2", "--seeds", "1..10"];
    const done = await commandHere([example("bounded-queue"), ...words]);
    assert.deepEqual([done.status, done.stderr], [0, ""]);
    const title = "every use by 2 agents with up to 2 operations each was tried under every schedule: all are "
      + "linearizable, and no wake-up is lost (`Model` says what is right)\n";
    assert.equal(done.stdout.slice(0, title.length), title);
    assert.match(done.stdout, /the search isn't proved \(the proved search doesn't know the operations of objects\)/);
  });

  test("an object with a race alone has it in its first line", async (context) => {
    const text = objectOf("touch() { this.w[1] = 1; Atomics.load(this.w, 0); }", "touch: []");
    const words = ["--all", "--agents", "2", "--each", "1", "--seeds", "1..5"];
    const done = await commandHere([moduleOf(context, text), ...words]);
    assert.deepEqual([done.status, done.stderr], [1, ""]);
    const title = "every schedule of every use by 2 agents with up to 1 operation each was tried: agents can race\n";
    assert.equal(done.stdout.slice(0, title.length), title);
  });

  test("real runs that go on behind a wrong history agree with what was learned", async (context) => {
    const text = objectOf(`
      acquire() {
        while (Atomics.load(this.w, 0) === 0) Atomics.wait(this.w, 0, 0);
        Atomics.sub(this.w, 0, 1);
      }
      release() { Atomics.add(this.w, 0, 1); Atomics.notify(this.w, 0, 1); }`,
    'acquire: [], release: { after: "acquire" }', `export const init = ([b]) => { new Int32Array(b)[0] = 1; };
      export class Model {
        free = 1;
        acquire() { if (this.free === 0) return blocked; this.free -= 1; }
        release() { this.free += 1; }
      }`);
    const words = ["--all", "--agents", "2", "--each", "2", "--seeds", "1..10", "--within", "300"];
    const done = await commandHere([moduleOf(context, text), ...words]);
    assert.deepEqual([done.status, done.stderr], [1, ""]);
    assert.match(done.stdout, /^not linearizable: 2 agents, 2 operations; shown by /);
    assert.match(done.stdout, /; 10 real runs agree\n/);
  });

  test("an agent that spins for ever is shown with the operations, and with its last calls", async (context) => {
    const words = ["--all", "--agents", "2", "--each", "2", "--seeds", "1..5", "--within", "300"];
    const done = await commandHere([moduleOf(context, NEVER_FREE), ...words]);
    assert.deepEqual([done.status, done.stderr], [1, ""]);
    const lines = done.stdout.split("\n").map((line) => line.trim());
    assert.match(lines[0], /^lost wake-up: 2 agents, 3 operations; shown by \d+ acts with \d changes? of agents$/);
    assert.equal(lines[1],
      "lock() waits for ever, and in every order that fits some operation that waits could go on");
    assert.match(lines[2], /^agent 0 {2,}agent 1$/);
    const table = lines.slice(3).findIndex((line) => /^agent \d spins at .*: it has made [\d,]+ calls/.test(line));
    assert.ok(table >= 3, done.stdout);
  });

  test("seeds find the flaw of the first, and it is shortened to three operations", async (context) => {
    const out = temporaryFolder(context);
    const words = ["--agents", "3", "--seeds", "1..40", "--jobs", "1", "--out", out, "--fail-fast"];
    const done = await commandHere([example("sequence-queue"), ...words]);
    assert.deepEqual([done.status, done.stderr], [1, ""]);
    assert.match(done.stdout, /not linearizable/);
    assert.match(done.stdout, /\nshortened: .* calls to \d+, in /);
    assert.match(readFileSync(join(out, "first.html").replace("first", kept(out)), "utf8"), /not linearizable/);
  });
});

describe("in a test suite", () => {
  test("an object that is right passes, by every use", async () => {
    await assertObject({ module: example("bounded-queue"), all: true, agents: 2, each: 1, seeds: 5 });
  });

  test("one that isn't fails, with its operations", async (context) => {
    const out = temporaryFolder(context);
    const wrong = assertObject({ module: example("sequence-queue"), agents: 3, seeds: 10, out });
    await assert.rejects(wrong, (/** @type {Error} */ error) => {
      assert.equal(error.name, "RunFailed");
      assert.match(error.message, /not linearizable/);
      assert.match(error.message, /try(Put|Take)\(\d?\) returns \w+, and in every order that fits it returns/);
      return true;
    });
  });
});

test("the library reports what was tried", async () => {
  const size = { agents: 2, each: 1 };
  const { found, isWhole, uses } = await everySchedule({ module: example("bounded-queue"), ...size, seeds: 5 });
  assert.deepEqual([found, isWhole], [[], true]);
  assert.deepEqual([uses?.finished, uses?.size, uses?.open, uses?.hasModel], [[size], size, null, true]);
});

/** @param {string} folder @returns {string} the name of the run that is kept there */
function kept(folder) {
  const names = Array.from({ length: 40 }, (_, at) => `seed-${at + 1}`);
  return names.find((name) => existsSync(join(folder, `${name}.html`))) ?? "none";
}
