// Pilots of whole programs: by what their memory is known in all runs, what they show of it, that the seed then chooses
// only before calls that matter, and that neither the first run nor what is printed shows them.

import assert from "node:assert/strict";
import { readFileSync } from "node:fs";
import { join } from "node:path";
import { describe, it, test } from "node:test";
import { programWaysOf } from "../../lib/board/strategy/ways.mjs";
import { KnownPlaces, PLACES } from "../../lib/memory/known-places.mjs";
import { FLAG } from "../../lib/memory/log.mjs";
import { NamedPlaces } from "../../lib/memory/named-places.mjs";
import { Pilots } from "../../lib/run/pilots/pilots.mjs";
import { RECORD, nodeNow, temporaryFolder } from "../helpers/common.mjs";
import { logOf } from "../helpers/logs.mjs";
import { TableRuns } from "../helpers/program-findings.mjs";
import { programOf, runsOf } from "../helpers/whole-programs.mjs";
import { PROGRAMS } from "../programs/table.mjs";

const newPlaces = () => new NamedPlaces(KnownPlaces.memory(), NamedPlaces.names());

describe("memory that pilots have shown", () => {
  it("has the same places in each run, whatever its number is there", () => {
    const places = newPlaces();
    places.name(0, "one", 8, true);
    places.name(1, "other", 4, true);
    const [one, other] = [places.placeOf(0, 4), places.placeOf(1, 0)];
    assert.deepEqual([places.placeOf(0, 0), one, other], [0, 4, 8]);
    places.begin();
    assert.equal(places.placeOf(0, 4), PLACES);
    places.name(0, "other", 4, false);
    places.name(700, "one", 8, false);
    places.name(2, "a third", 8, false);
    assert.deepEqual([places.placeOf(0, 0), places.placeOf(700, 4), places.placeOf(2, 0)], [other, one, PLACES]);
  });

  it("has no places after its end, as when it grows or when there is no room", () => {
    const places = newPlaces();
    places.name(0, "grows", 8, true);
    const beyond = [places.placeOf(0, 8), places.placeOf(0, -1), places.placeOf(100_000, 0)];
    assert.deepEqual(beyond, [PLACES, PLACES, PLACES]);
    places.name(1, "long", PLACES - 8, true);
    places.name(2, "too long", 2, true);
    assert.deepEqual([places.placeOf(1, 0), places.placeOf(2, 1)], [8, PLACES]);
  });

  it("is forgotten when another program is run", () => {
    const places = newPlaces();
    places.name(0, "one", 8, true);
    places.giveTo(0, 3);
    places.forget();
    places.name(1, "one", 8, false);
    assert.deepEqual([places.placeOf(1, 0), places.isPrivate(3, 0, 1, true)], [PLACES, false]);
  });
});

/** A log of events: agent, what is done (`reads` is ordinary), and the word, or the number of the message. */
const logByWords = (/** @type {[number, string, number][]} */ events) => logOf(events.map(([agent, does, word]) => {
  const isMessage = does === "sends" || does === "receives";
  return {
    agent, block: isMessage ? 3 : 0, byte: word * 4, size: 4, source: 0,
    atomic: !isMessage && does !== "notify" && does !== "reads",
    read: does === "load" || does === "wait" || does === "reads", write: does === "add",
    waiters: isMessage || does === "notify" || does === "wait",
  };
}));

/** Which calls of agents are private after some pilots; of a wait and a notify, whether they can be. */
function privateCalls(pilots, calls) {
  const places = newPlaces();
  const learning = new Pilots(3, places, true);
  for (const events of pilots) {
    places.begin();
    places.name(0, "the words", 64, true);
    learning.add(logByWords(events));
  }
  learning.teach();
  const { READS, WRITES, WAITERS } = FLAG;
  const asked = { load: READS, add: READS | WRITES, notify: WAITERS, wait: READS | WAITERS };
  return calls.map(([agent, does, word]) => places.canBePrivate(asked[does])
    && places.isPrivate(agent, places.placeOf(0, word * 4), places.placeOf(0, word * 4) + 4, does !== "load"));
}

describe("what pilots show", () => {
  const handed = [[1, "add", 0], [1, "sends", 7], [0, "receives", 7], [0, "load", 0]];
  const uses = [[1, "add", 0], [0, "load", 0]];

  it("a word that threads use in the order of messages needs no draw", () => {
    assert.deepEqual(privateCalls([handed, handed], uses), [true, true]);
  });

  it("a word that is used before the message has come, or again after it was sent, needs one", () => {
    const early = [handed[0], handed[1], handed[3], handed[2]];
    assert.deepEqual(privateCalls([early], uses), [false, false]);
    assert.deepEqual(privateCalls([[...handed, [1, "add", 0]]], uses), [false, false]);
    assert.deepEqual(privateCalls([[handed[1], handed[0], handed[2], handed[3]]], uses), [false, false]);
    assert.deepEqual(privateCalls([handed, early, handed], uses), [false, false]);
  });

  it("the order goes from thread to thread, and from another message nothing follows", () => {
    const onward = [...handed.slice(0, 3), [0, "sends", 8], [2, "receives", 8], [2, "add", 0]];
    assert.deepEqual(privateCalls([onward], [[2, "add", 0]]), [true]);
    const [adds, sends, , sendsOn] = onward;
    assert.deepEqual(privateCalls([[adds, sends, sendsOn, ...onward.slice(4)]], [[2, "add", 0]]), [false]);
  });

  it("a word that another thread uses first in another pilot needs a draw", () => {
    assert.deepEqual(privateCalls([[[1, "add", 0]], [[1, "add", 0]]], [[1, "add", 0]]), [true]);
    assert.deepEqual(privateCalls([[[1, "add", 0]], [[2, "add", 0]]], [[1, "add", 0], [2, "add", 0]]), [false, false]);
  });

  it("a call beside an ordinary access to a shared word needs a draw, another thread's at its place doesn't", () => {
    const shared = [[1, "add", 5], [2, "add", 5]];
    assert.deepEqual(privateCalls([[...shared, ...handed, [0, "reads", 5]]], uses), [true, false]);
    assert.deepEqual(privateCalls([[...shared, ...handed, [0, "reads", 6]]], uses), [true, true]);
    const onward = [...handed, [0, "sends", 8], [2, "receives", 8], [2, "load", 0], [2, "reads", 5]];
    // What is known of a word is that of one thread, or of all.
    assert.deepEqual(privateCalls([[...shared, ...onward]], [...uses, [2, "load", 0]]), [false, false, false]);
  });

  it("a thread's own lock is private with its notifies, and isn't if anybody waits there or notifies, too", () => {
    const locks = [[1, "add", 0], [1, "notify", 0]];
    assert.deepEqual(privateCalls([locks], locks), [true, true]);
    assert.deepEqual(privateCalls([[...locks, [2, "notify", 0]]], locks), [false, false]);
    assert.deepEqual(privateCalls([[locks[1], [2, "notify", 0]]], [locks[1]]), [false]);
    assert.deepEqual(privateCalls([[[1, "wait", 0], ...locks]], [...locks, [1, "wait", 0]]), [false, false, false]);
  });

  it("other pilots are worth it if more than a quarter of the calls is private", () => {
    const places = newPlaces();
    places.name(0, "the words", 64, true);
    const shared = Array.from({ length: 6 }, (_, at) => [at % 2, "add", 0]);
    const worth = [2, 3].map((own) => {
      const log = logByWords([...shared, ...Array.from({ length: own }, () => [2, "add", 5]), [0, "sends", 1]]);
      const learning = new Pilots(3, places, true);
      learning.add(log);
      return learning.areWorth(log);
    });
    assert.deepEqual(worth, [false, true]);
  });
});

test("some of a program's mixed runs, that of seed 1 among them, draw before each call, by the same strategies", () => {
  const ways = programWaysOf("mixed", false);
  assert.deepEqual(ways.flatMap(({ everywhere }, at) => (everywhere ? [at] : [])), [1, 9, 17, 25, 31]);
  const plain = ({ name, likelihood }) => `${name} ${likelihood}`;
  assert.deepEqual(ways.map(plain), programWaysOf("mixed", true).map(plain));
  assert.ok(programWaysOf("mixed", true).every(({ everywhere }) => everywhere));
  assert.deepEqual(programWaysOf("uniform", false).map(({ everywhere }) => everywhere), [false]);
});

const WORK = 100;

/**
 * Each worker makes two words that aren't zero, shares them, and adds to one, and main to the other. So the numbers of
 * blocks depend on the seed.
 */
const OWN_WORK = {
  "main.mjs": `import { appendFileSync } from "node:fs";
import { once } from "node:events";
import { Worker } from "node:worker_threads";
if (process.argv[2] !== undefined) appendFileSync(process.argv[2], "x");
const workers = [0, 1].map(() => new Worker(new URL("./worker.mjs", import.meta.url)));
const all = [];
for (const worker of workers) {
  worker.on("message", ([own, both]) => {
    all.push(own);
    Atomics.add(both, 0, 1);
  });
}
await Promise.all(workers.map((worker) => once(worker, "exit")));
if (all.some((own) => Atomics.load(own, 0) !== ${7 + WORK})) throw new Error("they have " + all);`,
  "worker.mjs": `import { parentPort } from "node:worker_threads";
const [own, both] = [0, 1].map(() => new Int32Array(new SharedArrayBuffer(4)).fill(7));
parentPort.postMessage([own, both]);
Atomics.add(both, 0, 1);
for (let step = 0; step < ${WORK}; step += 1) Atomics.add(own, 0, 1);`,
};

/** @param {number[]} row @param {number} agent @returns {number} how often it moves in a row at the most */
function longest(row, agent) {
  let most = 0;
  let now = 0;
  for (const each of row) {
    now = each === agent ? now + 1 : 0;
    most = Math.max(most, now);
  }
  return most;
}

describe("a program's runs", () => {
  const seeds = [2, 3, 4, 5, 6, 7, 8];

  it("have no draws amid a thread's own work, whichever number its memory has", async (context) => {
    const outcomes = await runsOf(context, OWN_WORK, { seeds });
    for (const { seed, ending, row, checked, noScript } of outcomes) {
      assert.deepEqual([ending, checked || noScript !== undefined], ["finished", true]);
      for (const agent of [1, 2]) assert.ok(longest(row, agent) >= WORK, `seed ${seed}, agent ${agent}`);
    }
  });

  it("have draws there if they are to be everywhere, or by their seed", async (context) => {
    const everywhere = await runsOf(context, OWN_WORK, { seeds, options: { everywhere: true } });
    const few = await runsOf(context, OWN_WORK, { seeds: [1, 9, 17, 25] });
    for (const { seed, row } of [...everywhere, ...few]) assert.ok(longest(row, 1) < WORK, `seed ${seed}`);
  });

  it("are made after pilots only if they go by these, and after one pilot if that shows nothing", async (context) => {
    const folder = temporaryFolder(context);
    const nothing = { ...OWN_WORK, "worker.mjs": "" };
    /** @param {Record<string, string>} files @param {number[]} those @param {object} [options] */
    const made = async (files, those, options) => {
      const file = join(folder, `made-${those.join("-")}-${files === nothing}-${options !== undefined}`);
      await runsOf(context, files, { seeds: those, args: [file], options });
      return readFileSync(file, "utf8").length;
    };
    const counts = [];
    for (const files of [OWN_WORK, nothing]) {
      for (const those of [[1, 9], [2, 3], [9, 2, 1]]) counts.push(await made(files, those));
    }
    // Here each run is made once more for its lines of code.
    assert.deepEqual(counts, [2 * 2, 8 + 2 * 2, 8 + 2 * 3, 2 * 2, 1 + 2 * 2, 1 + 2 * 3]);
    assert.equal(await made(OWN_WORK, [2, 3], { everywhere: true }), 2 * 2);
  });

  it("begin in fresh threads all the same, and what pilots print is left out", (context) => {
    const main = programOf(context, {
      "main.mjs": "globalThis.runs = (globalThis.runs ?? 0) + 1;\nconsole.log(\"run\", globalThis.runs);",
    });
    const words = [RECORD, "--program", main, "--seeds", "2..3", "--program-output", "all", "--check", "0"];
    const { stderr, status } = nodeNow(words);
    assert.deepEqual([stderr, status], ["[main] run 1\n[main] run 2\n", 0]);
  });
});

describe("a bug amid work", () => {
  it("is found in more seeds than if each call is drawn for", async (context) => {
    const program = PROGRAMS.find(({ name }) => name === "amid-work/lock-order") ?? assert.fail();
    const failing = async (/** @type {object} */ options) => {
      const runs = await TableRuns.open(options);
      context.after(() => runs.close());
      return (await runs.runs(program, { last: 100 })).filter(({ ending }) => ending === "deadlock").length;
    };
    const [withPilots, everywhere] = [await failing({}), await failing({ everywhere: true })];
    assert.ok(withPilots >= 5 && everywhere <= 2, `${withPilots} with pilots, and ${everywhere} without`);
  });
});
