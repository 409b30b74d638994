// Unordered accesses of a run: what is judged by clocks, against what the memory model of the standard says about small
// runs, and against a second judge on many random lists of events.

import assert from "node:assert/strict";
import { test } from "node:test";
import { FLAG, Log, NO_CALL, READ, WRITE } from "../../lib/memory/log.mjs";
import { raceReports } from "../../lib/run/races/race-reports.mjs";
import { isRacy, racesOf } from "../../lib/run/races/races.mjs";
import { SourceNames } from "../../lib/run/words/source-names.mjs";
import { randomEvents } from "../helpers/events.mjs";
import { logOf } from "../helpers/logs.mjs";
import { slowRaces } from "../helpers/slow-judge.mjs";

// Events of the runs below. Bytes are of block 0 if no other is given.

const event = (does, flags, agent, byte, size, block) => ({
  agent, does, block, byte, size, read: false, write: false, atomic: true, waiters: false, ...flags,
});

const load = (agent, byte, size = 4, block = 0) => event("load", { read: true }, agent, byte, size, block);
const store = (agent, byte, size = 4, block = 0) => event("store", { write: true }, agent, byte, size, block);
const add = (agent, byte, size = 4, block = 0) => event("add", { read: true, write: true }, agent, byte, size, block);

/** A compareExchange that finds another value than it expects. */
const fails = (agent, byte, size = 4, block = 0) => event("compareExchange", { read: true }, agent, byte, size, block);

const read = (agent, byte, size = 4, block = 0) =>
  event("read", { read: true, atomic: false }, agent, byte, size, block);
const write = (agent, byte, size = 4, block = 0) =>
  event("write", { write: true, atomic: false }, agent, byte, size, block);

/** A wait begins: inside of the critical section it reads its word, and goes to sleep or not. */
const wait = (agent, byte, size = 4, block = 0) =>
  event("wait", { read: true, waiters: true }, agent, byte, size, block);
const notify = (agent, byte, size = 4, block = 0) => event("notify", { waiters: true }, agent, byte, size, block);

/** A wait ends, by a wake-up or since its time is up: it passes the critical section again. */
const leave = (agent, byte, size = 4, block = 0) => event("leave", { waiters: true }, agent, byte, size, block);

const MORE_BLOCKS = 5;

/** The races that the judge by clocks finds, as pairs of indices. */
function pairsByClocks(events) {
  const agents = 1 + Math.max(...events.map(({ agent }) => agent));
  const log = logOf(events.map((one, index) => ({ call: 0, ...one, source: index + 1 })));
  const found = racesOf(log, agents);
  assert.equal(isRacy(log, agents), found.length > 0);
  // The same comes of ranges of bytes, by which runs are judged that have more blocks than a script.
  assert.deepEqual(racesOf(log, agents, MORE_BLOCKS), found);
  assert.equal(isRacy(log, agents, MORE_BLOCKS), found.length > 0);
  for (const { one, other, block, byte } of found) {
    for (const index of [one, other]) {
      assert.equal(events[index].block, block);
      assert.ok(events[index].byte <= byte && byte < events[index].byte + events[index].size, "a byte that both touch");
    }
  }
  return sorted(found.map(({ one, other }) => [one, other]));
}

const sorted = (pairs) => pairs.sort(([one, other], [first, second]) => one - first || other - second);

/** Of each run its events, and the pairs that race by the standard. @type {Record<string, [object[], number[][]]>} */
const RUNS = {
  "two writes": [[write(0, 0), write(1, 0)], [[0, 1]]],
  "a write, then a read": [[write(0, 0), read(1, 0)], [[0, 1]]],
  "a read, then a write": [[read(0, 0), write(1, 0)], [[0, 1]]],
  "two reads": [[read(0, 0), read(1, 0)], []],
  "one agent's own accesses": [[write(0, 0), read(0, 0), write(0, 0, 2), load(0, 0), write(0, 0)], []],
  "three writers": [[write(0, 0), write(1, 0), write(2, 0)], [[0, 1], [0, 2], [1, 2]]],

  "neighbouring bytes": [[write(0, 0, 1), write(1, 1, 1), write(0, 2, 2), write(1, 4, 4)], []],
  "the last byte of one is the first of the other": [[write(0, 0, 5), write(1, 4)], [[0, 1]]],
  "one byte amid a long range": [[write(0, 0, 64), read(1, 40, 1)], [[0, 1]]],
  "the same bytes of another block": [[write(0, 0, 4, 0), write(1, 0, 4, 1)], []],

  "both atomic on the same bytes": [[store(0, 0), store(1, 0), load(2, 0), add(0, 0), fails(1, 0)], []],
  "an atomic write and an ordinary read": [[store(0, 0), read(1, 0)], [[0, 1]]],
  "an ordinary write and an atomic read": [[write(0, 0), load(1, 0)], [[0, 1]]],
  "an addition and an ordinary read": [[add(0, 0), read(1, 0)], [[0, 1]]],
  "an atomic read and an ordinary read": [[load(0, 0), read(1, 0)], []],
  "two sizes of atomics that overlap": [[store(0, 0, 4), store(1, 0, 2), load(2, 2, 2)], [[0, 1], [0, 2]]],
  "two sizes of atomic reads": [[load(0, 0, 4), load(1, 0, 2)], []],

  "published by a flag": [[write(0, 8), store(0, 0), load(1, 0), read(1, 8)], []],
  "a flag of eight bytes": [[write(0, 8), store(0, 0, 8), load(1, 0, 8), read(1, 8)], []],
  "the flag was read too early": [[write(0, 8), load(1, 0), store(0, 0), read(1, 8)], [[0, 3]]],
  "another flag was read": [[write(0, 8), store(0, 0), load(1, 4), read(1, 8)], [[0, 3]]],
  "the flag in another block was read": [[write(0, 8), store(0, 0), load(1, 0, 4, 1), read(1, 8)], [[0, 3]]],
  "a flag is read by an ordinary read": [[write(0, 8), store(0, 0), read(1, 0), read(1, 8)], [[0, 3], [1, 2]]],
  "a flag is set by an ordinary write": [[write(0, 8), write(0, 0), load(1, 0), read(1, 8)], [[0, 3], [1, 2]]],
  "published before it was written": [[store(0, 0), load(1, 0), write(0, 8), read(1, 8)], [[2, 3]]],
  "written after it was published": [[store(0, 0), write(0, 8), load(1, 0), read(1, 8)], [[1, 3]]],
  "read before the flag": [[write(0, 8), store(0, 0), read(1, 8), load(1, 0)], [[0, 2]]],
  "a flag says nothing of what its reader did": [[write(1, 8), store(0, 0), load(1, 0), read(0, 8)], [[0, 3]]],
  "from one to the next": [[write(0, 8), store(0, 0), load(1, 0), store(1, 4), load(2, 4), read(2, 8)], []],
  "from one to the next, the second flag too early": [
    [write(0, 8), store(1, 4), store(0, 0), load(1, 0), load(2, 4), read(2, 8)], [[0, 5]],
  ],
  "two readers of one flag": [
    [write(0, 8), store(0, 0), load(1, 0), load(2, 0), read(1, 8), read(2, 8), write(2, 8)], [[4, 6]],
  ],

  "a lock": [[add(0, 0), write(0, 8), store(0, 0), add(1, 0), read(1, 8), write(1, 8)], []],
  "a lock given free too early": [[add(0, 0), store(0, 0), add(1, 0), write(1, 8), read(0, 8)], [[3, 4]]],

  "a chain of additions": [[write(0, 8), add(0, 0), add(1, 0), add(2, 0), read(2, 8)], []],
  "a store amid the chain": [[write(0, 8), add(0, 0), store(1, 0), add(2, 0), read(2, 8)], [[0, 4]]],
  "a failed compareExchange reads": [[write(0, 8), store(0, 0), fails(1, 0), read(1, 8)], []],
  "a failed compareExchange writes nothing": [[write(0, 8), fails(0, 0), load(1, 0), read(1, 8)], [[0, 3]]],
  "a failed compareExchange leaves the store to be read": [
    [write(0, 8), store(0, 0), fails(1, 0), load(2, 0), read(2, 8), write(1, 12), read(2, 12)], [[5, 6]],
  ],
  "a failed compareExchange and an ordinary read": [[fails(0, 0), read(1, 0)], []],
  "a failed compareExchange and an ordinary write": [[fails(0, 0), write(1, 0)], [[0, 1]]],

  "a flag read by another size": [[write(0, 8), store(0, 0), load(1, 0, 1), read(1, 8)], [[0, 3], [1, 2]]],
  "a flag at another byte of the same size": [
    [write(0, 8), store(0, 0, 2), load(1, 2, 2), read(1, 8)], [[0, 3]],
  ],
  "an atomic read reads from two writers": [
    [write(0, 8), write(1, 12), store(0, 0, 4), store(1, 1, 1), load(2, 0, 4), read(2, 8), read(2, 12)],
    [[1, 6], [2, 3], [3, 4]],
  ],
  "a flag of two bytes, one of them added to": [
    [write(0, 8), store(0, 0, 2), add(1, 0, 1), load(2, 0, 2), read(2, 8)], [[1, 2], [2, 3]],
  ],
  "no byte is left of a store": [
    [write(0, 8), store(0, 0, 4), store(1, 0, 2), store(1, 2, 2), load(2, 0, 4), read(2, 8)],
    [[0, 5], [1, 2], [1, 3], [2, 4], [3, 4]],
  ],
  "one byte is left of a store": [
    [write(0, 8), store(0, 0, 4), write(1, 0, 3), load(2, 0, 4), read(2, 8)], [[1, 2], [2, 3]],
  ],
  "an ordinary write over the flag": [
    [write(0, 8), store(0, 0), write(1, 0), load(2, 0), read(2, 8)], [[0, 4], [1, 2], [2, 3]],
  ],
  "a newer store over the flag": [[write(0, 8), store(0, 0), store(1, 0), load(2, 0), read(2, 8)], [[0, 4]]],

  "zeros happen before everything": [[load(0, 0), read(1, 0), fails(2, 0), wait(3, 0)], []],
  "who reads the same zero is not ordered": [[write(0, 8), load(0, 0), load(1, 0), read(1, 8)], [[0, 3]]],
  "a zero is read, then written": [[read(0, 0), store(1, 0)], [[0, 1]]],

  "handed over by a wake-up": [[wait(1, 0), write(0, 8), notify(0, 0), leave(1, 0), read(1, 8)], []],
  "handed over to one whose time was up just then": [
    [wait(1, 0), wait(2, 0), write(0, 8), notify(0, 0), leave(2, 0), leave(1, 0), read(1, 8), read(2, 8)], [],
  ],
  "the time was up before the notify": [
    [wait(1, 0), write(0, 8), leave(1, 0), notify(0, 0), read(1, 8)], [[1, 4]],
  ],
  "written after the notify": [[wait(1, 0), notify(0, 0), write(0, 8), leave(1, 0), read(1, 8)], [[2, 4]]],
  "written before a wait, read after a notify": [[write(1, 8), wait(1, 0), notify(0, 0), read(0, 8)], []],
  "a notify that nobody awaits, and a later wait": [[write(0, 8), notify(0, 0), wait(1, 0), read(1, 8)], []],
  "two notifies": [[write(0, 8), notify(0, 0), notify(1, 0), read(1, 8)], []],
  "two waits": [[write(0, 8), wait(0, 0), wait(1, 0), read(1, 8)], []],
  "two that leave": [
    [wait(0, 0), wait(1, 0), notify(2, 0), leave(0, 0), write(0, 8), leave(1, 0), read(1, 8)], [[4, 6]],
  ],
  "critical sections, one after the other": [
    [write(0, 8), notify(0, 0), notify(1, 0), leave(2, 0), read(2, 8), write(1, 8)], [[4, 5]],
  ],
  "critical sections of different places": [
    [wait(1, 4), write(0, 8), notify(0, 0), leave(1, 4), read(1, 8)], [[1, 4]],
  ],
  "critical sections of different blocks": [
    [write(0, 8), notify(0, 0, 4, 0), notify(1, 0, 4, 1), read(1, 8)], [[0, 3]],
  ],
  "waits of two sizes at one place": [[write(0, 8), notify(0, 0, 4), wait(1, 0, 8), read(1, 8)], []],

  "a wait reads its word atomically": [[write(0, 8), store(0, 0), wait(1, 0), read(1, 8)], []],
  "a wait and an ordinary write of its word": [[write(0, 0), wait(1, 0)], [[0, 1]]],
  "a wait, then an ordinary write of its word": [[wait(0, 0), write(1, 0)], [[0, 1]]],
  "a wait and a store of another size": [[store(0, 0, 8), wait(1, 0, 4)], [[0, 1]]],
  "a wait and an ordinary read": [[wait(0, 0), read(1, 0)], []],
  "a notify touches no bytes": [[write(0, 0), notify(1, 0), write(2, 0, 1)], [[0, 2]]],
  "who leaves touches no bytes": [[wait(1, 0), notify(0, 0), write(0, 0), leave(1, 0)], []],
};

for (const [name, [events, expected]] of Object.entries(RUNS)) {
  test(`races of a run: ${name}`, () => {
    assert.deepEqual(pairsByClocks(events), expected);
    assert.deepEqual(slowRaces(events), expected, "the second judge");
  });
}

test("a block handed on a thousand times is ordered, except for the agent that takes it by itself", () => {
  const turns = Array.from({ length: 1_000 }, (_, turn) => turn % 3);
  const events = turns.flatMap((agent) => [load(agent, 0), write(agent, 8), store(agent, 0)]);
  assert.deepEqual(pairsByClocks(events), []);
  // Agent 1 had its last turn before the last two turns, whose writes are the second of three events each.
  assert.deepEqual(pairsByClocks([...events, write(1, 8)]), [[998 * 3 + 1, 3_000], [999 * 3 + 1, 3_000]]);
});

test("clocks and the search agree on 2,000 random lists of events", () => {
  let racy = 0;
  for (let seed = 1; seed <= 2_000; seed += 1) {
    const events = randomEvents(seed);
    const expected = slowRaces(events);
    assert.deepEqual(pairsByClocks(events), expected, `seed ${seed}`);
    racy += expected.length > 0 ? 1 : 0;
  }
  assert.ok(racy > 500 && racy < 1_500, `${racy} of them are racy`);
});

test("bytes far behind those that a script can have race like others, in whatever block they are", () => {
  const [block, far] = [70_000, 2 ** 31 - 16];
  const flag = (agent) => [write(agent, far, 8, block), store(agent, far + 8, 4, block)];
  const events = [...flag(0), load(1, far + 8, 4, block), read(1, far, 8, block), write(0, far + 4, 4, block)];
  const found = racesOf(logOf(events.map((one, index) => ({ ...one, source: index + 1 }))), 2, block + 1);
  assert.deepEqual(found, [{ one: 3, other: 4, block, byte: far + 4 }]);
});

test("races of repeated lines of code are reported once, and no pair of lines is left out", () => {
  for (let seed = 1; seed <= 500; seed += 1) {
    const events = randomEvents(seed).map((one, index) => ({ ...one, source: 1 + index % 3 }));
    const agents = 1 + Math.max(...events.map(({ agent }) => agent));
    const found = racesOf(logOf(events), agents).map(({ one, other }) => [one, other]);
    assert.deepEqual(racesOf(logOf(events), agents, MORE_BLOCKS).map(({ one, other }) => [one, other]), found);
    const racing = slowRaces(events);
    const racingPairs = new Set(racing.map(String));
    for (const pair of found) assert.ok(racingPairs.has(String(pair)), `seed ${seed}: ${pair} don't race`);
    const spelled = found.map(([one, other]) => `${lineName(events[one])}, ${lineName(events[other])}`);
    assert.equal(new Set(spelled).size, spelled.length, `seed ${seed}: one was reported twice`);
    assert.deepEqual(linesOf(events, found), linesOf(events, racing), `seed ${seed}`);
  }
});

/** Who makes an access, where in the code, and what it does. */
const lineName = ({ agent, source, read, write, atomic }) => [agent, source, read, write, atomic].join(" ");

/** The different pairs, whatever the order of the two. */
function linesOf(events, pairs) {
  const spelled = pairs.map(([one, other]) => [lineName(events[one]), lineName(events[other])].sort().join(", "));
  return [...new Set(spelled)].sort();
}

test("without known lines of code, each agent's reads and writes by a view race once with each other's", () => {
  const view = (kind, offset) => ({ kind, offset, length: 4 });
  const log = new Log(Log.memory(64), new Int32Array(1), 0);
  const access = (agent, flag, byte, by) => {
    log.append(flag === FLAG.READS ? READ : WRITE, agent, NO_CALL, flag, 0, 0, byte, byte + 1, by, 0);
  };
  const whole = view(1, 0);
  const part = view(1, 2);
  for (let byte = 0; byte < 4; byte += 1) access(0, FLAG.WRITES, byte, whole);
  for (let byte = 0; byte < 4; byte += 1) access(1, FLAG.READS, byte, whole);
  for (let byte = 2; byte < 4; byte += 1) access(1, FLAG.READS, byte, part);
  for (let byte = 0; byte < 4; byte += 1) access(1, FLAG.WRITES, byte, whole);
  const pairs = racesOf(log, 2).map(({ one, other, byte }) => [one, other, byte]);
  // Event 4 is the first read by the whole view, 8 the first by the part, and 10 the first write.
  assert.deepEqual(pairs, [[0, 4, 0], [2, 8, 2], [0, 10, 0]]);
});

test("alternating reads and writes are joined in the log, and race as before", () => {
  const log = new Log(Log.memory(64), new Int32Array(1), 0);
  const view = { kind: 1, offset: 0, length: 8 };
  const noted = (what, agent, byte, since, by = view) => {
    const flag = what === READ ? FLAG.READS : FLAG.WRITES;
    if (log.extend(what, agent, 0, byte, byte + 1, by, since)) return;
    log.append(what, agent, NO_CALL, flag, 0, 0, byte, byte + 1, by, 0);
  };
  const ranges = () => Array.from({ length: log.length }, (_, at) =>
    [log.whatAt(at), log.agentAt(at), log.fromAt(at), log.toAt(at)]);
  for (let byte = 0; byte < 4; byte += 1) for (const what of [READ, WRITE]) noted(what, 0, byte, 0);
  assert.deepEqual(ranges(), [[READ, 0, 0, 4], [WRITE, 0, 0, 4]]);
  // Another agent's events, and those before its own call, aren't gone on with; nor is what another view has read.
  noted(WRITE, 1, 4, 2);
  noted(READ, 1, 5, 2);
  noted(READ, 1, 6, 2, { ...view, kind: 0 });
  noted(WRITE, 1, 5, 2);
  const later = [[WRITE, 1, 4, 5], [READ, 1, 5, 6], [READ, 1, 6, 7], [WRITE, 1, 5, 6]];
  assert.deepEqual(ranges().slice(2), later);
  const { length } = log;
  noted(WRITE, 1, 6, length);
  assert.equal(log.length, length + 1);
  assert.deepEqual(racesOf(log, 2), []);
  noted(READ, 1, 3, log.length);
  assert.deepEqual(racesOf(log, 2), [{ one: 1, other: length + 1, block: 0, byte: 3 }]);
});

test("a run reports at most a thousand pairs of lines that race, and counts the others", () => {
  const LINES = 40;
  // Agent 0 writes a byte on each of 40 lines, and agent 1 reads it on each of 40 others: 1,600 pairs.
  const access = (agent, source) => ({ ...(agent === 0 ? write : read)(agent, 0, 1), source });
  const numbers = Array.from({ length: LINES }, (_, line) => line + 1);
  const log = logOf([0, 1].flatMap((agent) => numbers.map((source) => access(agent, source))));
  const sources = [0, 1].map((agent) => ["", ...numbers.map((line) => `file:///a/agents.mjs:${line}:${agent + 1}`)]);
  const run = { log, records: [{}, {}], lengths: [4], canBlock: [true, true] };
  const sourceNames = new SourceNames("file:///a/agents.mjs");
  const reports = raceReports({ run, transcript: { calls: [[], []] }, sources, sourceNames });
  assert.equal(reports.length, 1_000);
  assert.equal(new Set(reports.map(({ lines }) => lines.join(" "))).size, 1_000);
  assert.ok(reports.at(-1).text.endsWith("\nand 600 more"), reports.at(-1).text);
  assert.ok(reports.slice(0, -1).every(({ text }) => !text.includes("more")));
  const [writes, reads] = reports[0].sides;
  assert.deepEqual([writes.agent, writes.access, reads.agent, reads.access], [0, "write", 1, "read"]);
  assert.equal(reads.source, "agents.mjs:1:2", "the first read comes first");
  assert.deepEqual(reports[0].lines, [writes.source, reads.source].sort());
});
