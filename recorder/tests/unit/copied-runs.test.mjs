// Copies of what was written down of runs: they stay as they were when later runs write others, also beside each other.

import assert from "node:assert/strict";
import { test } from "node:test";
import { CopiedRuns } from "../../lib/memory/copied-runs.mjs";
import { wordsFor } from "../../lib/memory/layout.mjs";
import { Log } from "../../lib/memory/log.mjs";
import { RecordedMemory } from "../../lib/memory/recorded-memory.mjs";
import { Records } from "../../lib/memory/records.mjs";
import { CopiedStores, Stores } from "../../lib/memory/stores.mjs";

const INT32 = 5;
const STORE = 1;
const MAKE = 0;
const VIEW = { kind: INT32, block: 0, offset: 0, length: 4 };
const BYTES = 16;

/** What two agents write down of runs: in run N the stores of N, N + 1 .. at element N mod 4, and so many events. */
class Written {
  constructor() {
    this.bytes = new Uint8Array(new SharedArrayBuffer(BYTES));
    const memory = new RecordedMemory([this.bytes.buffer], [new SharedArrayBuffer(BYTES)]);
    this.records = [new Records(Records.memory()), new Records(Records.memory())];
    this.log = new Log(Log.memory(4_096), new Int32Array(1), 0);
    this.stores = new Stores(Stores.memory([BYTES]), new Int32Array(wordsFor(2)), memory);
  }

  /** @param {number} run @param {number[]} calls of each agent */
  write(run, calls) {
    const { log, records, stores } = this;
    log.begin();
    stores.begin();
    calls.forEach((count, agent) => {
      for (let call = 0; call < count; call += 1) {
        const made = { call: STORE, ...VIEW, index: run % 4, operands: [run + call], limit: undefined };
        records[agent].begin(call, made);
        records[agent].answer(call, run + call);
        log.append(MAKE, agent, STORE, 0, call, 0, 4 * (run % 4), 4 * (run % 4) + 4, VIEW, 0);
      }
    });
    this.bytes.fill(run % 251, 0, 1 + run % BYTES);
    stores.takeChanged(1, log.length, 0);
  }
}

/**
 * All that is read off a copy.
 * @param {import("../../lib/memory/copied-runs.mjs").CopiedParts} parts
 * @param {number[]} calls
 */
function readOf({ records, events, stores }, calls) {
  const log = Log.from(events);
  return {
    calls: records.map((each, agent) =>
      Array.from({ length: calls[agent] }, (_, at) => ({ ...each.callAt(at), ...each.doneAt(at) }))),
    events: Array.from({ length: log.length }, (_, at) => log.at(at)),
    stores: new CopiedStores(stores).list().map((store) => ({ ...store, bytes: [...store.bytes] })),
  };
}

test("a copy stays as it was when later runs write others, in its slot or in memory of its own", () => {
  const memory = CopiedRuns.memory();
  const copies = new CopiedRuns(memory);
  const reader = new CopiedRuns(memory);
  const written = new Written();
  const made = [];
  // There are fewer slots.
  for (let run = 1; run <= 40; run += 1) {
    const calls = [run % 7, 1 + run % 3];
    written.write(run, calls);
    const { log, records, stores } = written;
    const copy = copies.copy(log, records, stores, calls);
    made.push({ copy, calls, was: readOf(reader.parts(copy), calls) });
  }
  assert.equal(made.filter(({ copy }) => copy.own === undefined).length, 32);
  assert.equal(new Set(made.slice(0, 32).map(({ copy }) => copy.slot)).size, 32);
  made.forEach(({ copy, calls, was }, at) => {
    const is = readOf(reader.parts(copy), calls);
    assert.deepEqual(is, was);
    const run = at + 1;
    assert.deepEqual(is.events.map(({ agent, call, from }) => [agent, call, from]), calls.flatMap((count, agent) =>
      Array.from({ length: count }, (_, call) => [agent, call, 4 * (run % 4)])));
    assert.equal(is.stores.length > 0, true);
    assert.deepEqual(is.calls[1].map(({ index }) => index), Array(calls[1]).fill(run % 4));
  });
});

test("a slot that was freed is used again, and no other one", () => {
  const copies = new CopiedRuns(CopiedRuns.memory());
  const written = new Written();
  const calls = [2, 1];
  written.write(1, calls);
  const { log, records, stores } = written;
  const made = Array.from({ length: 32 }, () => copies.copy(log, records, stores, calls));
  copies.free(made[5]);
  copies.free(made[9]);
  const slots = Array.from({ length: 3 }, () => copies.copy(log, records, stores, calls).slot);
  assert.deepEqual(slots, [made[5].slot, made[9].slot, -1]);
});

test("a long run has memory of its own, and frees no slot", () => {
  const copies = new CopiedRuns(CopiedRuns.memory());
  const written = new Written();
  const calls = [1_000, 1];
  written.write(3, calls);
  const { log, records, stores } = written;
  const long = copies.copy(log, records, stores, calls);
  assert.equal(long.slot, -1);
  const before = readOf(copies.parts(long), calls);
  copies.free(long);
  written.write(4, [1, 1]);
  assert.equal(copies.copy(log, records, stores, [1, 1]).slot, 0);
  assert.deepEqual(readOf(copies.parts(long), calls), before);
  assert.equal(before.calls[0].length, 1_000);
});
