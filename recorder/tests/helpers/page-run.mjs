// What the tests of pages share: a run by hand.

import { runDataOf } from "../../lib/keeping/kept-page.mjs";
import { Run } from "../../page/model.mjs";

/** @typedef {import("../../lib/run/outcome.mjs").Outcome} Outcome */
/** @typedef {import("../../script/text.mjs").View} View */

// Agent 0 puts a byte into a slot and hands on a word; agent 1 waits for it, and takes the byte. Then agent 1 waits
// again, for ever.

/**
 * A view of a whole block.
 * @type {(name: string, kind: string, block: number, length: number) => View}
 */
export const view = (name, kind, block, length) => ({ name, kind, block, offset: 0, length });
export const SCRIPT = {
  blocks: [4, 2],
  views: [
    view("FLAG", "Int32", 0, 1), view("slots", "Uint8", 1, 2), view("ordinary_slots", "Uint8", 1, 2),
    view("ordinary_unseen", "Uint8", 0, 0),
  ],
};
export const FLAG = { block: 0, byte: 0 };
const wait = ["wait", "FLAG", 0, 0];
export const FACTS = [
  { agent: 1, entry: 1, call: 0, what: "wait", does: wait, place: FLAG, since: 0, found: { ahead: [] } },
  { agent: 0, entry: 3, call: 0, what: "act", does: ["store", "ordinary_slots", 1, 7], place: { block: 1, byte: 1 },
    answer: 7, since: 2, found: { before: 0, after: 7 } },
  { agent: 0, entry: 6, call: 1, what: "act", does: ["store", "FLAG", 0, -1], place: FLAG, answer: -1, since: 5,
    found: { before: 0, after: -1 } },
  { agent: 0, entry: 9, call: 2, what: "act", does: ["notify", "FLAG", 0], place: FLAG, answer: 1, since: 8,
    found: { waited: 1, woken: [1] } },
  { agent: 1, entry: 11, call: 0, what: "leave", does: wait, place: FLAG, answer: "ok", since: 1,
    found: { woken_by: 9 } },
  { agent: 1, entry: 14, call: 1, what: "wait", does: ["wait", "FLAG", 0, -1], place: FLAG, since: 13,
    found: { ahead: [] } },
  { agent: 0, of: 3, returned: 3 },
  { agent: 1, of: 2, returned: 1, standing: { at: "waits", does: ["wait", "FLAG", 0, -1], place: FLAG, since: 14,
    notified: false } },
];
const ORDINARY = { atomic: false, waiters: false };
export const EVENTS = [
  { agent: 1, call: 0, does: "wait", block: 0, byte: 0, size: 4, read: true, write: false, source: "a.mjs:1:1" },
  { agent: 0, call: 0, does: "read", block: 1, byte: 0, size: 2, read: true, write: false, ...ORDINARY,
    source: "a.mjs:2:1" },
  { agent: 0, call: 0, does: "write", block: 1, byte: 1, size: 1, read: false, write: true, ...ORDINARY,
    source: "b.mjs:3:1" },
  { agent: 0, call: 0, does: "store", block: 0, byte: 0, size: 4, read: false, write: true, source: "a.mjs:4:1" },
  { agent: 0, call: 1, does: "notify", block: 0, byte: 0, size: 4, read: false, write: false, source: "a.mjs:5:1" },
  { agent: 1, call: 0, does: "leave", block: 0, byte: 0, size: 4, read: false, write: false, source: "a.mjs:1:1" },
  { agent: 1, call: 1, does: "read", block: 1, byte: 1, size: 1, read: true, write: false, ...ORDINARY,
    source: "a.mjs:6:1" },
  { agent: 1, call: 1, does: "wait", block: 0, byte: 0, size: 4, read: true, write: false, source: "a.mjs:7:1" },
].map((event, at) => ({ event: at, atomic: true, waiters: false, ...event }));

/**
 * By which array the events 1, 2 and 6 were made, and what 6 has read.
 * @type {import("../../lib/run/script/array-accesses.mjs").ArrayAccesses}
 */
export const ACCESSES = {
  arrays: [{ name: "Uint8_b1", kind: "Uint8", block: 1, offset: 0, length: 2 }],
  made: [[1, 0, null], [2, 0, null], [6, 0, "7"]],
};

/**
 * Objects as lines of JSON.
 * @param {object[]} objects
 */
export const lines = (objects) => objects.map((each) => `${JSON.stringify(each)}\n`).join("");
const LINES = ["// The code", "const [one, other] = slots;", "slots[1] = 7;", "Atomics.store(words, FLAG, -1);",
  "Atomics.notify(words, FLAG);", "take(slots[1]);", "Atomics.wait(words, FLAG, -1);", ""];

/** @type {Outcome} */
export const OUTCOME = {
  seed: 5, ending: "deadlock", fails: true, detail: "agent 1 waits at FLAG", races: [], moves: 15, calls: 5,
  ordinary: 3, progress: [{ returned: 3, calls: 3 }, { returned: 1, calls: 2 }],
  state: { hash: "", shown: ["ffffffff", "0007"], named: null },
  script: JSON.stringify(SCRIPT), trace: lines(EVENTS), accesses: ACCESSES, scriptHolds: "all",
  sources: [{ file: "a.mjs", text: LINES.join("\n") }, { file: "b.mjs", text: null }],
};
export const FILE = "file:///somewhere/agents.mjs";

/**
 * The run by hand, with parts of its outcome and its facts changed.
 * @param {Partial<Outcome>} [parts]
 * @param {object[]} [facts]
 */
export const runOf = (parts = {}, facts = FACTS) => new Run(runDataOf({ ...OUTCOME, ...parts }, lines(facts), FILE));
