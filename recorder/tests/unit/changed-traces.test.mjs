// Traces of which one byte is changed. A reader that is written from docs/FORMATS.md alone says which line of each is
// refused, and for what. If none is, the slow judge says whether it races. Sabsim must say the same.

import assert from "node:assert/strict";
import { readFileSync } from "node:fs";
import { test } from "node:test";
import { simulatedBeside } from "../helpers/programs.mjs";
import { slowJudge } from "../helpers/slow-judge.mjs";
import { jsonText, statusOf } from "../helpers/verdict-texts.mjs";

const ROWS = new URL("../judge-rows/", import.meta.url);
const FORMATS = new URL("../../../docs/FORMATS.md", import.meta.url);
const LINE_FEED = 10;

// What a byte is changed to: signs of JSON, digits, what ends a line, and a byte that no text in UTF-8 has alone.
const SIGNS = [...Buffer.from('"019-e}],: \n.'), 0x80];
const EACH = 3;
const AT_ONCE = 8;

/** The sizes that go with a deed: of an element, of one at which agents wait, of an ordinary access. */
const OF_ELEMENT = (size) => [1, 2, 4, 8].includes(size);
const OF_PLACE = (size) => [4, 8].includes(size);
const OF_STRETCH = (size) => size >= 1 && size <= 65_536;

/** What an event can do: read, write, atomic and waiters, as letters or dots; whether it is a call; its sizes. */
const CHANGE = { flags: ["rwa."], isCall: true, fits: OF_ELEMENT };
const RETURN = { flags: ["...w"], isCall: false, fits: OF_PLACE };
const DEEDS = {
  load: { flags: ["r.a."], isCall: true, fits: OF_ELEMENT },
  store: { flags: [".wa."], isCall: true, fits: OF_ELEMENT },
  add: CHANGE, sub: CHANGE, and: CHANGE, or: CHANGE, xor: CHANGE, exchange: CHANGE,
  compareExchange: { flags: ["r.a.", "rwa."], isCall: true, fits: OF_ELEMENT },
  wait: { flags: ["r.aw"], isCall: true, fits: OF_PLACE },
  notify: { flags: ["...w"], isCall: true, fits: OF_PLACE },
  leave: RETURN, "time-up": RETURN,
  read: { flags: ["r..."], isCall: false, fits: OF_STRETCH },
  write: { flags: [".w.."], isCall: false, fits: OF_STRETCH },
};

/** The flags of an event. @param {any} event */
const flagsOf = ({ read, write, atomic, waiters }) =>
  `${read ? "r" : "."}${write ? "w" : "."}${atomic ? "a" : "."}${waiters ? "w" : "."}`;

/** Whether the flags are ones that such an event can have. @param {any} event */
function hasItsFlags(event) {
  const { flags, isCall } = DEEDS[event.does];
  const found = flagsOf(event);
  return flags.includes(found) || (isCall && found === "....");
}

/** The words of docs/FORMATS.md for sizes, and for whether an event writes. */
const SIZE_WORDS = new Map([["1, 2, 4 or 8", OF_ELEMENT], ["4 or 8", OF_PLACE], ["1 to 65,536", OF_STRETCH]]);
const WRITES = { true: [true], false: [false], "whether it exchanges": [false, true] };

test("docs/FORMATS.md has this table of deeds", () => {
  const [, table] = /\n\| `does` \|.*\n\|[-|]+\n((?:\|.*\n)+)/.exec(readFileSync(FORMATS, "utf8"));
  const rows = table.trimEnd().split("\n").map((row) => row.split("|").slice(1, -1).map((cell) => cell.trim()));
  assert.deepEqual(rows.pop(), ["a call that throws, `load` to `notify`", ...Array(4).fill("false"), "any"]);
  const documented = rows.flatMap(([deeds, read, write, atomic, waiters, size]) => {
    const is = { read: read === "true", atomic: atomic === "true", waiters: waiters === "true" };
    const flags = WRITES[write].map((it) => flagsOf({ ...is, write: it }));
    return [...deeds.matchAll(/`([\w-]+)`/g)].map(([, does]) => [does, flags, SIZE_WORDS.get(size)]);
  });
  const here = Object.entries(DEEDS).map(([does, { flags, fits }]) => [does, flags, fits]);
  assert.deepEqual(documented.sort(), here.sort());
});

/** @param {unknown} value */
const isWhole = (value) => Number.isSafeInteger(value) && !Object.is(value, -0);

/** The type of each member. */
const MEMBERS = {
  event: "number", agent: "number", call: "number", does: "string", block: "number", byte: "number", size: "number",
  read: "boolean", write: "boolean", atomic: "boolean", waiters: "boolean", source: "string",
};

/** @param {any} object */
function hasShape(object) {
  if (typeof object !== "object" || object === null || Array.isArray(object)) return false;
  const names = Object.keys(MEMBERS);
  if (Object.keys(object).length !== names.length || !names.every((name) => Object.hasOwn(object, name))) return false;
  const hasType = (name) => typeof object[name] === MEMBERS[name] || (name === "source" && object[name] === null);
  return names.every(hasType) && Object.hasOwn(DEEDS, object.does) && hasItsFlags(object);
}

/** @param {any} event */
const isThere = ({ block, byte, size }) =>
  block >= 0 && block <= 3 && byte >= 0 && size >= 1 && byte + size <= 65_536;

/** What is amiss with an event. @param {any} event @param {number} position */
function faultOf(event, position) {
  if (!hasShape(event)) return "10 BadShape";
  const { agent, call, block, byte, size, read, write, waiters } = event;
  const numbers = [event.event, agent, call, block, byte, size];
  if (!numbers.every(isWhole) || call < 0 || event.event !== position) return "12 BadNumber";
  const acts = read || write || waiters;
  if (acts && !DEEDS[event.does].fits(size)) return "12 BadNumber";
  if (agent < 0 || agent > 15) return "15 BadAgent";
  return acts && !isThere(event) ? "12 BadNumber" : undefined;
}

/** The lines of a trace, each without its line feed. @param {Uint8Array} bytes */
function linesOf(bytes) {
  const lines = [];
  for (let from = 0; from < bytes.length;) {
    const end = bytes.indexOf(LINE_FEED, from);
    const to = end < 0 ? bytes.length : end;
    lines.push(bytes.subarray(from, to));
    from = to + 1;
  }
  return lines;
}

/** A line as a value of JSON; undefined where it is none. @param {Uint8Array} line */
function valueOf(line) {
  try {
    return JSON.parse(new TextDecoder("utf-8", { fatal: true, ignoreBOM: true }).decode(line));
  } catch {
    return undefined;
  }
}

/** What must be said of a trace. @param {Uint8Array} bytes */
function expectedOf(bytes) {
  const events = linesOf(bytes).map(valueOf);
  const faults = events.map((event, at) => (event === undefined ? "16 NotJson" : faultOf(event, at)));
  const first = faults.findIndex((fault) => fault !== undefined);
  if (first >= 0) return { status: 1, output: "", errors: `sabsim: ${faults[first]}: line ${first + 1}\n` };
  const judged = slowJudge(events);
  return { status: statusOf(judged), output: jsonText(judged), errors: "" };
}

/** The traces of which one byte is changed. @param {Uint8Array} bytes */
function* changesOf(bytes) {
  for (let at = 0; at < bytes.length; at += 1) {
    for (let nth = 0; nth < EACH; nth += 1) {
      const sign = SIGNS[(at * EACH + nth) % SIGNS.length];
      if (sign !== bytes[at]) yield Uint8Array.from(bytes).fill(sign, at, at + 1);
    }
  }
}

/** Asks sabsim of a trace, and says what it must say. @param {Uint8Array} bytes */
async function demandOf(bytes) {
  const expected = expectedOf(bytes);
  const said = await simulatedBeside(["judge", "--trace", "--format", "json"], bytes);
  assert.deepEqual(said, expected, Buffer.from(bytes).toString("latin1"));
  return expected.status;
}

test("a trace of which one byte is changed is refused at its line, or judged as it stands", async () => {
  const trace = readFileSync(new URL("chain-broken-by-a-store.jsonl", ROWS));
  const changes = [...changesOf(trace)];
  const statuses = new Set();
  for (let from = 0; from < changes.length; from += AT_ONCE) {
    const some = changes.slice(from, from + AT_ONCE);
    for (const status of await Promise.all(some.map(demandOf))) statuses.add(status);
  }
  assert.deepEqual([...statuses].sort(), [0, 1, 5]);
});

const SIZES = [0, 1, 2, 3, 4, 8, 65_536, 65_537];

/** Traces of one event: each deed with all flags, and if these can be its flags, at many sizes. */
function* combinations() {
  for (const does of Object.keys(DEEDS)) {
    for (let flags = 0; flags < 16; flags += 1) {
      const [read, write, atomic, waiters] = [1, 2, 4, 8].map((bit) => (flags & bit) !== 0);
      const event = { event: 0, agent: 0, call: 0, does, block: 0, byte: 0, size: 4, read, write, atomic, waiters };
      for (const size of hasItsFlags(event) ? SIZES : [4]) {
        yield Buffer.from(`${JSON.stringify({ ...event, size, source: null })}\n`);
      }
    }
  }
}

test("an event is refused if its flags or its size don't go with what it does, and else judged", async () => {
  const all = [...combinations()];
  const counts = { 0: 0, 1: 0 };
  for (let from = 0; from < all.length; from += AT_ONCE) {
    const some = all.slice(from, from + AT_ONCE);
    for (const status of await Promise.all(some.map(demandOf))) counts[status] += 1;
  }
  // 11 calls that throw, at 8 sizes; 10 accesses by calls at 4, 4 events of waiters at 2, and 2 ordinary ones at 6.
  const judged = 88 + 40 + 8 + 12;
  assert.deepEqual(counts, { 0: judged, 1: all.length - judged });
});
