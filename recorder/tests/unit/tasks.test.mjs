// The tasks of a thread's loop: in which orders results can come.

import assert from "node:assert/strict";
import { test } from "node:test";
import { Tasks } from "../../lib/program/loop/tasks.mjs";
import { OF_ENGINE, ONE_TRIP } from "../../lib/program/sync/trips.mjs";

const SEEDS = 400;

/**
 * @param {[string, import("../../lib/program/sync/trips.mjs").Order | undefined][]} begun in this order
 * @param {boolean} [isPilot]
 * @returns {Map<string, number>} how often each order came
 */
function ordersOf(begun, isPilot = false) {
  const found = new Map();
  for (let seed = 1; seed <= SEEDS; seed += 1) {
    const tasks = new Tasks();
    tasks.begin(seed, 0, isPilot);
    for (const [text, order] of begun) tasks.push({ text, place: undefined, act: () => {}, order });
    let came = "";
    while (tasks.count > 0) came += tasks.take().text;
    found.set(came, (found.get(came) ?? 0) + 1);
  }
  return found;
}

/** @param {[string, import("../../lib/program/sync/trips.mjs").Order | undefined][]} begun */
const namesOf = (begun) => [...ordersOf(begun).keys()].sort();

test("half of the seeds keep the order, and in the others each of two results is as likely", () => {
  const found = ordersOf([["a", ONE_TRIP], ["b", ONE_TRIP]]);
  assert.deepEqual([...found.keys()].sort(), ["ab", "ba"]);
  const share = /** @type {number} */ (found.get("ba")) / SEEDS;
  assert.ok(share > 0.2 && share < 0.3, `${share}`);
});

test("a pilot run keeps the order", () => {
  assert.deepEqual([...ordersOf([["a", ONE_TRIP], ["b", ONE_TRIP], ["c", OF_ENGINE]], true).keys()], ["abc"]);
});

test("what takes several trips mostly comes behind what takes one", () => {
  const found = ordersOf([["a", { trips: 4 }], ["b", ONE_TRIP]]);
  const kept = ordersOf([["a", ONE_TRIP], ["b", ONE_TRIP]]);
  assert.ok(/** @type {number} */ (found.get("ba")) > 1.4 * /** @type {number} */ (kept.get("ba")));
});

test("the thread's own tasks keep their order, and results come among them", () => {
  assert.deepEqual(namesOf([["a", undefined], ["b", undefined], ["c", ONE_TRIP]]), ["abc", "acb", "cab"]);
});

test("what belongs to one folder comes in its order", () => {
  const folder = {};
  const order = { trips: 1, of: folder, isLast: true };
  assert.deepEqual(namesOf([["a", order], ["b", { ...order }], ["c", ONE_TRIP]]), ["abc", "acb", "cab"]);
});

test("a file is closed behind all that was begun with it, also behind what takes several trips", () => {
  const handle = {};
  const found = namesOf([
    ["a", { trips: 2, of: handle }], ["b", { trips: 1, of: handle }], ["c", { trips: 1, of: handle, isLast: true }],
    ["d", { trips: 1, of: {} }],
  ]);
  assert.ok(found.length > 4);
  for (const order of found) assert.ok(order.indexOf("c") > Math.max(order.indexOf("a"), order.indexOf("b")), order);
});

test("four requests are under way at once: the sixth result can't come before two others", () => {
  const begun = /** @type {[string, any][]} */ ([..."abcdef"].map((text) => [text, ONE_TRIP]));
  const found = namesOf(begun);
  assert.ok(found.some((order) => order.startsWith("d")));
  assert.ok(found.every((order) => !/^[ef]/.test(order) && order.indexOf("f") > 1));
  assert.ok(namesOf([...begun, ["g", OF_ENGINE]]).some((order) => order.startsWith("g")));
});
