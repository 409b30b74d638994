// What a page shows of a changed schedule, against what is reasoned out by hand; and where the places that a check
// names stand in a script's text.

import assert from "node:assert/strict";
import { test } from "node:test";
import { callLines, changedData, differenceText, elementLines, marksOf, scriptData } from "../../page/changed.mjs";
import { Run } from "../../page/model.mjs";
import { spanOfPlace } from "../../page/places.mjs";
import { HANDED } from "../helpers/handed.mjs";
import { EVENTS, FACTS, runOf } from "../helpers/page-run.mjs";

// The run by hand of `page-run.mjs`, as its report is when agent 0 moves first: agent 1 doesn't wait at first, and
// nobody is woken. Its script has agent 0's ordinary store, a store and a notify, and two waits of agent 1.
const SCRIPT = {
  agents: [
    { calls: [["store", "ordinary_slots", 1, 7], ["store", "FLAG", 0, -1], ["notify", "FLAG", 0]] },
    { calls: [["wait", "FLAG", 0, 0], ["wait", "FLAG", 0, -1]] },
  ],
};
const [WAIT, ORDINARY, STORE, NOTIFY, , SECOND, ...ENDS] = FACTS;
const REPORT = {
  entries: [
    { ...ORDINARY, entry: 1 }, { ...STORE, entry: 4 },
    { ...NOTIFY, entry: 7, answer: 0, found: { waited: 0, woken: [] } },
    { ...WAIT, entry: 10, what: "act", answer: "not-equal", found: { element: -1 } },
    { agent: 0, entry: 12, call: 3, what: "stuck", why: "done", does: [] }, { ...SECOND, entry: 14 },
    { ...SECOND, entry: 15, what: "stuck", why: "waiting", since: 14, found: { in_line: true } },
  ],
  blocks: [], agents: ENDS,
};
const changed = () => new Run(changedData(runOf().data, SCRIPT, REPORT));

test("a changed run has the calls in their new order, and each agent's ordinary accesses between its calls", () => {
  const { data, steps } = changed();
  const shown = steps.map(({ agent, entry, text, answer, place }) => [agent, entry, text, answer, data.places[place]]);
  assert.deepEqual(shown, [
    [undefined, undefined, "the start", "", undefined],
    [0, undefined, "reads slots[0] to slots[1]", "", "a.mjs:2:1"],
    [0, 1, "writes slots[1]", "", "b.mjs:3:1"],
    [0, 4, "store(FLAG, 0, -1)", "", "a.mjs:4:1"],
    [0, 7, "notify(FLAG, 0)", "wakes nobody", "a.mjs:5:1"],
    [1, 10, "wait(FLAG, 0, 0)", "= not-equal", "a.mjs:1:1"],
    [1, undefined, "reads slots[1]", "", "a.mjs:6:1"],
    [0, 12, "no call", "can't move", undefined],
    [1, 14, "wait(FLAG, 0, -1)", "waits", "a.mjs:7:1"],
    [1, 15, "wait(FLAG, 0, -1)", "can't move", undefined],
    [undefined, undefined, "the end: agent 1 has calls that haven't returned", "", undefined],
  ]);
  assert.equal(steps[9].sentence, "waits at FLAG[0] since 14, in wait(FLAG, 0, -1)");
});

test("an agent that can't move still waits, or has ended", () => {
  const run = changed();
  const { agents } = run.stateAt(run.steps.length - 1);
  assert.deepEqual(agents.map(({ is }) => is), ["done", "waits"]);
});

test("the trace of other calls gives a changed run no places", () => {
  const events = runOf().data.events.filter(({ does }) => does !== "notify");
  const { steps } = new Run(changedData({ ...runOf().data, events }, SCRIPT, REPORT));
  assert.ok(EVENTS.length > events.length && steps.every(({ place }) => place === -1));
});

test("differences are listed by calls, and by elements at the end", () => {
  const differences = {
    answers: [{ agent: 0, call: 2, does: NOTIFY.does, before: 1, after: 0 },
      { agent: 1, call: 0, does: ["load", "big", 0], before: "-5", after: undefined }],
    woken: [{ agent: 0, call: 2, does: NOTIFY.does, before: [1], after: [] }],
    bytes: [{ block: 0, byte: 0, before: "0011", after: "2233" }, { block: 1, byte: 1, before: "00", after: "01" }],
  };
  const lines = callLines(differences);
  assert.deepEqual(lines, [
    { agent: 0, call: 2, what: "notify(FLAG, 0)", before: "wakes 1", after: "wakes nobody" },
    { agent: 1, call: 0, what: "load(big, 0)", before: "-5n", after: "no answer" },
  ]);
  assert.equal(differenceText(differences),
    "2 calls have another answer; 1 notify wakes other agents; 3 bytes differ at the end.");
  const same = { answers: [], woken: [], bytes: [] };
  assert.equal(differenceText(same), "Every answer, every wake-up and every byte at the end is the same.");
  assert.deepEqual([...marksOf(lines, REPORT)], [[7, "before: wakes 1"], [10, "before: -5n"]]);
  const [one, other] = [runOf(), runOf({}, FACTS.with(1, { ...ORDINARY, found: { before: 0, after: 9 } }))];
  assert.deepEqual(elementLines(one, other), [{ what: "slots[1] at the end", before: "7", after: "9" }]);
});

test("a script without a run gives its views' lengths, and its blocks are counted", () => {
  const { schedule, ...script } = HANDED;
  const written = [{ name: "w", kind: "Int32", offset: 4, length: null }];
  const old = { ...script, blocks: undefined, bytes: 10, views: written };
  const report = { entries: [], blocks: [], agents: [] };
  const { blocks, views, agents, ending } = scriptData(old, report);
  assert.deepEqual([blocks, views, agents, ending], [
    [10], [{ name: "w", kind: "Int32", block: 0, offset: 4, length: 1 }], 3, "every call has returned",
  ]);
});

test("the places that a check reports are found in the text", () => {
  const text = '{"a": [1, {"b": "x,]"}, []],\n "é": {"c" :  7}, "a2": 8, "a": [9]}';
  const shown = (place) => {
    const span = spanOfPlace(text, place);
    return span && text.slice(...span);
  };
  assert.deepEqual(["script", "a", "a[0]", "a2", "none"].map(shown), [text, "[9]", "9", "8", undefined]);
  const lines = ["line 1, column 7", "line 2, column 6", "line 2, column 3"];
  assert.deepEqual(lines.map(shown), ["[", ":", "é"]);
  const calls = '{"agents": [{"calls": [["load", "x", 0], ["stoer", "y" , 1]]}]}';
  assert.equal(calls.slice(...spanOfPlace(calls, "agents[0].calls[1][0]")), '"stoer"');
  assert.equal(calls.slice(...spanOfPlace(calls, "agents[0].calls[1]")), '["stoer", "y" , 1]');
});
