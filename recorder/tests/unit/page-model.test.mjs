// The model of a run's page: steps, memory, who waits, changes of agents and what fails, against what is reasoned out
// by hand; its words, against the explained reports of the repository's cases; and what a page is made of.

import assert from "node:assert/strict";
import { createHash } from "node:crypto";
import { readFileSync, readdirSync } from "node:fs";
import { join } from "node:path";
import { fileURLToPath } from "node:url";
import { test } from "node:test";
import { pageOfData, runDataOf } from "../../lib/keeping/kept-page.mjs";
import { UNSEEN_LINE } from "../../lib/run/script/trace.mjs";
import { valueAt } from "../../page/elements.mjs";
import { entryText, standingText } from "../../page/words.mjs";
import { KINDS, SIZES } from "../../script/kinds.mjs";
import { EVENTS, FACTS, FILE, FLAG, OUTCOME, SCRIPT, lines, runOf, view } from "../helpers/page-run.mjs";

const CASES = fileURLToPath(new URL("../../../tests/scripts", import.meta.url));
const EXAMPLES = fileURLToPath(new URL("../../../examples", import.meta.url));

/** The words behind the lines of an explained report, by the lines. */
function explainedLines(path) {
  const lines = readFileSync(path, "utf8").trimEnd().split("\n");
  return lines.map((line) => line.match(/ {2,}(.*)$/)?.[1]);
}

/** The views of a script, each with its length, which the recorder's scripts always have. */
function viewsOf({ views, bytes, blocks = [bytes] }) {
  return views.map(({ length, kind, block = 0, offset, ...rest }) => {
    const room = Math.floor((blocks[block] - offset) / SIZES[KINDS.indexOf(kind)]);
    return { ...rest, kind, block, offset, length: length ?? room };
  });
}

/** The entries of a report and the lines of its agents, with the words that are made of them. */
function wordsOf(path) {
  const views = viewsOf(JSON.parse(readFileSync(`${path}.json`, "utf8")));
  const known = { views: new Map(views.map((view) => [view.name, view])), waits: [] };
  return readFileSync(`${path}.jsonl`, "utf8").trimEnd().split("\n").map((line) => {
    const fact = JSON.parse(line);
    if (fact.what === "wait") known.waits[fact.agent] = fact.entry;
    if (fact.what !== undefined) return entryText({ does: [], ...fact }, known);
    return fact.standing && standingText(fact.standing);
  });
}

test("facts in words are those of the explained report", () => {
  let compared = 0;
  const subjects = readdirSync(CASES, { withFileTypes: true }).filter((each) => each.isDirectory());
  for (const folder of [EXAMPLES, ...subjects.map(({ name }) => join(CASES, name))]) {
    const names = readdirSync(folder).filter((name) => name.endsWith(".explained"));
    for (const name of names.map((each) => join(folder, each.replace(/\.explained$/, "")))) {
      const lines = explainedLines(`${name}.explained`);
      wordsOf(name).forEach((words, at) => {
        assert.equal(words, lines[at], `${name}: line ${at + 1}`);
        compared += words === undefined ? 0 : 1;
      });
    }
  }
  assert.ok(compared > 1_000, `${compared} lines`);
});

test("the steps of a run are its calls and its ordinary accesses, in their order", () => {
  const steps = runOf().steps.map(({ agent, entry, text, answer, place }) => [agent, entry, text, answer, place]);
  assert.deepEqual(steps, [
    [undefined, undefined, "the start", "", -1],
    [1, 1, "wait(FLAG, 0, 0)", "waits", 0],
    [0, undefined, "reads slots[0] to slots[1]", "", 1],
    [0, 3, "writes slots[1]", "", 2],
    [0, 6, "store(FLAG, 0, -1)", "", 3],
    [0, 9, "notify(FLAG, 0)", "wakes 1", 4],
    [1, 11, "wait(FLAG, 0, 0)", "goes on", 0],
    [1, undefined, "reads slots[1]", "= 7", 5],
    [1, 14, "wait(FLAG, 0, -1)", "waits", 6],
    [undefined, undefined, "the end: deadlock", "", -1],
  ]);
});

test("each step's sentence is its fact", () => {
  const sentences = runOf().steps.map(({ sentence }) => sentence);
  assert.deepEqual(sentences, [
    "The run begins: every byte is zero.",
    "wait(FLAG, 0, 0) waits at FLAG[0], first in line",
    "reads slots[0] to slots[1], without Atomics",
    "writes slots[1], without Atomics: changes slots[1] from 0 to 7",
    "store(FLAG, 0, -1) changes FLAG[0] from 0 to -1",
    "notify(FLAG, 0) wakes agent 1, which waited at FLAG[0] since 1",
    "wait(FLAG, 0, 0) was woken by 9",
    "reads slots[1], which is 7, without Atomics",
    "wait(FLAG, 0, -1) waits at FLAG[0], first in line",
    "The run ends: deadlock. Agent 1 waits at FLAG[0] since 14, in wait(FLAG, 0, -1); nobody has notified FLAG[0] " +
      "since.",
  ]);
});

test("memory, waiters and agents are as each step has left them", () => {
  const run = runOf();
  const states = run.steps.map((_, at) => run.stateAt(at));
  assert.deepEqual(states.map(({ blocks }) => Buffer.concat(blocks).toString("hex")), [
    "000000000000", "000000000000", "000000000000", "000000000007", ...Array(6).fill("ffffffff0007"),
  ]);
  assert.deepEqual(states.map(({ lines }) => lines.get("0 0") ?? []), [[], [1], [1], [1], [1], [], [], [], [1], [1]]);
  assert.deepEqual(states.map(({ changedBy }) => changedBy), [0, 0, 0, 3, 4, 4, 4, 4, 4, 4]);
  assert.deepEqual(states.map(({ agents }) => agents.map(({ is }) => is).join(" ")), [
    "before before", "before waits", "runs waits", "runs waits", "runs waits", "done woken", "done runs", "done runs",
    "done waits", "done waits",
  ]);
  assert.deepEqual(states[4].agents.map(({ does, place }) => [does, run.data.places[place]]), [
    ["runs", "a.mjs:4:1"], ["waits at FLAG[0] since 1", "a.mjs:1:1"],
  ]);
});

test("the page shows the memory that has a name or is accessed", () => {
  const run = runOf();
  const [{ cells: [flag] }, { cells: slots }] = run.rows;
  const shown = run.rows.map(({ name, isWord, more }) => [name, isWord, more]);
  assert.deepEqual(shown, [["FLAG", true, 0], ["slots", false, 0]]);
  assert.deepEqual([flag.label, ...slots.map(({ label }) => label)], ["FLAG", "slots[0]", "slots[1]"]);
  const { blocks } = run.stateAt(9);
  assert.deepEqual([valueAt(blocks[0], flag), valueAt(blocks[1], slots[1])], ["-1", "7"]);
  const unnamed = { ...SCRIPT, views: [view("Int32_b0", "Int32", 0, 1), view("ordinary_Uint8_b1", "Uint8", 1, 2)] };
  const facts = JSON.parse(JSON.stringify(FACTS).replaceAll('"FLAG"', '"Int32_b0"').replaceAll("_slots", "_Uint8_b1"));
  const { rows } = runOf({ script: JSON.stringify(unnamed) }, facts);
  const labels = rows.map(({ cells }) => cells.map(({ label }) => label));
  assert.deepEqual(labels, [["Int32_b0[0]"], ["Uint8_b1[0]", "Uint8_b1[1]"]]);
});

test("values are read by the kinds of their views", () => {
  const bytes = Uint8Array.of(254, 255, 255, 255, 255, 255, 255, 255);
  const read = (kind) => valueAt(bytes, { view: { kind }, block: 0, byte: 0 });
  const kinds = ["Int8", "Uint8", "Uint8Clamped", "Int16", "Uint16", "Int32", "Uint32", "BigInt64", "BigUint64"];
  assert.deepEqual(kinds.map(read), [
    "-2", "254", "254", "-2", "65534", "-2", "4294967294", "-2n", "18446744073709551614n",
  ]);
  const float = new Uint8Array(Float64Array.of(-1.5).buffer);
  assert.equal(valueAt(float, { view: { kind: "Float64" }, block: 0, byte: 0 }), "-1.5");
});

test("one goes to the next change of agents, and back", () => {
  const run = runOf();
  assert.deepEqual(run.steps.map(({ isSwitch }, at) => (isSwitch ? at : -1)).filter((at) => at >= 0), [2, 6]);
  assert.deepEqual([0, 2, 5, 6, 9].map((at) => run.changeFrom(at, 1)), [2, 6, 6, 9, 9]);
  assert.deepEqual([9, 6, 5, 2, 0].map((at) => run.changeFrom(at, -1)), [6, 2, 2, 0, 0]);
});

test("the failing step is the last wait of a deadlock, or the last step of an agent that threw", () => {
  assert.deepEqual(runOf().failing, [8]);
  assert.deepEqual(runOf({ ending: "failed", detail: "agent 0 threw Error: no" }).failing, [5]);
  assert.deepEqual(runOf({ ending: "limit", detail: "agent 1 spins at a.mjs:7:1" }).failing, [8]);
  assert.deepEqual(runOf({ ending: "check", detail: "check returned false" }).failing, [9]);
});

test("both accesses of a race are failing steps, each in its turn", () => {
  const side = (at, access) => ({ ...EVENTS[at], access });
  const races = [{ sides: [side(6, "read"), side(2, "write")] }];
  const run = runOf({ ending: "race", races });
  assert.deepEqual([run.failing, run.racing], [[3, 7], [[7, 3]]]);
  assert.deepEqual([9, 7, 3].map((at) => run.failingFrom(at)), [7, 3, 7]);
  // A race of a run that ends otherwise is marked alone.
  assert.deepEqual([runOf({ races }).failing, runOf({ races }).racing], [[8], [[7, 3]]]);
});

test("a long trace leaves out ordinary accesses, except those that race", () => {
  const many = Array.from({ length: 20_001 }, (_, at) => ({ ...EVENTS[1], event: at, source: "a.mjs:9:9" }));
  const side = (at, access) => ({ ...EVENTS[at], access });
  const races = [{ sides: [side(2, "write"), side(6, "read")] }];
  const run = runOf({ ending: "race", races, trace: lines([...EVENTS.slice(0, 2), ...many, ...EVENTS.slice(2)]) });
  assert.equal(run.data.isWhole, false);
  assert.equal(runOf().data.isWhole, true);
  assert.deepEqual(run.steps.map(({ text }) => text).slice(1, -1), [
    "wait(FLAG, 0, 0)", "writes slots[1]", "store(FLAG, 0, -1)", "notify(FLAG, 0)", "wait(FLAG, 0, 0)",
    "reads slots[1]", "wait(FLAG, 0, -1)",
  ]);
  assert.deepEqual(run.failing, [2, 6]);
});

test("without a trace, or with one of another run, there are the calls alone", () => {
  const other = lines(EVENTS.map((event) => (event.does === "notify" ? { ...event, does: "add" } : event)));
  for (const trace of [undefined, other]) {
    const run = runOf({ trace });
    assert.ok(run.steps.every(({ place }) => place < 0));
    assert.deepEqual(run.steps.map(({ text }) => text), [
      "the start", "wait(FLAG, 0, 0)", "writes slots[1]", "store(FLAG, 0, -1)", "notify(FLAG, 0)", "wait(FLAG, 0, 0)",
      "wait(FLAG, 0, -1)", "the end: deadlock",
    ]);
    assert.equal(Buffer.concat(run.stateAt(7).blocks).toString("hex"), "ffffffff0007");
  }
});

test("a trace that says that accesses may be missing gives the same steps as one that doesn't", () => {
  assert.deepEqual(runOf({ trace: UNSEEN_LINE + lines(EVENTS) }).data, runOf().data);
});

test("the values that `init` left are there at the start, and are no step", () => {
  const views = [...SCRIPT.views, view("init_FLAG", "Int32", 0, 1)];
  const first = { agent: 2, entry: 1, call: 0, what: "act", does: ["store", "init_FLAG", 0, 9], place: FLAG, answer: 9,
    since: 0, found: { before: 0, after: 9 } };
  const run = runOf({ script: JSON.stringify({ ...SCRIPT, views }) }, [first, ...FACTS]);
  assert.equal(run.steps.length, runOf().steps.length);
  assert.equal(run.steps[0].sentence, "The run begins: the bytes are as `init` left them.");
  assert.equal(Buffer.from(run.stateAt(0).blocks[0]).toString("hex"), "09000000");
});

test("a page is one file, whose code and looks are just those that it says", () => {
  const page = pageOfData(runDataOf(OUTCOME, lines(FACTS), FILE));
  const [, style] = /<style>([^]*?)<\/style>/.exec(page);
  const [, code] = /<script type="module">([^]*?)<\/script>/.exec(page);
  const [, policy] = /http-equiv="Content-Security-Policy" content="([^"]*)"/.exec(page);
  for (const text of [style, code]) {
    assert.ok(policy.includes(createHash("sha256").update(text).digest("base64")));
    assert.ok(!text.includes("<!--"));
  }
  assert.deepEqual([page.split("<style").length, page.split("<script").length], [2, 3]);
  assert.doesNotMatch(page, /\son\w+=|\bsrc=|href=|https?:|@import|url\(/);
  assert.doesNotMatch(code, /^(?:import|export)\b/m);
});

test("README's pictures of a page are small, and say in words what they show", () => {
  const folder = new URL("../../", import.meta.url);
  const readme = readFileSync(new URL("README.md", folder), "utf8");
  const pictures = [...readme.matchAll(/!\[([^]*?)\]\((pictures\/[^)]*)\)/g)];
  assert.equal(pictures.length, 2);
  for (const [, words, file] of pictures) {
    assert.ok(words.length > 100, file);
    const picture = readFileSync(new URL(file, folder));
    assert.equal(picture.toString("latin1", 1, 4), "PNG");
    assert.ok(picture.length < 120_000, `${file}: ${picture.length} bytes`);
  }
});

test("no text of a run breaks its page", () => {
  const evil = "</script><script>alert(1)</script><!-- <style> {{code}} $& \u2028 \" & '";
  const parts = { detail: evil, sources: [{ file: evil, text: evil }], trace: lines(EVENTS).replaceAll("a.mjs", "x") };
  const data = runDataOf({ ...OUTCOME, ...parts }, lines(FACTS), `file:///x/${encodeURIComponent("</title><b>")}.mjs`);
  const page = pageOfData({ ...data, module: "</title><script>" });
  const [, json] = /<script type="application\/json" id="run">([^]*?)<\/script>/.exec(page);
  assert.equal(page.split("<script").length, 3);
  assert.ok(!json.includes("<"));
  const kept = JSON.parse(json);
  assert.deepEqual([kept.detail, kept.files, kept.module], [evil, parts.sources, "</title><script>"]);
  assert.equal(page.match(/<title>([^]*?)<\/title>/)[1], "seed 5 of &#60;/title&#62;&#60;script&#62;: deadlock");
});
