// The trace of a run: what another program needs to judge its races anew. And runs that are made twice for it.

import assert from "node:assert/strict";
import { readFileSync } from "node:fs";
import { join } from "node:path";
import { fileURLToPath } from "node:url";
import { describe, it } from "node:test";
import { UNSEEN_LINE } from "../../lib/run/script/trace.mjs";
import { FEW_WORKERS, agentsPath, commandThere, temporaryFolder } from "../helpers/common.mjs";
import { groupOf } from "../helpers/groups.mjs";
import { CHECKING } from "../helpers/needs.mjs";
import { recorded } from "../helpers/recorded.mjs";
import { MEMBERS, racingLines } from "../helpers/slow-judge.mjs";

const RING = fileURLToPath(new URL("../../examples/ring-frees-first.agents.mjs", import.meta.url));
const knownPath = (name) => fileURLToPath(new URL(`../known/${name}.mjs`, import.meta.url));
/** The events of a trace. @returns {import("../helpers/slow-judge.mjs").Event[]} */
function eventsOf(trace) {
  assert.ok(trace.endsWith("\n"));
  return trace.slice(0, -1).split("\n").map((line, at) => {
    const event = JSON.parse(line);
    assert.deepEqual([Object.keys(event), event.event], [MEMBERS, at]);
    return event;
  });
}

/** The events of a trace that says that accesses may be missing. */
function seenEventsOf(trace) {
  assert.ok(trace.startsWith(UNSEEN_LINE));
  return eventsOf(trace.slice(UNSEEN_LINE.length));
}

describe("traces", { concurrency: 2 }, () => {
  it("beside the script of a racing run lies its trace, in which the same races are found", async (context) => {
    const out = temporaryFolder(context);
    const fewWorkers = ["--agents", "2", "--everywhere", "--jobs", "1"];
    const words = [RING, "--seeds", "1..40", "--out", out, ...fewWorkers, ...CHECKING];
    const { status, stdout } = await commandThere(words);
    assert.equal(status, 1);
    const [, seed] = /^first failing seed: (\d+), race$/m.exec(stdout) ?? assert.fail(stdout);
    const events = eventsOf(readFileSync(join(out, `seed-${seed}.trace.jsonl`), "utf8"));
    const printed = [...stdout.matchAll(new RegExp(`^  seed ${seed} the first, \\d+ runs?: (.*)$`, "gm"))];
    assert.ok(printed.length > 0, stdout);
    assert.deepEqual(printed.map(([, pair]) => pair).sort(), racingLines(events));
    assert.ok(events.every(({ source }) => source.startsWith("ring-frees-first.mjs:")));
    const { agents } = JSON.parse(readFileSync(join(out, `seed-${seed}.json`), "utf8"));
    const own = agents.flatMap(({ calls }) => calls.filter(([, view]) => !view.startsWith("ordinary")));
    const begun = events.filter(({ does }) => !["read", "write", "leave", "time-up"].includes(does));
    assert.deepEqual(begun.map(({ does }) => does).sort(), own.map(([called]) => called).sort());
  });

  it("the trace of a run that waits for ever has all that its agents did, with their lines", async () => {
    const [outcome] = await recorded({ ...FEW_WORKERS, module: agentsPath("setup"), noBlock: [], trace: true });
    assert.equal(outcome.ending, "deadlock");
    const events = eventsOf(outcome.trace);
    const waits = events.filter(({ does }) => does === "wait");
    assert.equal(waits.length, 1);
    const [{ read, write, atomic, waiters, source }] = waits;
    assert.deepEqual([read, write, atomic, waiters], [true, false, true, true]);
    // As races name it, which is from the folder of the agents' module.
    assert.match(source, /^setup\.mjs:\d+:\d+$/);
    assert.equal(events.filter(({ does }) => does === "leave").length, 0);
  });

  it("a trace has no ordinary accesses where these aren't watched, and says so", async () => {
    const [outcome] = await recorded({ ...FEW_WORKERS, module: knownPath("ring"), ordinary: "store", trace: true });
    assert.ok(seenEventsOf(outcome.trace).every(({ atomic, waiters }) => atomic || waiters));
  });

  it("races that are allowed are reported with their lines, and the run passes", async () => {
    const module = agentsPath("modes");
    const [outcome] = await recorded({ ...FEW_WORKERS, module, args: ["unlocked"], races: "allow" });
    assert.deepEqual([outcome.ending, outcome.fails, outcome.detail], ["finished", false, ""]);
    assert.ok(outcome.races.length > 0);
    for (const { lines } of outcome.races) for (const line of lines) assert.match(line, /^modes\.mjs:\d+:\d+$/);
  });

  it("if a run can't be made again as it was, its races are reported without their lines", async () => {
    const [first, second] = await recorded({ ...FEW_WORKERS, module: agentsPath("remembers") }, [1, 2]);
    assert.equal(first.ending, "race");
    // The second run differs: so the report has what the first one did, and not where.
    const [{ lines, sides }] = first.races;
    assert.deepEqual([first.races.length, first.trace, lines], [
      1, undefined, ["agent 0's write of Int32[0]", "agent 1's write of Int32[0]"],
    ]);
    assert.deepEqual(sides.map(({ source }) => source), [null, null]);
    assert.match(first.detail, /^agent 0 writes Int32\[0\], before its call 0; agent 1 writes Int32\[0\], before /);
    assert.ok(first.bytes[0].endsWith("0100000001000000"));
    // There was one more run of each worker between the two, and no other.
    assert.ok(second.bytes[0].endsWith("0300000003000000"), second.bytes[0]);
    // After a race the next run reports lines at once.
    for (const line of second.races[0].lines) assert.match(line, /^remembers\.mjs:\d+:\d+$/);
  });

  /** A run, traced, with room for some thousand events that aren't calls. */
  async function recordedInLittleRoom(context, way) {
    // Of a log's room 65,536 events are kept for calls.
    const options = { ...FEW_WORKERS, args: [way], trace: true, logEvents: 65_536 + 4_000 };
    const group = await groupOf(context, agentsPath("reads-much"), options);
    return (await group.one({ seed: 1, whole: true })).outcome;
  }

  it("where a full trace has no room for all reads, races are looked for among all of them", async (context) => {
    // The byte that both access is read behind the others.
    const { ending, fails, races, ordinary, detail } = await recordedInLittleRoom(context, "races");
    assert.deepEqual([ending, fails, ordinary], ["race", true, 2 + 10 * 999]);
    const [{ lines }] = races;
    assert.deepEqual([races.length, ...lines], [1, "agent 0's read of Uint8_b0[0]", "agent 1's write of Uint8_b0[0]"]);
    assert.match(detail, /agent 0 reads Uint8_b0\[0\], after its call 9$/);
  });

  it("its trace has what there is room for, and all calls, and says that accesses may be missing", async (context) => {
    const { ending, trace, ordinary } = await recordedInLittleRoom(context, "passes");
    assert.deepEqual([ending, ordinary], ["finished", 1 + 10 * 999]);
    const does = seenEventsOf(trace).map((event) => event.does);
    assert.equal(does.filter((each) => each === "add").length, 10);
    assert.equal(does.filter((each) => each === "store").length, 1);
    const reads = does.filter((each) => each === "read").length;
    assert.ok(reads > 3_900 && reads <= 4_000, `${reads} reads`);
  });
});
