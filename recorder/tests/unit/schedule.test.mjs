// A script's schedule as turns, and what can be done to them: against the program, on random scripts; and against what
// is reasoned out by hand.

import assert from "node:assert/strict";
import { readFileSync } from "node:fs";
import { describe, it, test } from "node:test";
import { keptScript } from "../../lib/shorter/kept-script.mjs";
import { differencesOf } from "../../schedule/differences.mjs";
import { Editing, NotReplayed } from "../../schedule/editing.mjs";
import { dropped, earlier, later, timeEnded } from "../../schedule/edits.mjs";
import { replayedWhole } from "../../schedule/fitting.mjs";
import { whyNotOnCode } from "../../schedule/on-code.mjs";
import { readReport } from "../../schedule/report-entries.mjs";
import { textWith } from "../../schedule/schedule-text.mjs";
import { KINDS, SIZES } from "../../script/kinds.mjs";
import { HANDED } from "../helpers/handed.mjs";
import { pathOf } from "../helpers/programs.mjs";
import { Dice, generatedScript, timedScript } from "../helpers/scripts.mjs";
import { simulate } from "../helpers/simulate.mjs";

const EDITS = { earlier, later, dropped, timeEnded };
const SEEDS = Array.from({ length: 12 }, (_, seed) => seed + 1);

/** What the program says about a text. */
function replayed(text) {
  const { status, output, complaint } = simulate(["replay", "--format", "json"], new TextEncoder().encode(text));
  return { status, report: status === 0 ? readReport(`${output}`) : undefined, complaint: `${complaint}` };
}

/** A script of a seed in which each turn is whole: agents make their calls in a random order. */
function wholeScript(seed) {
  const dice = new Dice(seed);
  const script = { ...(dice.percent(60) ? generatedScript(seed) : timedScript(seed)), schedule: [] };
  const turns = dice.list(10, 40, () => {
    const agent = dice.below(script.agents.length);
    return { agent, timeUp: dice.percent(10), isFixed: false, moves: [] };
  });
  const replay = (schedule) => replayed(JSON.stringify({ ...script, schedule })).report;
  const nothing = { turns: [], starts: [], report: replay([]) };
  return { ...script, schedule: replayedWhole(script, turns, replay, nothing).moves };
}

/** What happens in each turn, in words: `begin act return`. */
function wordsOf({ turns, starts, report: { entries } }) {
  return turns.map((_, at) => entries.slice(starts[at], starts[at + 1]).map(({ what }) => what).join(" "));
}

const WHOLE = /^(?:begin act return(?: begin act return)*|begin wait|leave return(?: begin act return)*|stuck)$/;

/** The agents of turns, and whether each ends a time. */
const rowOf = ({ turns }) => turns.map(({ agent, timeUp }) => `${agent}${timeUp ? " time up" : ""}`);

describe("on random scripts", () => {
  for (const [kind, scriptOf] of Object.entries({ written: generatedScript, timed: timedScript, whole: wholeScript })) {
    it(`${kind}: each operation does what it says, and can be taken back`, () => {
      const counts = { changed: 0, refused: 0, whole: 0 };
      for (const seed of SEEDS) {
        const text = `${JSON.stringify(scriptOf(seed), null, 1)}\n`;
        const editing = new Editing(text, simulate);
        const dice = new Dice(seed);
        assert.equal(editing.text, text);
        assert.deepEqual(editing.now.turns.flatMap(({ moves }) => moves), JSON.parse(text).schedule);
        if (editing.isWhole) counts.whole += 1;
        for (let time = 0; time < 10; time += 1) {
          const [name, at] = [dice.of(Object.keys(EDITS)), dice.below(editing.now.turns.length)];
          const [before, was] = [editing.text, editing.now];
          const asked = EDITS[name](was, at);
          const changed = editing.change(EDITS[name], at);
          if ("why" in changed) {
            assert.deepEqual([changed, editing.text, editing.now], [asked, before, was], `seed ${seed}`);
            counts.refused += 1;
            continue;
          }
          counts.changed += 1;
          assertMade(editing, asked, `seed ${seed}: ${name} ${at}`);
          if (dice.percent(25)) {
            assert.equal(editing.undo(), at);
            assert.equal(editing.text, before);
          }
        }
        editing.reset();
        assert.deepEqual([editing.text, editing.isChanged], [text, false]);
      }
      assert.ok(counts.changed > 40 && counts.refused > 20, JSON.stringify(counts));
      assert.equal(counts.whole === SEEDS.length, kind === "whole", JSON.stringify(counts));
    });

    it(`${kind}: a step moved there and back gives the same script`, () => {
      let moved = 0;
      for (const seed of SEEDS) {
        const editing = new Editing(JSON.stringify(scriptOf(seed)), simulate);
        const dice = new Dice(seed);
        for (let time = 0; time < 6; time += 1) {
          const [text, at] = [editing.text, dice.below(editing.now.turns.length)];
          const [there, back] = dice.percent(50) ? [earlier, later] : [later, earlier];
          const changed = editing.change(there, at);
          if ("why" in changed) continue;
          moved += 1;
          assert.notDeepEqual(rowOf(editing.now), rowOf(editing.before.at(-1)));
          assert.deepEqual(editing.change(back, changed.at), { at });
          assert.equal(editing.text, text, `seed ${seed}: turn ${at}`);
        }
      }
      assert.ok(moved > 20, `${moved} moves`);
    });
  }

  /** The text is a script that the program takes, with the report that is shown, and its turns are those asked for. */
  function assertMade(editing, asked, what) {
    const { status, report } = replayed(editing.text);
    assert.equal(status, 0, what);
    assert.deepEqual(editing.now.report, report, what);
    assert.deepEqual(rowOf(editing.now), rowOf(asked), what);
    const { schedule, ...rest } = JSON.parse(editing.text);
    const { schedule: _, ...own } = editing.script;
    assert.deepEqual(rest, own, what);
    assert.deepEqual(schedule, editing.now.moves, what);
    if (editing.isWhole) for (const words of wordsOf(editing.now)) assert.match(words, WHOLE, what);
  }

  it("what the recorder can make on the code is a script that it reads, with a draw for each turn", () => {
    const counts = { can: 0, cannot: 0 };
    for (const seed of SEEDS) {
      const written = wholeScript(seed);
      const lengths = written.blocks ?? [written.bytes];
      const views = written.views.map(({ block = 0, offset, length, ...view }) => {
        const room = Math.floor((lengths[block] - offset) / SIZES[KINDS.indexOf(view.kind)]);
        return { ...view, block, offset, length: length ?? room };
      });
      const editing = new Editing(JSON.stringify({ ...written, bytes: undefined, blocks: lengths, views }), simulate);
      // Calls that aren't begun are left away, as in scripts of the recorder.
      const begun = editing.now.report.agents.map(({ returned, standing }) =>
        returned + (standing === undefined || standing.at === "ready" ? 0 : 1));
      const agents = editing.script.agents.map(({ calls, ...agent }, at) =>
        ({ ...agent, calls: calls.slice(0, begun[at]) }));
      const cut = new Editing(JSON.stringify({ ...JSON.parse(editing.text), agents }), simulate);
      for (let at = cut.now.turns.length - 1; at >= 0; at -= 1) {
        if (wordsOf(cut.now)[at] === "stuck") cut.change(dropped, at);
      }
      if (whyNotOnCode(cut) === undefined) {
        counts.can += 1;
        const { draws } = keptScript(cut.text, "it");
        assert.deepEqual(draws.map(({ agent }) => agent), cut.now.turns.map(({ agent }) => agent));
      } else {
        counts.cannot += 1;
        assert.throws(() => keptScript(cut.text, "it"), `seed ${seed}: ${whyNotOnCode(cut)}`);
      }
    }
    assert.ok(counts.can > 6, JSON.stringify(counts));
  });
});

const handed = (parts = {}) => new Editing(JSON.stringify({ ...HANDED, ...parts }), simulate);

describe("by hand", () => {
  it("the moves of a draw, and the stores behind it, are a turn", () => {
    const { now, isWhole } = handed();
    assert.equal(isWhole, true);
    assert.deepEqual(rowOf(now), ["2", "0", "1", "1", "0", "0"]);
    assert.deepEqual(wordsOf(now), ["begin act return", "begin wait", "begin act return begin act return",
      "begin act return", "leave return begin act return", "begin act return"]);
    assert.deepEqual(now.turns.map(({ isFixed }) => isFixed), [true, false, false, false, false, false]);
  });

  it("a wait that finds another value takes three moves, and its end is the next call", () => {
    const editing = handed();
    assert.deepEqual(editing.change(later, 1), { at: 2 });
    assert.deepEqual(wordsOf(editing.now), ["begin act return", "begin act return begin act return",
      "begin act return begin act return", "begin act return", "begin act return", "stuck"]);
    assert.deepEqual(editing.differences, {
      answers: [
        { agent: 0, call: 0, does: ["wait", "w", 0, 0, 9], before: "ok", after: "not-equal" },
        { agent: 1, call: 2, does: ["notify", "w", 0], before: 1, after: 0 },
      ],
      woken: [{ agent: 1, call: 2, does: ["notify", "w", 0], before: [0], after: [] }],
      bytes: [],
    });
    assert.equal(whyNotOnCode(editing), "agent 0 can't move at 21; drop that step first");
    assert.deepEqual(editing.change(dropped, 5), { at: 4 });
    assert.equal(whyNotOnCode(editing), undefined);
  });

  it("a notify that comes too early wakes nobody", () => {
    const editing = handed();
    assert.deepEqual(editing.change(earlier, 2), { at: 1 });
    assert.deepEqual(editing.change(earlier, 3), { at: 2 });
    assert.deepEqual(rowOf(editing.now), ["2", "1", "1", "0", "0", "0"]);
    assert.deepEqual(editing.differences.woken.map(({ after }) => after), [[]]);
  });

  it("the end of a wait's time comes right after the wait, in place of the end that it had", () => {
    const editing = handed();
    assert.deepEqual(editing.change(timeEnded, 1), { at: 2 });
    assert.deepEqual(rowOf(editing.now), ["2", "0", "0 time up", "1", "1", "0"]);
    assert.deepEqual(editing.now.moves.slice(3, 10), [0, 0, { timeout: 0 }, 0, 0, 0, 0]);
    assert.equal(editing.differences.answers[0].after, "timed-out");
    assert.deepEqual(editing.change(timeEnded, 1), { why: "its time already ends right after it" });
    assert.deepEqual(editing.change(later, 2), { at: 3 });
    assert.deepEqual(editing.change(earlier, 3), { at: 2 });
  });

  it("a dropped turn is one less of its agent, which makes the same calls", () => {
    const editing = handed();
    assert.deepEqual(editing.change(dropped, 2), { at: 1 });
    assert.deepEqual(rowOf(editing.now), ["2", "0", "1", "0", "0"]);
    assert.deepEqual(wordsOf(editing.now), ["begin act return", "begin wait", "begin act return begin act return",
      "stuck", "stuck"]);
    assert.deepEqual(editing.differences.answers.map(({ after }) => after), [undefined, undefined, undefined]);
    assert.deepEqual(editing.differences.bytes, [{ block: 0, byte: 4, before: "01", after: "00" }]);
  });

  it("moves that aren't draws keep their place, and an agent's calls keep their order", () => {
    const editing = handed();
    const why = { why: "stores for ordinary writes, and for what init left, keep their place" };
    for (const [edit, at] of [[earlier, 1], [later, 0], [dropped, 0]]) assert.deepEqual(editing.change(edit, at), why);
    assert.deepEqual(editing.change(later, 2), { why: "agent 1 makes its calls in their order" });
    assert.deepEqual(editing.change(earlier, 0), { why: "it is the first" });
    assert.deepEqual(editing.change(later, 5), { why: "it is the last" });
    assert.deepEqual(editing.change(timeEnded, 3), { why: "agent 1 doesn't begin to wait here" });
    const agents = HANDED.agents.with(0, { block: true, calls: [["wait", "w", 0, 0]] });
    assert.deepEqual(handed({ agents, schedule: [0, 0] }).change(timeEnded, 0), { why: "this wait has no timeout" });
    assert.equal(editing.isChanged, false);
  });

  it("moves of an access that don't follow each other are turns that keep their moves", () => {
    const editing = handed({ schedule: [0, 0, 1, 0, 1, 1] });
    assert.equal(editing.isWhole, false);
    assert.deepEqual(wordsOf(editing.now), ["begin wait", "begin", "stuck", "act return"]);
    assert.deepEqual(editing.change(later, 0), { at: 1 });
    assert.deepEqual(editing.now.moves, [1, 0, 0, 0, 1, 1]);
    assert.equal(whyNotOnCode(editing), "some accesses aren't made whole, as the recorder makes them");
  });

  it("a schedule of more moves than a script can have isn't made", () => {
    const stuck = Array(99_998).fill(2);
    const editing = handed({ agents: HANDED.agents.with(2, { block: true, calls: [] }), schedule: [0, 0, ...stuck] });
    assert.deepEqual(editing.change(timeEnded, 0), { why: "a schedule has at most 100000 moves" });
    assert.equal(editing.isChanged, false);
    const { status, complaint } = replayed(JSON.stringify({ ...editing.script, schedule: [...stuck, 0, 0, 0, 0] }));
    assert.deepEqual([status, complaint], [1, "sabsim: 3 TooMany\n"]);
  });

  it("a script that the program refuses isn't taken, and the error has the program's line", () => {
    assert.throws(() => new Editing("{}", simulate), (error) =>
      error instanceof NotReplayed && error.message.startsWith("sabsim: 10 BadShape"));
    assert.throws(() => new Editing("nothing", simulate), NotReplayed);
  });

  it("while the simulator fails nothing is changed, and nothing is taken back", () => {
    let isDefective = false;
    const editing = new Editing(JSON.stringify(HANDED), (...asked) => {
      if (isDefective) throw new Error("it stopped");
      return simulate(...asked);
    });
    const at = editing.now.turns.findIndex((_, each) => "turns" in later(editing.now, each));
    assert.deepEqual(editing.change(later, at), { at: at + 1 });
    const { now } = editing;
    isDefective = true;
    assert.throws(() => editing.change(dropped, at), /^Error: it stopped$/);
    assert.throws(() => editing.undo(), /^Error: it stopped$/);
    assert.equal(editing.now, now);
    isDefective = false;
    assert.equal(editing.undo(), at);
    assert.equal(editing.isChanged, false);
  });

  it("the changed examples are still scripts with their own layout", () => {
    const text = readFileSync(pathOf("examples/futex-mutex.json"), "utf8");
    const editing = new Editing(text, simulate);
    const at = editing.now.turns.findIndex((_, each) => "turns" in later(editing.now, each));
    editing.change(later, at);
    const [head] = text.split('"schedule": [');
    assert.ok(editing.text.startsWith(`${head}"schedule": [\n    `));
    assert.equal(replayed(editing.text).status, 0);
  });
});

test("bytes that follow each other differ together", () => {
  const report = (...blocks) => ({ entries: [], blocks, agents: [] });
  assert.deepEqual(differencesOf(report("", "00112233"), report("", "01122234")).bytes, [
    { block: 1, byte: 0, before: "0011", after: "0112" }, { block: 1, byte: 3, before: "33", after: "34" },
  ]);
});

test("the schedule is found in a text, however it is spelled", () => {
  const text = '{"schedule":[1] , "agents" : [{"schedule": [7]}, "]"],\n"sch\\u0065dule" :\t[ 0, {"timeout":0 } ]\n}';
  const other = textWith(text);
  assert.equal(other([0, { timeout: 0 }]), text);
  assert.equal(other([]), text.replace('[ 0, {"timeout":0 } ]', "[]"));
  assert.equal(other([{ timeout: 3 }, 3]), text.replace('[ 0, {"timeout":0 } ]', '[\n    {"timeout": 3}, 3\n  ]'));
});
