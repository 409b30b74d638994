// What agents choose: how it is drawn and given, the form of its file, and the runs with fewer rounds and smaller
// numbers that are tried.

import assert from "node:assert/strict";
import { test } from "node:test";
import { Choosing, NO_ROOM, NOT_GIVEN, choicesBy } from "../../lib/agent/choosing.mjs";
import { Choices } from "../../lib/memory/choice-list.mjs";
import {
  compareChoices, lowerable, mostRounds, withSmaller, withZeros, withoutRounds,
} from "../../lib/shorter/fewer-choices.mjs";
import { AGAIN, MOST_CHOICES, UnlikeChoices, choicesIn, choicesText } from "../../script/choices.mjs";

/** What an agent gets for its questions. */
function asking({ agent = 0, rounds = 8, seed = 1, given = undefined, isExact = false } = {}) {
  const choices = new Choices(Choices.memory());
  choices.begin(given, isExact);
  const choosing = new Choosing(agent, choices, rounds);
  choosing.begin(seed);
  const ask = (asked, isPilot = false) => {
    const answer = choosing.answer(asked, isPilot);
    if (answer >= 0) choices.note(asked, answer, 0, 0, 0);
    return answer;
  };
  return { ask, made: () => choices.made().map(({ choice }) => choice) };
}

/** What agent 0, agent 1 and another seed get. */
const GOLDEN = [
  '[["again",true],["choose",3,2],["again",true],["choose",1000,72],["again",true],["choose",6,3]]',
  '[["again",false],["choose",3,1],["again",true],["choose",1000,959],["again",true],["choose",6,3]]',
  '[["again",true],["choose",3,2],["again",true],["choose",1000,936],["again",false],["choose",6,5]]',
];

test("a seed's choices are the same on each machine, and those of another seed or agent are others", () => {
  const first = (of) => {
    const { ask, made } = asking(of);
    for (const asked of [AGAIN, 3, AGAIN, 1_000, AGAIN, 6]) ask(asked);
    return JSON.stringify(made());
  };
  assert.deepEqual([first({ seed: 1 }), first({ seed: 1, agent: 1 }), first({ seed: 2 ** 40 + 7 })], GOLDEN);
  assert.equal(first({ seed: 1 }), first({ seed: 1 }));
});

test("again is true in three of four cases, and at most as often as there are rounds", () => {
  let truths = 0;
  for (let seed = 1; seed <= 2_000; seed += 1) truths += asking({ seed }).ask(AGAIN);
  assert.ok(truths > 1_420 && truths < 1_580, `${truths} of 2000`);
  const counts = new Set();
  for (let seed = 1; seed <= 500; seed += 1) {
    const { ask } = asking({ seed, rounds: 3 });
    let rounds = 0;
    while (ask(AGAIN) === 1) rounds += 1;
    counts.add(rounds);
    if (rounds === 3) assert.deepEqual([ask(AGAIN), ask(AGAIN), ask(AGAIN)], [0, 0, 0]);
  }
  assert.deepEqual([...counts].sort(), [0, 1, 2, 3]);
});

test("choose returns each number about equally often", () => {
  const counts = Array(5).fill(0);
  for (let seed = 1; seed <= 2_000; seed += 1) counts[asking({ seed, agent: seed % 16 }).ask(5)] += 1;
  for (const count of counts) assert.ok(count > 330 && count < 470, counts.join());
});

test("what one agent chooses says nothing about what another one does", () => {
  for (const [one, other] of [[0, 1], [0, 2], [1, 3], [4, 15]]) {
    const pairs = Array(16).fill(0);
    for (let seed = 1; seed <= 3_200; seed += 1) {
      pairs[asking({ seed, agent: one }).ask(4) * 4 + asking({ seed, agent: other }).ask(4)] += 1;
    }
    for (const count of pairs) assert.ok(count > 140 && count < 260, `${one} and ${other}: ${pairs}`);
  }
});

test("in a pilot again is true as often as it may be", () => {
  const { ask, made } = asking({ rounds: 4 });
  for (let at = 0; at < 6; at += 1) ask(AGAIN, true);
  assert.deepEqual(made().map(([, goesOn]) => goesOn), [true, true, true, true, false, false]);
});

test("an agent makes 4,000 choices at most", () => {
  const { ask } = asking();
  for (let at = 0; at < MOST_CHOICES; at += 1) assert.ok(ask(2) >= 0);
  assert.equal(ask(2), NO_ROOM);
});

const GIVEN = [["again", true], ["choose", 3, 2], ["again", true], ["choose", 4, 1], ["again", false]];

test("choices that are given exactly are made, and nothing else is", () => {
  const { ask, made } = asking({ given: GIVEN, isExact: true, rounds: 1 });
  for (const asked of [AGAIN, 3, AGAIN, 4, AGAIN]) assert.ok(ask(asked) >= 0);
  assert.deepEqual([made(), ask(AGAIN)], [GIVEN, NOT_GIVEN]);
  const other = asking({ given: GIVEN, isExact: true });
  assert.deepEqual([other.ask(AGAIN), other.ask(4), other.ask(3)], [1, NOT_GIVEN, 2]);
});

test("choices that are given leniently are made as far as they fit; else an agent doesn't go on, and chooses 0", () => {
  const { ask } = asking({ given: GIVEN });
  // The number of 3 is left out, that of 7 isn't there.
  assert.deepEqual([AGAIN, 7, 4, AGAIN, AGAIN, 4].map((asked) => ask(asked)), [1, 0, 1, 0, 0, 0]);
});

test("choose takes whole numbers from 1 to 1,000 alone", () => {
  const asked = [];
  const { again, choose } = choicesBy((number) => asked.push(number));
  for (const wrong of [0, -1, 1_001, 1.5, NaN, Infinity, "3", 3n, undefined, null, {}]) {
    assert.throws(() => choose(/** @type {any} */ (wrong)), (error) => error instanceof RangeError
      && /^choose\(n\) takes a whole number from 1 to 1000, and was given /.test(error.message));
  }
  again();
  choose(1);
  choose(1_000);
  assert.deepEqual(asked, [AGAIN, 1, 1_000]);
});

test("the file of choices has one form, and is read in any spacing", () => {
  const agents = [GIVEN, []];
  const text = choicesText(agents);
  assert.equal(text, '{"agents":[[["again",true],["choose",3,2],["again",true],["choose",4,1],["again",false]],[]]}\n');
  assert.deepEqual([choicesIn(text, 2), choicesIn(JSON.stringify({ agents }, null, 2), 2)], [agents, agents]);
});

const WRONG = {
  "": /no JSON/,
  "{": /no JSON/,
  "null": /member "agents" alone/,
  "[[],[]]": /member "agents" alone/,
  '{"agents":{}}': /member "agents" alone/,
  '{"agents":[[],[]],"seed":1}': /member "agents" alone/,
  '{"agents":[[]]}': /choices of 1 agents, and the script's run had 2/,
  '{"agents":[[],[],[]]}': /choices of 3 agents/,
  '{"agents":[[],{}]}': /agents\[1\] must be an array/,
  '{"agents":[[["again",true],["again"]],[]]}': /agents\[0\]\[1\] is \["again"\], and must be/,
  '{"agents":[[],[["again",1]]]}': /agents\[1\]\[0\] is/,
  '{"agents":[[],[["again",true,true]]]}': /agents\[1\]\[0\] is/,
  '{"agents":[[],[["choose",3]]]}': /agents\[1\]\[0\] is/,
  '{"agents":[[],[["choose",3,3]]]}': /agents\[1\]\[0\] is/,
  '{"agents":[[],[["choose",3,-1]]]}': /agents\[1\]\[0\] is/,
  '{"agents":[[],[["choose",3,0.5]]]}': /agents\[1\]\[0\] is/,
  '{"agents":[[],[["choose",0,0]]]}': /agents\[1\]\[0\] is/,
  '{"agents":[[],[["choose",1001,0]]]}': /n from 1 to 1000/,
  '{"agents":[[],[["choose","3",0]]]}': /agents\[1\]\[0\] is/,
  '{"agents":[[],["again"]]}': /agents\[1\]\[0\] is "again"/,
  '{"agents":[[],[null]]}': /agents\[1\]\[0\] is null/,
};

test("what is no file of choices is refused, with what is wrong", () => {
  for (const [text, message] of Object.entries(WRONG)) {
    const isWanted = (error) => error instanceof UnlikeChoices && message.test(error.message);
    assert.throws(() => choicesIn(text, 2), isWanted, text);
  }
  const many = JSON.stringify({ agents: [Array(MOST_CHOICES + 1).fill(["again", true])] });
  assert.throws(() => choicesIn(many, 1), /4001 choices, and an agent can make 4000/);
});

/** Agent 0 makes two rounds, agent 1 is in its first. */
const RUN = {
  row: [0, 1, 0, 0, 1, 0],
  choices: [GIVEN, [["again", true]]],
  drawsBefore: [[0, 1, 3, 4, 6], [0]],
};

test("rounds are left out with the draws of their agents", () => {
  assert.equal(mostRounds(RUN), 2);
  const fewer = [[...GIVEN.slice(0, 2), GIVEN[4]], RUN.choices[1]];
  assert.deepEqual(withoutRounds(RUN, 1, 1), [{ row: [0, 1, 0, 1], choices: fewer }]);
  const [both, first, second] = withoutRounds(RUN, 0, 2);
  assert.deepEqual(both, { row: [], choices: [[["again", false]], []] });
  assert.deepEqual(first, { row: [1, 1], choices: [[["again", false]], RUN.choices[1]] });
  assert.deepEqual(second, { row: [0, 0, 0, 0], choices: [GIVEN, []] });
  assert.deepEqual(withoutRounds(RUN, 2, 1), []);
  assert.deepEqual([mostRounds({ row: [] }), withoutRounds({ row: [] }, 0, 1)], [0, []]);
});

test("numbers are made smaller, all at once and one by one", () => {
  const numbers = ({ choices }) => choices.flat().filter(([does]) => does === "choose").map(([, , number]) => number);
  assert.deepEqual(lowerable(RUN), [{ agent: 0, at: 1 }, { agent: 0, at: 3 }]);
  assert.deepEqual(withZeros(RUN).map(numbers), [[0, 0]]);
  assert.deepEqual(withSmaller(RUN, { agent: 0, at: 1 }).map(numbers), [[0, 1], [1, 1]]);
  assert.deepEqual([withZeros({ row: [] }), withZeros({ row: [], choices: [[["choose", 3, 0]]] })], [[], []]);
});

test("fewer choices come first, then smaller ones", () => {
  const of = (...choices) => ({ row: [], choices: [choices] });
  assert.ok(compareChoices(of(["choose", 9, 8]), of(["again", true], ["again", false])) < 0);
  assert.ok(compareChoices(of(["choose", 9, 3]), of(["choose", 9, 4])) < 0);
  assert.ok(compareChoices(of(["again", false]), of(["again", true])) < 0);
  assert.equal(compareChoices({ row: [] }, { row: [] }), 0);
});
