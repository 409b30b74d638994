// What a newcomer asks, and the path with which docs/ARCHITECTURE.md answers. Each question's words stand in one row,
// sentence or point of the map, together with the path. The path is there: names.test.mjs looks at each one.

import assert from "node:assert/strict";
import { test } from "node:test";
import { textOf } from "./documents.mjs";

/** @type {[question: string, words: RegExp, path: string][]} */
const QUESTIONS = [
  ["where is the rule of a notify defined", /\bAtomics\b.*\bdo\b/, "crates/sab_object/specs/Object.antt"],
  ["which crate reads automata", /reads automata/, "sab_automata_reader"],
  ["where is it decided which states are one", /states .* are one/, "crates/sab_step/src/state_rows"],
  ["where is it decided which moments of an agent are one", /moments/, "recorder/lib/every/state/walk.mjs"],
  ["what says that each schedule was tried", /theorem about all schedules/, "crates/sab_findings/specs/Found"],
  ["what may I touch to add a kind of finding", /kind of finding/, "crates/sab_findings/src/kinds"],
  ["what makes two accesses a data race", /data race/, "crates/sab_judge/src/data_race.rt"],
  ["which code begins threads", /threads begun/, "crates/sab_race/src"],
  ["where does the exit status come from", /status/, "crates/sab_cli/src/exit/status.rt"],
  ["where is the text of a refused script", /wrong script/, "crates/sab_refusal/src/reason_text.rt"],
  ["who decides which agent moves next", /moves next/, "recorder/lib/board/strategy.mjs"],
  ["where do I add an option", /option/, "recorder/lib/options/table.mjs"],
];

/** The rows, the points and the paragraphs of the map, each on one line. */
const pieces = textOf("docs/ARCHITECTURE.md").split(/\n\n|\n(?=\||- |\d+\. )/).map((it) => it.replace(/\s+/g, " "));

for (const [question, words, path] of QUESTIONS) {
  test(`the map answers: ${question}?`, () => {
    const found = pieces.filter((piece) => words.test(piece) && piece.includes(`\`${path}\``));
    assert.ok(found.length > 0, `no piece of the map has ${words} and ${path}`);
  });
}
