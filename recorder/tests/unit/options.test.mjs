// The table of options, and the help that is made from it. tests/docs/sections.test.mjs is about what else is made.

import assert from "node:assert/strict";
import { test } from "node:test";
import { USAGE } from "../../lib/command/options.mjs";
import { OPTIONS, defaultText, optionWord, optionsOf } from "../../lib/options/table.mjs";

test("each option of the command line has its line of help, and its default can be given", () => {
  for (const [name, { help: [argument, says], kind: { text } }] of optionsOf("command")) {
    assert.deepEqual([argument !== "", says !== ""], [text !== undefined, true], name);
  }
  for (const taker of ["record", "explore"]) {
    for (const [name, { kind, ifNone }] of optionsOf(taker)) {
      if (ifNone !== undefined) assert.deepEqual(kind.value(ifNone, name), ifNone, name);
    }
  }
});

/** The help about each option, on one line, by the option's word. */
function helpByWord() {
  const begins = /^ {2}(?:-\w, )?--([\w-]+)/;
  const found = new Map();
  let word;
  for (const line of USAGE.slice(0, USAGE.indexOf("\nStatus:")).split("\n")) {
    word = begins.exec(line)?.[1] ?? word;
    if (word !== undefined) found.set(word, `${found.get(word) ?? ""} ${line.trim()}`);
  }
  return found;
}

test("the help names the default of each option once, as the command line takes it", () => {
  const help = helpByWord();
  assert.deepEqual([...help.keys()], optionsOf("command").map(([name]) => optionWord(name)));
  for (const [name, row] of optionsOf("command")) {
    const [own, ...defaults] = help.get(optionWord(name)).split(" [default: ");
    const text = defaultText(row);
    assert.deepEqual(defaults, text === undefined ? [] : [`${text}]`], name);
    assert.ok(!own.endsWith(`(${text})`), `${name}: ${own}`);
    const { kind, ifNone } = row;
    if (text !== undefined && ifNone !== undefined) assert.deepEqual(kind.text(text, name), ifNone, name);
  }
});

test("the default of an option is printed as it is, a range of seeds as A..B, and a flag has none", () => {
  const names = ["strategy", "timeouts", "seeds", "fresh", "agents", "out"];
  const defaults = ["mixed", "0.05", "1..100", undefined, "as the module's `setup` says", undefined];
  assert.deepEqual(names.map((name) => defaultText(OPTIONS[name])), defaults);
});
