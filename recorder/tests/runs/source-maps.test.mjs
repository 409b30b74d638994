// Places in compiled code, reported as places in the code that people wrote.

import assert from "node:assert/strict";
import { mkdirSync, writeFileSync } from "node:fs";
import { join } from "node:path";
import { pathToFileURL } from "node:url";
import { test } from "node:test";
import { SourceMaps } from "../../lib/run/words/source-maps.mjs";
import { SourceNames } from "../../lib/run/words/source-names.mjs";
import { temporaryFolder } from "../helpers/common.mjs";
import { recorded } from "../helpers/recorded.mjs";

const DIGITS = "ABCDEFGHIJKLMNOPQRSTUVWXYZabcdefghijklmnopqrstuvwxyz0123456789+/";

/** A number of a map, as its format spells it (ECMA-426): sign in the lowest bit, five bits a digit. */
function spelled(number) {
  let rest = number < 0 ? (-number << 1) | 1 : number << 1;
  let text = "";
  do {
    const more = rest > 31 ? 32 : 0;
    text += DIGITS[(rest & 31) | more];
    rest >>= 5;
  } while (rest > 0);
  return text;
}

/**
 * The mappings of a map.
 * @param {[number, number, number, number, number][]} segments line and column of the code that was made; which source,
 * and its line and column; all from 0 and in rising order
 */
function mappingsOf(segments) {
  const lines = [];
  let [source, line, column] = [0, 0, 0];
  for (const [madeLine, madeColumn, ...from] of segments) {
    while (lines.length <= madeLine) lines.push({ at: 0, texts: [] });
    const steps = [madeColumn - lines[madeLine].at, from[0] - source, from[1] - line, from[2] - column];
    lines[madeLine].texts.push(steps.map(spelled).join(""));
    lines[madeLine].at = madeColumn;
    [source, line, column] = from;
  }
  return lines.map(({ texts }) => texts.join(",")).join(";");
}

const mapText = (members, segments) =>
  JSON.stringify({ version: 3, names: [], mappings: mappingsOf(segments), ...members });
const inline = (text) => `//# sourceMappingURL=data:application/json;base64,${Buffer.from(text).toString("base64")}\n`;

/** Writes files; returns their URLs by their names. */
function filesIn(folder, texts) {
  mkdirSync(join(folder, "src"));
  return Object.fromEntries(Object.entries(texts).map(([name, text]) => {
    writeFileSync(join(folder, name), text);
    return [name, pathToFileURL(join(folder, name)).href];
  }));
}

// The code that was made has one line, that from which it was made four.
const MADE = "const a = 1; first(a); second(a);\n";
const WRITTEN = "const a: number = 1;\n\nfirst(a);\n  second(a);\n";
const SEGMENTS = [[0, 0, 0, 0, 0], [0, 13, 0, 2, 0], [0, 23, 0, 3, 2]];

test("a place is that of the file from which its own was made: by a map in it, or in a file beside it", (context) => {
  const map = mapText({ sources: ["src/code.ts"] }, SEGMENTS);
  const escaped = `//# sourceMappingURL=data:application/json,${encodeURIComponent(map)}\n`;
  const urls = filesIn(temporaryFolder(context), {
    "src/code.ts": WRITTEN,
    "inline.mjs": MADE + inline(map),
    "escaped.mjs": MADE + escaped,
    "beside.mjs": `${MADE}//# sourceMappingURL=other.map\n`,
    "other.map": map,
    "rooted.mjs": MADE + inline(mapText({ sourceRoot: "src", sources: ["code.ts"] }, SEGMENTS)),
    "twice.mjs": `${inline(mapText({ sources: ["no.ts"] }, SEGMENTS))}${inline(map)}`,
  });
  const maps = new SourceMaps();
  for (const name of ["inline.mjs", "escaped.mjs", "beside.mjs", "rooted.mjs", "twice.mjs"]) {
    const at = (column) => maps.original({ file: urls[name], line: 1, column });
    assert.deepEqual(at(14), { file: urls["src/code.ts"], line: 3, column: 1 }, name);
    // Between two marks it is that of the mark before.
    assert.deepEqual(at(20), { file: urls["src/code.ts"], line: 3, column: 1 }, name);
    assert.deepEqual(at(24), { file: urls["src/code.ts"], line: 4, column: 3 }, name);
  }
});

test("without a readable map a place stays as it is", (context) => {
  const urls = filesIn(temporaryFolder(context), {
    "plain.mjs": MADE,
    "gone.mjs": `${MADE}//# sourceMappingURL=gone.map\n`,
    "broken.mjs": `${MADE}//# sourceMappingURL=data:application/json;base64,e30=\n`,
    "remote.mjs": `${MADE}//# sourceMappingURL=https://example.org/code.map\n`,
    "unmapped.mjs": MADE + inline(mapText({ sources: [] }, [])),
  });
  const maps = new SourceMaps();
  for (const file of [...Object.values(urls), "node:fs", "evalmachine.<anonymous>"]) {
    const place = { file, line: 1, column: 14 };
    assert.deepEqual(maps.original(place), place);
  }
});

test("places are named as seen from the agents' module, with the code of their files", (context) => {
  const folder = temporaryFolder(context);
  const own = mapText({ sources: ["gone.ts"], sourcesContent: ["its text"] }, SEGMENTS);
  const urls = filesIn(folder, {
    "src/code.ts": WRITTEN,
    "code.mjs": MADE + inline(mapText({ sources: ["src/code.ts"] }, SEGMENTS)),
    "own.mjs": MADE + inline(own),
    "lost.mjs": MADE + inline(mapText({ sources: ["lost.ts"] }, SEGMENTS)),
    "src/plain.mjs": MADE,
  });
  const names = new SourceNames(pathToFileURL(join(folder, "src", "agents.mjs")).href);
  const named = Object.values(urls).slice(1).map((url) => names.nameOf(`${url}:1:14`));
  assert.deepEqual(named, ["code.ts:3:1", "../gone.ts:3:1", "../lost.ts:3:1", "plain.mjs:1:14"]);
  assert.equal(names.nameOf("node:internal/x:4:5"), "node:internal/x:4:5");
  assert.deepEqual(names.textsOf([...named, "node:internal/x:4:5"]), [
    { file: "../gone.ts", text: "its text" },
    { file: "../lost.ts", text: null },
    { file: "code.ts", text: WRITTEN },
    { file: "node:internal/x", text: null },
    { file: "plain.mjs", text: MADE },
  ]);
  assert.equal(names.withNames(`it spins at ${urls["code.mjs"]}:1:24: again`), "it spins at code.ts:4:3: again");
});

test("the races and the trace of compiled code name the lines of the written code", async (context) => {
  // The agent as it was written stands on the lines 5 and 6, and as it was made on 2 and 3.
  const made = [
    "export default function agent({ buffers, agent }) { const words = new Int32Array(buffers[0]);",
    "Atomics.add(words, 1, 1);",
    "words[0] = agent;",
    "}",
    "export const setup = { agents: 2, buffers: [8] };",
    "",
  ].join("\n");
  // `add` begins at column 8 and the assignment's `=` at column 9, from 0.
  const map = mapText({ sources: ["agents.ts"] }, [[0, 0, 0, 0, 0], [1, 8, 0, 4, 10], [2, 9, 0, 5, 11]]);
  const folder = temporaryFolder(context);
  const urls = filesIn(folder, { "agents.mjs": made + inline(map), "agents.ts": "what was written" });
  const [outcome] = await recorded({ module: urls["agents.mjs"], trace: true, sabsim: false });
  assert.equal(outcome.ending, "race");
  assert.deepEqual(outcome.races.map(({ lines }) => lines), [["agents.ts:6:12", "agents.ts:6:12"]]);
  const events = outcome.trace.trimEnd().split("\n").map((line) => JSON.parse(line));
  assert.deepEqual([...new Set(events.map(({ does, source }) => `${does} ${source}`))].sort(), [
    "add agents.ts:5:11", "write agents.ts:6:12",
  ]);
  assert.deepEqual(outcome.sources, [{ file: "agents.ts", text: "what was written" }]);
});
