// The search of every schedule in JavaScript finds what the model of tests/search finds: the same kinds, the same
// numbers of states and the same bytes at the end, of its examples and of files that its drawing makes.

import assert from "node:assert/strict";
import { spawnSync } from "node:child_process";
import { readFileSync, readdirSync, writeFileSync } from "node:fs";
import { join } from "node:path";
import { test } from "node:test";
import { fileURLToPath, pathToFileURL } from "node:url";
import { learnApart } from "../../lib/every/learning/apart.mjs";
import { resultIn, statusOf } from "../../lib/every/search/lines.mjs";
import { searched } from "../../lib/every/search/searched-file.mjs";
import { fileIn, temporaryFolder } from "../helpers/common.mjs";
import { needing } from "../helpers/needs.mjs";
import { seedsTried } from "../helpers/seeds-tried.mjs";

/** The model is in Python. */
const withPython = needing("python3", spawnSync("python3", ["--version"]).status === 0);

const SEARCH = fileURLToPath(new URL("../../../tests/search/", import.meta.url));
const EXAMPLES = join(SEARCH, "examples");

/** So many files are drawn. */
const DRAWN = seedsTried(80);

/** @param {object} data a file of automata @param {any} wanted the model's result */
function compare(data, wanted) {
  const { status: _status, ...rest } = wanted;
  const { timeouts, limit } = wanted;
  assert.deepEqual(JSON.parse(JSON.stringify(searched(/** @type {any} */ (data), { timeouts, limit }))), rest);
}

for (const name of readdirSync(EXAMPLES).filter((file) => !file.endsWith(".result.json"))) {
  test(`the example ${name}`, () => {
    const data = JSON.parse(readFileSync(join(EXAMPLES, name), "utf8"));
    const results = JSON.parse(readFileSync(join(EXAMPLES, name.replace(".json", ".result.json")), "utf8"));
    for (const wanted of [results].flat()) compare(data, wanted);
  });
}

// Prints files that the model's drawing makes, the model's results, and the lines that the program prints of each.
const DRAWS = `
import json, sys
sys.path.insert(0, sys.argv[1])
sys.dont_write_bytecode = True
from checks.drawn import drawn
from model.reading import read
from model.lines import lines_of
from model.result import result_of
found = []
for seed in range(int(sys.argv[2]), int(sys.argv[3])):
    it = drawn(seed)
    for choice in ("early", "last", "never"):
        result = result_of(read(json.dumps(it.file).encode()), choice, it.limit)
        found.append([it.file, result, "".join(line + "\\n" for line in lines_of(result))])
print(json.dumps(found))
`;

test("files that were drawn", withPython, (context) => {
  const script = fileIn(temporaryFolder(context), "draws.py", DRAWS);
  const options = /** @type {const} */ ({ encoding: "utf8", maxBuffer: 2 ** 28 });
  const { stdout, error, status, stderr } = spawnSync("python3", [script, SEARCH, "1", String(DRAWN + 1)], options);
  assert.equal(error, undefined);
  assert.equal(status, 0, stderr);
  const drawn = JSON.parse(stdout);
  assert.equal(drawn.length, 3 * DRAWN);
  for (const [data, wanted, lines] of drawn) {
    compare(data, wanted);
    const { status, ...result } = wanted;
    assert.deepEqual(resultIn(lines), result);
    assert.equal(statusOf(resultIn(lines)), status);
  }
});

// Modules of agents whose automata are searched by the model, too.
const MODULES = [
  "examples/late-notify.agents.mjs", "examples/late-notify-mended.agents.mjs", "tests/known/spin-ordinarily.mjs",
  "tests/known/flag-read-ordinarily.mjs", "tests/known/deque-wraps.mjs", "tests/known/struct.mjs",
  "tests/known/text.mjs", "tests/known/failed-exchange.mjs",
  "tests/known/spin-on-shut-door.mjs", "tests/known/last-one-sums.mjs",
  "bench/programs/lost-wake-up.mjs", "bench/programs/ring-frees-first.mjs", "bench/pieces/wait-notify.mjs",
];

/** An agent that spins by ordinary reads, while another writes this and that. */
const SPINS = `export const setup = { agents: 2, buffers: [8] };
export default function agent({ buffers, agent: self }) {
  const bytes = new Uint8Array(buffers[0]);
  const words = new Int32Array(buffers[0]);
  if (self === 0) {
    while (bytes[0] !== 2) if (bytes[1] === 7) break;
    Atomics.add(words, 1, 1);
    return;
  }
  for (const value of [1, 3, 1, 2]) {
    bytes[0] = value;
    Atomics.load(words, 1);
  }
}
`;

test("the automata of modules of agents", withPython, async (context) => {
  const folder = temporaryFolder(context);
  writeFileSync(join(folder, "spins.mjs"), SPINS);
  const known = MODULES.map((path) => new URL(`../../${path}`, import.meta.url));
  const urls = [...known, pathToFileURL(join(folder, "spins.mjs"))];
  for (const { href: module } of urls) {
    const timeouts = /** @type {const} */ ("early");
    const wanted = { module, args: [], place: {}, timeouts, limit: 20_000, within: 60 };
    const { file, isClosed, result } = await learnApart(wanted, { seconds: 10 });
    assert.ok(isClosed, module);
    const path = fileIn(folder, "automata.json", JSON.stringify(file));
    const words = [join(SEARCH, "result"), "--limit", "20000", path];
    const { stdout, error, status, stderr } = spawnSync("python3", words, { encoding: "utf8" });
    assert.equal(error, undefined);
    assert.equal(status, 0, `${module}: ${stderr}`);
    const { status: _status, ...model } = JSON.parse(stdout);
    assert.deepEqual(JSON.parse(JSON.stringify(result)), model, module);
  }
});
