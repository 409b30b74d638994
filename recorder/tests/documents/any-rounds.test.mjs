// Each module of the guide on any number of rounds is learned: every schedule of it is tried, and nothing is found.

import assert from "node:assert/strict";
import { readFileSync } from "node:fs";
import { test } from "node:test";
import { pathToFileURL } from "node:url";
import { learnApart } from "../../lib/every/learning/apart.mjs";
import { moduleOf } from "../helpers/common.mjs";

const EXAMPLES = new URL("../../examples/", import.meta.url);
const GUIDE = readFileSync(new URL("../../README.md", import.meta.url), "utf8");

const [, part] = /\n### Any number of rounds\n([^]*?)\n##+ /.exec(GUIDE) ?? ["", ""];
const MODULES = part.match(/(?:^ {4}.*\n)+/gm) ?? [];

test("the guide has three modules, for any number of rounds", () => assert.equal(MODULES.length, 3));

for (const text of MODULES) {
  const [, name = "queue"] = /^ {4}import .* from "\.\/(.*)\.mjs";$/m.exec(text) ?? [];
  test(`every schedule of it is tried: ${name}`, async (context) => {
    const code = text.replaceAll(/^ {4}/gm, "").replace("\"./", `"${EXAMPLES.href}`);
    const module = pathToFileURL(moduleOf(context, code)).href;
    const wanted = { module, args: [], place: {}, timeouts: /** @type {const} */ ("early"), limit: 20_000, within: 60 };
    const { findings, hidden, isClosed, result } = await learnApart(wanted, { seconds: 20 });
    assert.deepEqual([isClosed, findings, hidden], [true, [], []]);
    const [, said] = /^\*\*A lock\*\*.*\n?.* (\d+) states for three agents/m.exec(part) ?? [];
    if (name === "mutex-three-state") assert.equal(result.states, Number(said));
    assert.ok(result.states > 50, `${result.states} states`);
  });
}
