// The page to try the simulator is the one that its tool makes of the built module.

import assert from "node:assert/strict";
import { cpSync, existsSync, readFileSync } from "node:fs";
import { join } from "node:path";
import { test } from "node:test";
import { gunzipSync } from "node:zlib";
import { builtSimulator } from "../../lib/keeping/document.mjs";
import { nodeNow, nodeThere, temporaryFolder } from "../helpers/common.mjs";
import { needing } from "../helpers/needs.mjs";
import { pathOf } from "../helpers/programs.mjs";

const whereBuilt = needing("module of the simulator", builtSimulator() !== undefined);

/** Where a page has its module. */
const MODULE = /(?<=<script type="text\/plain" id="simulator">)[^<]*/;

/**
 * A page, and its module as it is unpacked: other builds of zlib pack it into other bytes.
 * @param {string} path
 */
function partsOf(path) {
  const text = readFileSync(path, "utf8");
  const [packed = ""] = MODULE.exec(text) ?? [];
  return { page: text.replace(MODULE, ""), module: gunzipSync(Buffer.from(packed, "base64")).toString("base64"), text };
}

test("docs/try.html is what tools/try-page.mjs makes", whereBuilt, async (context) => {
  const file = join(temporaryFolder(context), "try.html");
  const { status, stderr } = await nodeThere([pathOf("tools/try-page.mjs"), file]);
  assert.deepEqual([status, stderr], [0, ""]);
  const [made, kept] = [file, pathOf("docs/try.html")].map(partsOf);
  const isSame = made.page === kept.page && made.module === kept.module;
  assert.ok(isSame, "docs/try.html is of another module or of other code: run node tools/try-page.mjs");
  assert.ok(made.text.length < 1_000_000, `a page has ${made.text.length} characters`);
});

/** What the tool doesn't need, or has to do without. */
const LEFT_OUT = [pathOf("recorder/tests"), pathOf("recorder/wasm/sabsim.wasm")];

test("without the module the tool makes nothing, and says so", (context) => {
  const folder = temporaryFolder(context);
  cpSync(pathOf("recorder"), join(folder, "recorder"), { recursive: true, filter: (path) => !LEFT_OUT.includes(path) });
  cpSync(pathOf("tools/try-page.mjs"), join(folder, "tools/try-page.mjs"));
  const words = [join(folder, "tools/try-page.mjs"), join(folder, "try.html")];
  const { status, stderr } = nodeNow(words);
  assert.deepEqual([status, stderr], [1, "try-page: the module of the simulator isn't built\n"]);
  assert.ok(!existsSync(join(folder, "try.html")));
});
