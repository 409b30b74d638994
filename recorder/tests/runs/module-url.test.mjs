// Which file is meant by a module's relative path: one beside the file whose code calls the library, whatever the
// working directory is.

import assert from "node:assert/strict";
import { mkdirSync, realpathSync, writeFileSync } from "node:fs";
import { join } from "node:path";
import { test } from "node:test";
import { pathToFileURL } from "node:url";
import { Refused, record } from "../../recorder.mjs";
import { nodeNow, temporaryFolder } from "../helpers/common.mjs";

const LIBRARY = new URL("../../recorder.mjs", import.meta.url).href;

/**
 * An agent that leaves a number in its buffer. Those that call say how many agents there are, so that no worker begins
 * that isn't needed.
 * @param {number} number
 */
const agentsWith = (number) => `
  export const setup = { agents: 1, buffers: [1] };
  export default ({ buffers: [buffer] }) => Atomics.store(new Uint8Array(buffer), 0, ${number});
`;

/**
 * Folders with agents of the same name, and files beside them that call the library.
 * @param {import("node:test").TestContext} context
 */
function suite(context) {
  const folder = temporaryFolder(context);
  const files = {
    "agents.mjs": agentsWith(0), "suite/agents.mjs": agentsWith(1), "suite/a #1%.mjs": agentsWith(2),
    "helpers/agents.mjs": agentsWith(3),
    "suite/calls.mjs": `
      import { record } from "${LIBRARY}";
      import { recordHere } from "../helpers/helper.mjs";
      const options = (module = "./agents.mjs") => ({ module, agents: 1, sabsim: false });
      export const atOnce = () => record(options());
      export const bare = () => record(options("agents.mjs"));
      export const above = () => record(options("../agents.mjs"));
      export const strange = () => record(options("./a #1%.mjs"));
      export const byUrl = () => record(options(new URL("./agents.mjs", import.meta.url)));
      export const later = async () => {
        await new Promise((done) => { setTimeout(done, 1); });
        return record(options());
      };
      export const inMap = async () => (await Promise.all([options()].map(record)))[0];
      export const without = () => {
        const { stackTraceLimit } = Error;
        Error.stackTraceLimit = 0;
        try {
          return record(options());
        } finally {
          Error.stackTraceLimit = stackTraceLimit;
        }
      };
      export const byHelper = () => recordHere(options());
      export const missing = () => record(options("./none.mjs"));
      export const inTimer = () => new Promise((done, fail) => {
        setTimeout((each) => record(each).then(done, fail), 1, options());
      });
    `,
    "helpers/helper.mjs": `
      import { record } from "${LIBRARY}";
      export const recordHere = (options) => record(options);
    `,
    "suite/calls.cjs": `
      const asked = { module: "./agents.mjs", agents: 1, sabsim: false };
      exports.common = async () => (await import("${LIBRARY}")).record(asked);
    `,
  };
  mkdirSync(join(folder, "suite"));
  mkdirSync(join(folder, "helpers"));
  for (const [name, text] of Object.entries(files)) writeFileSync(join(folder, name), text);
  return folder;
}

test("a relative path is taken from the file that calls the library, however it is called", async (context) => {
  const folder = suite(context);
  const expected = {
    atOnce: "01", bare: "01", above: "00", strange: "02", byUrl: "01", later: "01", inMap: "01", without: "01",
    byHelper: "03", inTimer: "01",
  };
  const calls = await import(pathToFileURL(join(folder, "suite", "calls.mjs")).href);
  for (const [name, byte] of Object.entries(expected)) {
    const { ending, bytes } = await calls[name]();
    assert.deepEqual([ending, bytes], ["finished", [byte]], name);
  }
  const { default: { common } } = await import(pathToFileURL(join(folder, "suite", "calls.cjs")).href);
  assert.deepEqual((await common()).bytes, ["01"]);
  const from = '`module` is "./none.mjs", from the folder of the file that asks for it';
  // Node knows a file by its own path, whatever links lead to it.
  const message = `there is no file ${join(realpathSync(folder), "suite", "none.mjs")}: ${from}`;
  await assert.rejects(calls.missing(), { constructor: Refused, message });
});

test("code that is typed in is taken to be in the working directory", (context) => {
  const folder = suite(context);
  const code = `import("${LIBRARY}").then(({ record }) => record({ module: "./agents.mjs", agents: 1, sabsim: false }))
    .then(({ bytes }) => console.log(bytes[0]))`;
  for (const [words, input] of [[["-e", code], ""], [["-"], code]]) {
    const { stdout, stderr } = nodeNow(words, { cwd: join(folder, "suite"), input });
    assert.deepEqual([stdout, stderr], ["01\n", ""]);
  }
});

test("if the recorder doesn't know which file calls it, it asks for a URL", async () => {
  const asks = `export const ask = (record) => record({ module: "./agents.mjs", sabsim: false });`;
  const { ask } = await import(`data:text/javascript,${encodeURIComponent(asks)}`);
  const message = '`module` is "./agents.mjs", and it isn\'t known which file asks for that: ' +
    'give a URL, as new URL("./agents.mjs", import.meta.url)';
  await assert.rejects(ask(record), { constructor: Refused, message });
});
