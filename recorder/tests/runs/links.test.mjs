// Files behind links: how modules and programs know them, and how places in them are named.

import assert from "node:assert/strict";
import { mkdirSync, readFileSync, realpathSync, symlinkSync, writeFileSync } from "node:fs";
import { join } from "node:path";
import { test } from "node:test";
import { pathToFileURL } from "node:url";
import { realUrl } from "../../lib/processes/real-url.mjs";
import { SourceNames } from "../../lib/run/words/source-names.mjs";
import { record } from "../../recorder.mjs";
import { RECORD, nodeNow, temporaryFolder } from "../helpers/common.mjs";
import { withLinks } from "../helpers/needs.mjs";

/**
 * A folder with a folder `real`, and a link to that.
 * @param {import("node:test").TestContext} context
 */
function folderWithLink(context) {
  const folder = realpathSync(temporaryFolder(context));
  mkdirSync(join(folder, "real"));
  symlinkSync(join(folder, "real"), join(folder, "link"));
  return folder;
}

test("a file behind a link has the URL by which node's loader knows it", withLinks, (context) => {
  const folder = folderWithLink(context);
  writeFileSync(join(folder, "real", "a #1.mjs"), "");
  const [link, real] = ["link", "real"].map((name) => pathToFileURL(join(folder, name, "a #1.mjs")).href);
  assert.equal(realUrl(`${link}?x=/link#y`), `${realUrl(real)}?x=/link#y`);
  assert.equal(realUrl(`${link}.none?x`), `${realUrl(real)}.none?x`);
  assert.equal(realUrl("file:///no/such/file.mjs?a"), "file:///no/such/file.mjs?a");
  assert.equal(realUrl("data:text/javascript,0"), "data:text/javascript,0");
  for (const module of [link, real, `${link}.none`]) {
    const names = new SourceNames(module);
    for (const url of [link, real]) assert.equal(names.nameOf(`${url}:1:2`), "a #1.mjs:1:2");
  }
});

/** A program's main module: each time that it is evaluated it writes down how it is known. @param {string} file */
const mainOf = (file) => `import { appendFileSync } from "node:fs";
import "./part.mjs";
appendFileSync(${JSON.stringify(file)}, JSON.stringify([import.meta.url, process.argv[1]]) + "\\n");
`;

test("a program behind a link is known as in node, and its main module is evaluated once", withLinks, (context) => {
  const folder = folderWithLink(context);
  const written = join(folder, "written");
  writeFileSync(join(folder, "real/main.mjs"), mainOf(written));
  writeFileSync(join(folder, "real/part.mjs"), 'import "./main.mjs";\n');
  const main = join(folder, "link/main.mjs");
  /** @param {string[]} words @returns {string} what the program has written down */
  const writtenBy = (words) => {
    writeFileSync(written, "");
    const { status, stderr } = nodeNow(words);
    assert.equal(status, 0, stderr);
    return readFileSync(written, "utf8");
  };
  const inNode = writtenBy([main]);
  assert.equal(inNode, `${JSON.stringify([realUrl(pathToFileURL(main).href), main])}\n`);
  const words = ["--program", main, "--seeds", "1..1", "--jobs", "1", "--check", "0"];
  assert.equal(writtenBy([RECORD, ...words]), inNode);
});

test("places behind a link are named as without it", withLinks, (context) => {
  const folder = folderWithLink(context);
  writeFileSync(join(folder, "real/wait.mjs"), "export const wait = (view) => Atomics.wait(view, 0, 0);\n");
  writeFileSync(join(folder, "real/agents.mjs"), `import { wait } from "./wait.mjs";
export default ({ buffers: [buffer] }) => wait(new Int32Array(buffer));
`);
  const textOf = (name, flags = []) => {
    const options = ["--agents", "1", "--buffers", "4", "--seeds", "1..1", "--check", "0"];
    const words = [...flags, RECORD, join(folder, name, "agents.mjs"), ...options];
    const { stdout } = nodeNow(words);
    return stdout.replaceAll(join(folder, name), "");
  };
  const direct = textOf("real");
  assert.match(direct, /\bat wait\.mjs:1:39\b/);
  assert.equal(textOf("link"), direct);
  assert.equal(textOf("link", ["--preserve-symlinks"]), direct);
});

/** A program for browsers. The worker's error has how often the page's module was evaluated, and the URLs of all. */
const PAGE = {
  "main.mjs": `import { part } from "./part.mjs";
self.times = (self.times ?? 0) + 1;
new Worker("w.js").postMessage([self.times, location.href, import.meta.url, part]);
`,
  "part.mjs": `import "./main.mjs";
export const part = import.meta.url;
`,
  "w.js": "onmessage = ({ data }) => { throw new Error([...data, location.href].join()); };\n",
};

test("a page behind a link keeps its URLs, and its places are named as without it", withLinks, async (context) => {
  const folder = folderWithLink(context);
  for (const [name, text] of Object.entries(PAGE)) writeFileSync(join(folder, "real", name), text);
  for (const name of ["link", "real"]) {
    const { detail } = await record({ program: join(folder, name, "main.mjs"), web: true });
    const at = pathToFileURL(join(folder, name)).href;
    assert.equal(detail.replaceAll(at, "AT"), "agent 1 (w.js, started at main.mjs:3:1) threw Error: " +
      "1,AT/main.mjs,AT/main.mjs,AT/part.mjs,AT/w.js\n    at onmessage (w.js:1:35)");
  }
});
