// What the documents name exists: the targets of their links, with the headings in these, paths, and in
// docs/ARCHITECTURE.md crates and functions. Each link of the tree leads to a file or a folder.

import assert from "node:assert/strict";
import { existsSync, readdirSync } from "node:fs";
import { dirname, join, posix } from "node:path";
import { test } from "node:test";
import { DOCUMENTS, TOP, filesBelow, isLeftOut, proseOf, spansOf, textOf } from "./documents.mjs";

const MAPS = ["CONTRIBUTING.md", "docs/ARCHITECTURE.md"];

/** A name in backticks that is a path: it has a slash, or the ending of a file. */
const PATH = /^(?:\.\/)?(?=.*\/|.*\.(?:rt|antt|mjs|mts|md|json|txt|edit|c)$)[\w.-]+(?:\/[\w.-]+)*\/?$/;

/** What looks like a path but is the name of an import. */
const IMPORTS = new Set(["sabsim/test"]);

const PATHS = filesBelow("");

/**
 * Whether a path is there: from the top, in the recorder or in a crate, and a lone file's name anywhere. A part in
 * capitals, such as NAME, stands for any name.
 * @param {string} path
 */
function isThere(path) {
  const parts = path.replace(/^\.\/|\/$/g, "").split("/");
  const spelled = parts.map((part) => (/^[A-Z]+$/.test(part) ? "[^/]+" : part.replaceAll(".", "\\.")));
  const before = parts.length === 1 ? "(?:.*/)?" : "(?:recorder/|crates/[^/]+/)?";
  const pattern = new RegExp(`^${before}${spelled.join("/")}(?:/|$)`);
  return PATHS.some((it) => pattern.test(it));
}

for (const map of MAPS) {
  test(`each path that ${map} names is there`, () => {
    const paths = spansOf(map).filter((span) => PATH.test(span) && !IMPORTS.has(span));
    assert.ok(paths.length > 30, `${paths.length} paths`);
    assert.deepEqual(paths.filter((path) => !isThere(path)), []);
  });
}

/** The folders at the top of the repository. A path of another document is one of the repository if it begins so. */
const FOLDERS = new Set(PATHS.filter((path) => path.includes("/")).map((path) => path.split("/")[0]));

for (const path of DOCUMENTS.filter((each) => !MAPS.includes(each))) {
  test(`each path of the repository that ${path} names is there`, () => {
    const paths = spansOf(path).filter((span) => PATH.test(span) && FOLDERS.has(span.split("/")[0]));
    assert.deepEqual(paths.filter((each) => !isThere(each)), []);
  });
}

/** @param {string} folder from the top @returns {string[]} the paths of the links in it and below */
function linksBelow(folder) {
  return readdirSync(join(TOP, folder), { withFileTypes: true }).flatMap((entry) => {
    const path = posix.join(folder, entry.name);
    if (isLeftOut(path)) return [];
    if (entry.isDirectory()) return linksBelow(path);
    return entry.isSymbolicLink() ? [path] : [];
  });
}

test("each link of the tree leads to a file or a folder", () => {
  assert.deepEqual(linksBelow("").filter((path) => !existsSync(join(TOP, path))), []);
});

test("the pattern of an editor for scripts names the folder of the examples", () => {
  const [, folder] = /"fileMatch": \["\/(\w+)\/\*\.json"\]/.exec(textOf("docs/FORMATS.md"));
  assert.ok(PATHS.some((path) => path.startsWith(`${folder}/`) && path.endsWith(".json")), folder);
});

test("each example of CONTRIBUTING is named by some files of its kind", () => {
  const examples = [...textOf("CONTRIBUTING.md").matchAll(/, such as `(\w+)`/g)].map(([, name]) => name);
  assert.ok(examples.length > 6, examples.join());
  const CODE = /^(?:crates\/\w+\/(?:src|specs|proofs)|recorder\/(?:lib|script))\/.*\.\w+$/;
  const texts = PATHS.filter((path) => CODE.test(path)).map(textOf);
  for (const name of examples) {
    const naming = texts.filter((text) => new RegExp(`\\b${name}\\b`).test(text));
    assert.ok(naming.length > 1, `${name}: ${naming.length} files`);
  }
});

test("each definition and function that ARCHITECTURE names is in the file that it names", () => {
  const text = textOf("docs/ARCHITECTURE.md").replaceAll(/\s+/g, " ");
  const named = [...text.matchAll(/`([#\w]+)` in `([\w./-]+\.\w+)`/g)];
  assert.ok(named.length > 10, `${named.length} names`);
  const missing = named.filter(([, name, path]) => !new RegExp(`(?<!\\w)${name}\\b`).test(textOf(path)));
  assert.deepEqual(missing.map(([words]) => words), []);
});

/** The crates, each with those that crates.txt lists for it. @type {Map<string, string[]>} */
const CRATES = new Map(textOf("crates.txt").split("\n").filter(Boolean).map((line) => {
  const [names, uses] = line.split(":");
  return [names.split(" ")[0], uses.split(" ").filter(Boolean)];
}));

test("ARCHITECTURE says what each crate is for", () => {
  const rows = proseOf("docs/ARCHITECTURE.md").split("\n").filter((line) => line.startsWith("| `"));
  const said = new Set(rows.map((row) => /`(\w+)`/.exec(row.split("|")[1])?.[1]));
  assert.deepEqual([...CRATES.keys()].filter((name) => !said.has(name)), []);
});

/** The row of each crate in ARCHITECTURE's picture. A line without a number goes on with the row above it. */
function rowsOfCrates() {
  const [, picture] = /\n {4}row  READS.*\n((?: {4}.*\n)+)/.exec(textOf("docs/ARCHITECTURE.md"));
  const rows = new Map();
  let row = NaN;
  for (const line of picture.split("\n")) {
    row = Number(/^ {4}(\d+)/.exec(line)?.[1] ?? row);
    for (const [name] of line.matchAll(/\w+/g)) if (CRATES.has(name) && !rows.has(name)) rows.set(name, row);
  }
  return rows;
}

test("there are at most 31 crates in 10 rows, and each uses only crates of lower rows", () => {
  const rows = rowsOfCrates();
  assert.deepEqual([...CRATES.keys()].filter((name) => !rows.has(name)), []);
  assert.ok(CRATES.size <= 31 && Math.max(...rows.values()) < 10, `${CRATES.size} crates`);
  const wrong = [...CRATES].flatMap(([name, uses]) =>
    uses.filter((used) => rows.get(used) >= rows.get(name)).map((used) => `${name} uses ${used}`));
  assert.deepEqual(wrong, []);
});

test("crates.txt lists the crates that the files of a crate name, and no others", () => {
  const wrong = [...CRATES].flatMap(([name, uses]) => {
    const files = PATHS.filter((path) => path.startsWith(`crates/${name}/`) && /\.(?:rt|antt)$/.test(path));
    const text = files.map(textOf).join("\n");
    const named = (/** @type {string} */ other) => new RegExp(`(?<![\\w:.])${other}::|\\bRattle\\.${other}\\.`);
    const others = [...CRATES.keys()].filter((other) => other !== name);
    const differ = others.filter((other) => named(other).test(text) !== uses.includes(other));
    return differ.map((other) => `${name}: ${other}`);
  });
  assert.deepEqual(wrong, []);
});

/** A link of a document, or a picture in it: its path, and the fragment behind it. */
const LINK = /(?:\]\(|src=")([^)#"\s]*)(?:#([^)"\s]*))?/g;

/**
 * The fragment that leads to a heading, as GitHub makes it.
 * @param {string} heading
 */
const fragmentOf = (heading) =>
  heading.toLowerCase().replaceAll(/\]\([^)]*\)/g, "").replaceAll(/[^\p{L}\p{N}\p{M}_ -]/gu, "").replaceAll(" ", "-");

/**
 * The fragments that lead into a document: one for each heading. A heading that comes again has a number.
 * @param {string} text
 */
function fragmentsOf(text) {
  const counts = new Map();
  return text.split("\n").flatMap((line) => {
    const heading = /^#{1,6} +(.*?)[ #]*$/.exec(line)?.[1];
    if (heading === undefined) return [];
    const fragment = fragmentOf(heading);
    const count = counts.get(fragment) ?? 0;
    counts.set(fragment, count + 1);
    return [count === 0 ? fragment : `${fragment}-${count}`];
  });
}

/** Whether a link of a document leads to a file, and its fragment to a heading there. @param {string} from */
const leadsSomewhere = (from) => (/** @type {string[]} */ [, path, fragment]) => {
  if (/^https?:/.test(path)) return true;
  const target = path === "" ? from : join(dirname(from), path);
  if (!existsSync(join(TOP, target))) return false;
  return fragment === undefined || fragmentsOf(textOf(target)).includes(fragment);
};

// The numbers of the last one are tested with the examples, so it isn't among the others.
for (const path of [...DOCUMENTS, "recorder/examples/README.md"]) {
  test(`each link of ${path} leads to a file, and to a heading of it if it names one`, () => {
    const links = [...textOf(path).matchAll(LINK)];
    assert.deepEqual(links.filter((link) => !leadsSomewhere(path)(link)).map(([link]) => link), []);
  });
}

test("fragments are made of headings as GitHub makes them", () => {
  const headings = ["# The map", "## The package, `./check` and the tests", "## Agents", "### Agents",
    "## It can't be [so](x)"];
  const text = headings.join("\ntext\n    $ #no\n");
  const fragments = ["the-map", "the-package-check-and-the-tests", "agents", "agents-1", "it-cant-be-so"];
  assert.deepEqual(fragmentsOf(text), fragments);
});
