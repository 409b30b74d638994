// A test of web-platform-tests as a module that stands for a page: testharness.js, the test's own scripts, and what
// reports the results. It is written beside the test, so that the test finds its workers.

import { readFileSync, writeFileSync } from "node:fs";
import { FETCHED } from "../folder.mjs";

const ROOT = new URL("firefox/testing/web-platform/tests/", FETCHED);
const HARNESS = "/resources/testharness.js";
const SCRIPT = /<script(?: src="([^"]+)")?>(.*?)<\/script>/gs;

/** In place of testharnessreport.js, which each browser has of its own. */
const REPORT = `
const [tests, { status }] = await new Promise((done) => add_completion_callback((...all) => done(all)));
const failed = tests.filter((test) => test.status !== 0).map(({ name, message }) => name + ": " + message);
if (tests.length === 0 || status !== 0 || failed.length > 0) throw new Error("failed: " + failed.join("; "));
`;

/** @param {string} path from the tests' root, or from a folder there @param {URL} folder @returns {string} the text */
const textOf = (path, folder) =>
  readFileSync(path.startsWith("/") ? new URL(`.${path}`, ROOT) : new URL(path, folder), "utf8");

/** @param {string} name of a test, from the tests' root @returns {URL} of its page, which is written */
export function pageOf(name) {
  const test = new URL(name, ROOT);
  const text = readFileSync(test, "utf8");
  const scripts = name.endsWith(".js")
    ? [textOf(HARNESS, test), text]
    : [...text.matchAll(SCRIPT)].filter(([, src]) => src !== "/resources/testharnessreport.js")
      .map(([, src, own]) => src === undefined ? own : textOf(src, test));
  const page = new URL(`${name}.page.mjs`, ROOT);
  writeFileSync(page, [...scripts, REPORT].join("\n"));
  return page;
}
