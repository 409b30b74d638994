// The script of a page as a module of its own, with the numbers that its lines have in the page.

import { readFileSync } from "node:fs";

/** @param {string} path of a page @returns {string} its module */
export function pageScript(path) {
  const [, before, script] = /^([^]*<script type="module">\n)([^]*?)<\/script>/.exec(readFileSync(path, "utf8"));
  return before.replace(/[^\n]/g, "") + script;
}
