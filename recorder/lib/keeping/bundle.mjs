// Modules as one script, for a page. Each is a function of its own, so that their names don't meet.

import { ownModules } from "../processes/own-modules.cjs";

const RECORDER = new URL("../../", import.meta.url).href;

/**
 * The name of a module in the script: its path in the recorder's folder.
 * @param {string} url
 */
const nameOf = (url) => JSON.stringify(url.replace(RECORDER, ""));

/**
 * Joins modules and all that they import.
 * @param {URL[]} modules
 * @returns {{ code: string, names: string[] }} the script, and by which expressions it has the modules
 */
export function bundleOf(modules) {
  const bodies = new Map(modules.flatMap(ownModules).map(({ url, code }) => [url, code]));
  const parts = [...bodies].map(([url, code]) => {
    const body = code.replace(/modules\[("[^"]*")\]/g, (_, from) => `modules[${nameOf(JSON.parse(from))}]`);
    return `modules[${nameOf(url)}] = (() => {\n${body}\n})();\n`;
  });
  return {
    code: ["const modules = {};\n", ...parts].join("\n"), names: modules.map(({ href }) => `modules[${nameOf(href)}]`),
  };
}
