// What SQLite's own preprocessor makes of its scripts: each line that is left out stays as an empty one, so that the
// others keep their numbers.

import { readFileSync } from "node:fs";
import { dirname, join } from "node:path";

/** @param {string} condition @param {Map<string, string>} defined */
function holds(condition, defined) {
  if (condition.startsWith("not ")) return !holds(condition.slice(4), defined);
  if (condition.startsWith("defined ")) return defined.has(condition.slice(8));
  return (defined.get(condition) ?? "0") !== "0";
}

/**
 * @param {string} path of a script, whose folder is two below the one from which others are included
 * @param {Map<string, string>} [defined]
 * @returns {string} the script without directives
 */
export function preprocessed(path, defined = new Map()) {
  const open = [];
  const lines = readFileSync(path, "utf8").split("\n");
  return lines.map((line) => {
    const [, name, rest] = /^\/\/#(\/?\w*) ?(.*)$/.exec(line) ?? [];
    if (name === "if") open.push({ taken: holds(rest, defined), before: false });
    else if (name === "/if") open.pop();
    else if (name === "elif" || name === "else") {
      const last = open.at(-1);
      last.before ||= last.taken;
      last.taken = !last.before && (name === "else" || holds(rest, defined));
    } else if (open.every(({ taken }) => taken)) {
      if (name === "define") defined.set(...`${rest} 1`.split(" ", 2));
      else if (name === "undef") defined.delete(rest);
      else if (name === "include") return preprocessed(join(dirname(path), "..", rest), defined);
      else if (name === undefined) return line;
    }
    return "";
  }).join("\n");
}
