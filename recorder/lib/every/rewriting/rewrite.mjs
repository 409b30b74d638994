// One module, rewritten.

import { Analysis } from "./analysis.mjs";
import { DEFAULT, linked } from "./linked-modules.mjs";
import { CallSites } from "./call-sites.mjs";
import { CodeWriter } from "./writer.mjs";

/**
 * @typedef {object} Rewritten
 * @property {string} code an expression: the generator of `$R`, what shows, and `$m`, what is imported and exported. It
 * runs at first up to where all functions are declared, and then to its end
 * @property {string[]} imports the specifiers of what it imports
 * @property {boolean} hasTags whether it has templates with tags
 * @property {(place: number) => import("./call-sites.mjs").CallSite} at what can be read at a place of the code
 * @property {(place: number) => string} lineOf the line and the column, in the module's text, of a place of the code
 */

/** What the text of a rewritten function has before the function's number. */
const ENTERS = "$R.enter(";

/**
 * Rewrites a module.
 * @param {import("./module-text.mjs").ModuleText} text
 * @param {{ url: string, isAlone: boolean, isPlain?: boolean }} of the module: its URL, whether no other imports from
 * it, and whether it only becomes a function, with nothing that shows what it keeps
 * @returns {Rewritten}
 * @throws {import("../../options/refused.mjs").Refused}
 */
export function rewritten(text, { url, isAlone, isPlain = false }) {
  const analysis = new Analysis(text);
  const { tree, source } = text;
  const start = source.indexOf(ENTERS);
  if (start >= 0) analysis.refuse({ start }, `\`${ENTERS}\`, by which the recorder knows functions here`);
  const writer = new CodeWriter(analysis);
  const { edits } = writer;
  if (source.startsWith("#!")) edits.replace(0, 2, "//");
  for (const one of analysis.metaUrls) edits.replace(one.start, one.end - one.start, JSON.stringify(url));
  const { imports, begins, exported } = linked(analysis, edits);
  const shows = isPlain ? "" : shownModule(analysis, isAlone ? new Set() : exported);
  edits.before(0, `(function* ($R, $m) { "use strict"; ${shows} ${begins} `);
  if (isPlain) edits.before(0, "yield; ");
  else {
    writer.declaring(0, () => {
      writer.registerDeclared(0, tree.body);
      edits.before(0, "yield; ");
      writer.writeAll(tree.body, null);
    });
    writer.guards.needsAll();
  }
  const { code, original } = edits.made();
  const places = new CallSites(analysis);
  return {
    code: `${code}\n})`, imports, hasTags: analysis.hasTags, at: (place) => places.at(original(place)),
    lineOf: (place) => text.lineOf(original(place)),
  };
}

/**
 * What shows the names of a module that its functions, or other modules, can read.
 * @param {Analysis} analysis
 * @param {Set<string>} exported
 */
function shownModule({ root }, exported) {
  const names = [...root.names.values()].filter(({ kind, name, references }) =>
    kind !== "import" && (exported.has(name) || references.some(({ within }) => within !== null)));
  const shown = [...names, ...(exported.has(DEFAULT) ? [{ index: root.names.size, name: DEFAULT }] : [])];
  const read = shown.map(({ index, name }) => `$i === ${index} ? ${name} : `);
  return `$R.module(($i) => ${read.join("")}undefined, [${shown.map(({ index }) => index).join(", ")}]);`;
}
