// The marks of the operations of an object, where its agents are learned: they are asked for as calls are.

import { lineOfOperation } from "../../objects/object-file.mjs";
import { marksBy } from "../../objects/operation-marks.mjs";
import { namesRewritten } from "./thrown.mjs";

const NAMES_REWRITTEN = "an operation throws an error that names code which was rewritten";

/**
 * @param {import("./asking.mjs").Asker} asker
 * @param {string} url of the module of the object
 * @param {() => import("../../objects/object-calls.mjs").ObjectCall[]} calls
 * @param {string} who uses it: the object, or its `Model`
 * @returns {import("../../objects/object-client.mjs").OperationMarks} what the client of the object calls
 */
export const learnedMarks = (asker, url, calls, who = "the object") => marksBy({
  lacks: (name) =>
    asker.refuse(`\`operations\` names \`${name}\`, and ${who} has no such method`, lineOfOperation(url, name)),
  begins: (call) => asker.begins(call),
  ends(outcome, thrown) {
    if (namesRewritten(thrown, outcome)) asker.refuse(NAMES_REWRITTEN);
    asker.ends(outcome);
  },
  refuse(what, call) {
    const { name = "", text = "an operation" } = calls()[call] ?? {};
    asker.refuse(`${text} returns ${what}, and that can't be compared`, lineOfOperation(url, name));
  },
});
