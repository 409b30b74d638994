// What each agent does with an object: it makes operations, one after the other, as it chooses. Where agents are
// learned, this module is rewritten as the agents' own are. So it has plain loops, and nothing of the recorder's.

/**
 * @typedef {object} ObjectUse
 * @property {any} make the module's `object`, or its class `Model`
 * @property {boolean} isModel whether it is the class
 * @property {import("./object-calls.mjs").ObjectCall[]} calls from which the agents choose
 * @property {number} each how many operations an agent makes at most; Infinity: any number
 * @property {boolean} isAlone whether one agent alone makes any call at any time
 * @property {number} staying how many agents take part in any case: others may stay away
 */

/**
 * @typedef {object} OperationMarks what the client reports of each operation
 * @property {(name: string) => void} lacks the object has no method of this name
 * @property {(call: number) => void} begins
 * @property {(value: unknown, hasThrown: boolean) => void} ends
 */

/** @typedef {{ agent: number, again: () => boolean, choose: (count: number) => number }} ClientGiven */

/**
 * @param {import("./object-calls.mjs").ObjectCall} call
 * @param {number[]} free how often the agent may begin each operation that comes after others
 * @param {ClientGiven} given
 * @returns {boolean} whether it may make the call now
 */
function isAllowed({ agents, isBound, operation }, free, given) {
  if (isBound && free[operation] === 0) return false;
  if (agents === undefined) return true;
  for (let at = 0; at < agents.length; at += 1) if (agents[at] === given.agent) return true;
  return false;
}

/**
 * @param {ObjectUse} use
 * @param {number[]} free
 * @param {ClientGiven} given
 * @returns {number[]} the calls that the agent may make now
 */
function allowedOf({ calls, isAlone }, free, given) {
  /** @type {number[]} */
  const allowed = [];
  for (let at = 0; at < calls.length; at += 1) {
    if (isAlone || isAllowed(calls[at], free, given)) allowed[allowed.length] = at;
  }
  return allowed;
}

/** @param {ObjectUse} use @param {any} object @param {OperationMarks} marks */
function needMethods({ calls, isModel }, object, marks) {
  for (let at = 0; at < calls.length; at += 1) {
    const { name, run } = calls[at];
    if ((isModel || run === undefined) && typeof object[name] !== "function") marks.lacks(name);
  }
}

/**
 * An operation of the object, or of its model, which has a method for each.
 * @param {any} object
 * @param {import("./object-calls.mjs").ObjectCall} call
 * @param {boolean} isModel
 * @returns {unknown}
 */
function made(object, { args, name, run }, isModel) {
  if (run !== undefined && !isModel) return run(object, ...args);
  const method = object[name];
  return method.call(object, ...args);
}

/**
 * @param {ObjectUse} use
 * @returns {(given: ClientGiven, marks: OperationMarks) => void} the agents' function
 */
export function clientOf(use) {
  return (given, marks) => {
    const { again, choose } = given;
    const { calls, each, isModel, make, staying } = use;
    if (staying > 0 && given.agent >= staying && choose(2) === 0) return;
    const object = isModel ? new make() : make(given);
    needMethods(use, object, marks);
    /** @type {number[]} */
    const free = [];
    for (let at = 0; at < calls.length; at += 1) free[calls[at].operation] = 0;
    for (let left = each; left > 0 && again(); left -= 1) {
      const allowed = allowedOf(use, free, given);
      if (allowed.length === 0) return;
      const number = allowed[allowed.length === 1 ? 0 : choose(allowed.length)];
      const call = calls[number];
      if (call.isBound) free[call.operation] -= 1;
      let value;
      let hasThrown = false;
      marks.begins(number);
      try {
        value = made(object, call, isModel);
      } catch (error) {
        value = error;
        hasThrown = true;
      }
      const hasDone = !hasThrown && value !== false;
      marks.ends(value, hasThrown);
      for (let at = 0; hasDone && at < call.frees.length; at += 1) free[call.frees[at]] += 1;
    }
  };
}
