// Contexts of node:vm, where ordinary accesses aren't watched. What their `Atomics` does is seen as that of the agents,
// and so is the shared memory that they make. The objects that agents give for them stay as they were.

import assert from "node:assert/strict";
import { describe, test } from "node:test";
import { moduleOf } from "../helpers/common.mjs";
import { recorded, seedsTo } from "../helpers/recorded.mjs";

const WAKES = "const words = new Int32Array(buffer); Atomics.store(words, 0, 1); Atomics.notify(words, 0)";

/** How agent 1 has code run in a context. */
const WAYS = {
  createContext: "vm.runInContext(CODE, vm.createContext({ buffer }))",
  runInNewContext: "vm.runInNewContext(CODE, { buffer })",
  script: "new vm.Script(CODE).runInNewContext({ buffer })",
};

/**
 * The outcomes of two agents, which the simulator checks: the first one waits, and the second one does something.
 * @param {import("node:test").TestContext} context
 * @param {string} does
 * @param {object} [options]
 * @param {number[]} [seeds]
 */
function outcomesOf(context, does, options = {}, seeds = [1]) {
  const module = moduleOf(context, `import vm from "node:vm";
    import assert from "node:assert/strict";
    const CODE = ${JSON.stringify(WAKES)};
    export const setup = { agents: 2, buffers: [8] };
    export default ({ buffers: [buffer], agent }) => {
      const words = new Int32Array(buffer);
      if (agent === 0) Atomics.wait(words, 0, 0);
      else ${does};
    };`);
  // Without pilots, half as many workers are needed.
  const fixed = { module, agents: 2, everywhere: true, ordinary: "store", timeouts: "never" };
  return recorded({ ...fixed, ...options }, seeds);
}

describe("a new context in an agent, without watched ordinary accesses", { concurrency: 4 }, () => {
  for (const [way, does] of Object.entries(WAYS)) {
    for (const ordinary of ["store", "refuse"]) {
      test(`wakes an agent by its Atomics: ${way}, --ordinary ${ordinary}`, async (context) => {
        const outcomes = await outcomesOf(context, does, { ordinary }, seedsTo(5));
        assert.equal(outcomes.length, 5);
        for (const { ending, detail, script, calls } of outcomes) {
          // Each that has a script was checked.
          assert.deepEqual([ending, typeof script, calls], ["finished", "string", 3], detail);
        }
      });
    }

    test(`doesn't make shared memory unseen: ${way}`, async (context) => {
      const makes = does.replace("CODE", '"Atomics.add(new Int32Array(new SharedArrayBuffer(8)), 0, 1)"');
      const [{ ending, detail }] = await outcomesOf(context, makes);
      assert.equal(ending, "failed");
      assert.match(detail, /^agent 1 uses a SharedArrayBuffer of its own, made at evalmachine.*\(1 call of Atomics, /);
    });
  }

  test("has its options, and leaves the object that was given as it was", async (context) => {
    const [{ ending, detail }] = await outcomesOf(context, `{
      const given = { one: 1, Atomics: "theirs" };
      const former = Object.getOwnPropertyDescriptors(given);
      const made = vm.createContext(given, { codeGeneration: { strings: false, wasm: true } });
      assert.equal(vm.createContext(made), made);
      assert.deepEqual(Object.entries(Object.getOwnPropertyDescriptors(made)), Object.entries(former));
      assert.equal(vm.runInContext("Atomics", made), "theirs");
      assert.throws(() => vm.runInContext("eval('1')", made), { name: "EvalError" });
      const strict = { contextCodeGeneration: { strings: false, wasm: true } };
      assert.throws(() => vm.runInNewContext("eval('1')", {}, strict), { name: "EvalError" });
      assert.throws(() => new vm.Script("eval('1')").runInNewContext({}, strict), { name: "EvalError" });
      const fixed = vm.createContext(Object.freeze({ Atomics: 1 }));
      assert.equal(vm.runInContext("Atomics", fixed), 1);
      const empty = {};
      assert.equal(vm.runInNewContext("delete globalThis.one; Atomics === theirs", { theirs: Atomics }), true);
      assert.equal(vm.runInNewContext("SharedArrayBuffer.name", empty), "SharedArrayBuffer");
      assert.deepEqual(Reflect.ownKeys(empty), []);
      assert.deepEqual([vm.createContext.length, vm.createContext.name], [0, "createContext"]);
      Atomics.store(words, 0, 1);
      Atomics.notify(words, 0);
    }`);
    assert.deepEqual([ending, detail], ["finished", ""]);
  });
});
