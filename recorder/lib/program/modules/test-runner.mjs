// `node:test` in a program: node's own runner of tests, made anew for each run. It goes on by the thread's loop, as all
// code of the program does.

import publicHooks from "node:async_hooks";
import { isAbsolute } from "node:path";
import { pathToFileURL } from "node:url";
import { apply } from "../../primordials.mjs";
import { Modules, compiledAnew, loadBuiltinModule, options } from "../node/internals.mjs";

/**
 * @typedef {object} FailedTest
 * @property {string} name
 * @property {string} place
 * @property {unknown} thrown
 * @property {boolean} isCancelled whether it fails only because the test or suite that it is in has failed
 */

/** What a suite fails by if only tests in it fail. */
const BY_TESTS = "subtestsFailed";

/** What a test fails by if that which it is in has failed before. */
const BY_PARENT = "cancelledByParent";

/** @param {string | undefined} file @returns {string} its URL: a path may have spaces, and places in texts have none */
const urlOf = (file) => (file !== undefined && isAbsolute(file) ? pathToFileURL(file).href : `${file}`);

export class TestRunner {
  /** @type {(failed: FailedTest) => void} gets each test that fails */
  onFailed = () => {};

  /** @type {(() => void) | undefined} ends what the runner of this run has begun; undefined: there is none */
  #stop = undefined;

  /**
   * One for each thread: it makes a runner when the program first loads `node:test`.
   * @param {(what: string) => void} refuse ends the run
   */
  constructor(refuse) {
    this.refuse = refuse;
    const owner = this;
    const { _load: load } = Modules;
    Modules._load = function (/** @type {any[]} */ ...given) {
      if (given[0] === "node:test") owner.#make();
      return apply(load, this, given);
    };
  }

  /** Nothing of an earlier run is left. */
  clear() {
    this.#stop?.();
    this.#stop = undefined;
  }

  #make() {
    this.#stop ??= freshTests((name, where, { error }, directive) => {
      const isExpected = directive?.todo !== undefined && directive.todo !== false;
      if (isExpected || error?.failureType === BY_TESTS) return;
      const place = `${urlOf(where?.file)}:${where?.line}:${where?.column}`;
      this.onFailed({ name, place, thrown: error?.cause ?? error, isCancelled: error?.failureType === BY_PARENT });
    }, () => /** @type {never} */ (this.refuse("test.run")));
  }
}

/** The modules that node's runner of tests is made of. */
const OF_TESTS = /^(?:test|internal\/test_runner\/(?!reporter\/).*)$/;

/** By this a module of node's own becomes what `import` and `require` find. */
const TESTS = "test";

/** Options of the process, which may itself run tests: where these are reported is none of the program's. */
const OF_REPORTS = /^--test-reporter/;

const ownOptions = () => ({
  ...options,
  getOptionValue: (/** @type {string} */ name) => (OF_REPORTS.test(name) ? [] : options.getOptionValue(name)),
});

/**
 * Makes node's runner of tests once more, by node's own code, and has programs find it as `node:test`. Node's own has
 * ended with the first run.
 * @param {(name: string, where: any, details: any, directive: any) => void} failed is called if a test or suite fails
 * @param {() => never} run in place of the function that runs files in processes of their own
 * @returns {() => void} stops what it has begun
 */
function freshTests(failed, run) {
  const { createHook } = publicHooks;
  /** @type {any[]} */
  const hooks = [];
  const keeping = (/** @type {object} */ callbacks) => {
    const hook = createHook(callbacks);
    hooks.push(hook);
    return hook;
  };
  const ofThis = new Map([
    ["async_hooks", { ...publicHooks, createHook: keeping }], ["internal/options", ownOptions()],
  ]);
  const load = compiledAnew((id) => OF_TESTS.test(id), ofThis);
  const { TestsStream: { prototype } } = load("internal/test_runner/tests_stream");
  const { fail } = prototype;
  /** @this {any} @param {any[]} given */
  prototype.fail = function (...given) {
    const [, where, , name, details, directive] = given;
    failed(name, where, details, directive);
    return apply(fail, this, given);
  };
  const own = loadBuiltinModule(TESTS);
  own.exports = Object.assign(load(TESTS), { run });
  own.syncExports();
  own.module?.setExport("default", own.exports);
  return () => hooks.forEach((hook) => hook.disable());
}
