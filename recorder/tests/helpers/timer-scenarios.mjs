// What programs do with timers, as scenarios. A thread that has loaded this file as its own runs them by node's timers,
// as they are without a run.

import { AsyncLocalStorage, executionAsyncResource } from "node:async_hooks";
import timers from "node:timers";
import timersPromises from "node:timers/promises";
import util from "node:util";
import { isMainThread, parentPort, workerData } from "node:worker_threads";

/** What the scenarios use. They pass wrong arguments, too. */
export const TIMERS = {
  ...timers,
  promises: timersPromises,
  timeoutSignal: (/** @type {number} */ ms) => AbortSignal.timeout(ms),
};

/** Given as `workerData`: the thread runs scenarios. */
export const BY_NODE = "by node";

/** @typedef {(t: typeof TIMERS, log: (what: unknown) => void) => unknown} Scenario what it logs has to be the same */

/**
 * Scenarios in which nothing hangs on how long something takes.
 * @type {Record<string, Scenario>}
 */
export const SCENARIOS = {
  "timers come in the order of their deadlines, and those alike in the order of their making": (t, log) => {
    t.setTimeout(log, 20, "20");
    t.setTimeout(log, 1, "1");
    t.setTimeout(log, 10, "10");
    t.setTimeout(log, 10, "10 again");
    t.setTimeout(log, 0, "0 is 1");
    t.setTimeout(log, -5, "so is -5");
    t.setTimeout(log, undefined, "and undefined");
    t.setTimeout(log, "1", "and a text");
    t.setTimeout(log, 1.9, "1.9");
    t.setTimeout((/** @type {unknown[]} */ ...all) => log(all.join()), 12, 1, 2, 3, 4, 5);
    const count = (/** @type {unknown[]} */ ...all) => log(`${all.length} given`);
    t.setTimeout(count, 14);
    t.setTimeout(count, 15, undefined);
  },
  "ticks and microtasks come between two callbacks": (t, log) => {
    for (const name of ["a", "b"]) {
      const act = () => {
        log(name);
        process.nextTick(log, `tick of ${name}`);
        Promise.resolve().then(() => log(`microtask of ${name}`));
        queueMicrotask(() => process.nextTick(log, `tick of the microtask of ${name}`));
      };
      t.setTimeout(act, 5);
      t.setTimeout(() => t.setImmediate(act), 9);
    }
  },
  "an immediate of an immediate comes in the next round": (t, log) => {
    t.setImmediate(() => {
      log("first");
      t.setImmediate(log, "of the first");
    });
    t.setImmediate(log, "second");
    t.setImmediate(() => {
      log("third");
      t.setImmediate(log, "of the third");
    });
  },
  "an immediate clears one of its round, and a later one": (t, log) => {
    t.setImmediate(() => {
      log("first");
      t.clearImmediate(second);
      t.clearImmediate(later);
      t.clearImmediate(later);
    });
    const second = t.setImmediate(log, "second");
    const later = t.setImmediate(log, "later");
    t.setImmediate(log, "last");
    t.clearImmediate(undefined);
  },
  "a callback has its timer as this": (t, log) => {
    const timer = t.setTimeout(/** @this {unknown} */ function () { log(this === timer); }, 1);
  },
  "a callback has its immediate as this": (t, log) => {
    const immediate = t.setImmediate(/** @this {unknown} */ function () { log(this === immediate); });
  },
  "an interval goes on until it is cleared, also by itself": (t, log) => {
    let times = 0;
    const interval = t.setInterval((/** @type {string} */ word) => {
      times += 1;
      log(`${word} ${times}`);
      if (times === 3) t.clearInterval(interval);
    }, 4, "again");
    const once = t.setInterval(/** @this {any} */ function () {
      log("once");
      t.clearTimeout(this);
      log(this.hasRef());
    }, 2);
    log(typeof once.refresh);
  },
  "timers are cleared by object, number and text": (t, log) => {
    /** @type {((timer: any) => unknown)[]} */
    const forms = [(x) => x, (x) => +x, (x) => `${x}`];
    for (const form of forms) t.clearTimeout(form(t.setTimeout(log, 1, "never")));
    t.clearInterval(+t.setInterval(log, 1, "never"));
    t.clearTimeout("no number");
    t.clearTimeout(null);
    const timer = t.setTimeout(log, 5, "refreshed by number");
    log(+timer === +timer);
    t.setTimeout(() => t.clearTimeout(timer), 1);
    t.setTimeout(log, 9, "end");
  },
  "a number no longer clears a timer that has ended and begun again": (t, log) => {
    let times = 0;
    const timer = t.setTimeout(() => {
      times += 1;
      log(`${times}`);
      if (times === 2) return;
      t.setImmediate(() => {
        t.clearTimeout(number);
        timer.refresh();
        t.clearTimeout(number);
        log(typeof +timer);
      });
    }, 2);
    const number = +timer;
  },
  "close, refresh, ref, unref, hasRef": (t, log) => {
    const timer = t.setTimeout(log, 45, "refreshed");
    t.setTimeout(log, 45, "behind");
    log(timer.hasRef());
    log(timer.unref() === timer);
    log(timer.hasRef());
    log(timer.ref().hasRef());
    log(timer.refresh() === timer);
    log(t.setTimeout(log, 1, "closed").close().hasRef());
    const again = t.setTimeout(() => {
      log("again");
      if (!again.seen) again.refresh();
      again.seen = true;
    }, 3);
    again.seen = false;
  },
  "ref, unref and hasRef of an immediate": (t, log) => {
    const immediate = t.setImmediate(log, "immediate");
    log(immediate.hasRef());
    log(immediate.unref().hasRef());
    log(immediate.ref() === immediate);
    t.setImmediate(() => log(immediate.hasRef()));
  },
  "a list whose first timer is gone": (t, log) => {
    const first = t.setTimeout(log, 10, "never");
    t.setTimeout(() => {
      t.clearTimeout(first);
      t.setTimeout(log, 10, "10 later");
      t.setTimeout(log, 6, "6 later");
    }, 3);
  },
  "what node's objects have": (t, log) => {
    const timer = t.setTimeout(() => {}, 7, "given");
    const immediate = t.setImmediate(() => {}, 1);
    for (const object of [timer, immediate, t.setInterval(() => {}, 3).unref()]) {
      log(Reflect.ownKeys(object).map(String).sort().join());
      log(Reflect.ownKeys(Object.getPrototypeOf(object)).map(String).sort().join());
      log(object.constructor.name);
      log(util.inspect(object).replaceAll(/\d+/g, "N").replaceAll(",\n", "\n").split("\n").sort().join());
      log(String(Object.prototype.toString.call(object)));
      if (object === immediate) t.clearImmediate(object);
      else t.clearTimeout(object);
      log(util.inspect(object).replaceAll(/-?\d+/g, "N").replaceAll(",\n", "\n").split("\n")
        .filter((line) => !/_on|Id/.test(line)).sort().join());
    }
    const names = ["setTimeout", "setInterval", "setImmediate", "clearTimeout", "clearInterval", "clearImmediate"];
    for (const name of names) {
      log(`${t[name].name} ${t[name].length}`);
    }
    for (const name of Object.keys(t.promises)) log(`${name} ${t.promises[name].length}`);
    log(Object.prototype.toString.call(t.promises.setInterval));
  },
  "Symbol.dispose, if node has it": (t, log) => {
    const timer = t.setTimeout(log, 1, "never");
    const key = Object.getOwnPropertySymbols(Object.getPrototypeOf(timer)).find((each) => /dispose/.test(String(each)));
    log(String(key));
    if (key === undefined) return;
    timer[key]();
    t.setImmediate(log, "never")[key]();
  },
  "timers/promises: values, orders, ref": async (t, log) => {
    const { setTimeout, setImmediate, scheduler } = t.promises;
    setTimeout(6, "six").then(log);
    setTimeout(2, "two", { ref: false }).then(log);
    scheduler.wait(9).then(() => log("waited"));
    util.promisify(t.setTimeout)(4, "promisified").then(log);
    log(util.promisify(t.setTimeout) === setTimeout);
    log(util.promisify(t.setImmediate) === setImmediate);
  },
  "timers/promises: immediates": (t, log) => {
    t.promises.setImmediate("now").then(log);
    t.promises.scheduler.yield().then(() => log("yielded"));
    util.promisify(t.setImmediate)("promisified").then(log);
    t.promises.setImmediate("again", { ref: true }).then(log).then(() => log("and then"));
  },
  "timers/promises: an interval is iterated, and left": (t, log) => {
    (async () => {
      let times = 0;
      for await (const value of t.promises.setInterval(3, "tick")) {
        log(value);
        times += 1;
        if (times === 3) break;
      }
      log("left");
      await null;
      log("a tick later");
    })();
  },
  "timers/promises: signals": (t, log) => {
    const shown = (/** @type {Error} */ { name, code, message, cause }) =>
      log([name, code, message, String(cause)].join());
    const controller = new AbortController();
    const { signal } = controller;
    t.promises.setTimeout(500, 1, { signal }).catch(shown);
    t.promises.setImmediate(1, { signal: AbortSignal.abort("early") }).catch(shown);
    t.promises.setTimeout(1, 1, { signal: AbortSignal.abort() }).catch(shown);
    t.promises.scheduler.wait(400, { signal }).catch(shown);
    (async () => {
      for await (const value of t.promises.setInterval(4, "again", { signal })) log(value);
    })().catch(shown);
    (async () => {
      for await (const value of t.promises.setInterval(4, "never", { signal: AbortSignal.abort(5) })) log(value);
    })().catch(shown);
    t.promises.setTimeout(3, "done", { signal }).then(log);
    t.setTimeout(() => controller.abort(new Error("why")), 6);
  },
  "AbortSignal.timeout": (t, log) => {
    const signal = t.timeoutSignal(5);
    log(Object.prototype.toString.call(signal) + signal.aborted);
    signal.onabort = () => log(`${signal.reason.name} ${signal.reason.message} ${signal.reason.code}`);
    t.setTimeout(log, 12, "end");
  },
  "wrong arguments are refused as by node": async (t, log) => {
    /** @type {Error[]} */
    const errors = [];
    const note = (/** @type {() => unknown} */ act) => {
      try {
        return act();
      } catch (error) {
        return errors.push(/** @type {Error} */ (error));
      }
    };
    for (const wrong of [undefined, null, "x", {}]) {
      for (const name of ["setTimeout", "setInterval", "setImmediate"]) note(() => t[name](wrong, 1));
    }
    for (const wrong of [-1, 1.5, "1", 2 ** 32, undefined]) note(() => t.timeoutSignal(wrong));
    note(() => t.promises.scheduler.yield.call({}));
    const rejected = [
      t.promises.setTimeout("1"), t.promises.setTimeout(1, 1, null), t.promises.setTimeout(1, 1, []),
      t.promises.setTimeout(1, 1, { signal: {} }), t.promises.setTimeout(1, 1, { ref: 1 }),
      t.promises.setImmediate(1, "x"), t.promises.setImmediate(1, { signal: null }),
      t.promises.setInterval("x").next(), t.promises.setInterval(1, 1, { ref: 0 }).next(),
    ];
    const settled = await Promise.allSettled(rejected);
    errors.push(...settled.map((each) => /** @type {PromiseRejectedResult} */ (each).reason));
    for (const error of errors) log(`${error.name} ${error.code} ${error.message}`);
  },
  "AsyncLocalStorage holds": (t, log) => {
    const storage = new AsyncLocalStorage();
    storage.run("outer", () => {
      t.setTimeout(() => log(storage.getStore()), 2);
      t.promises.setTimeout(3).then(() => log(storage.getStore()));
      storage.run("inner", () => {
        let times = 0;
        const interval = t.setInterval(() => {
          times += 1;
          log(`${storage.getStore()} ${times}`);
          if (times === 2) t.clearInterval(interval);
        }, 5);
      });
      const timer = t.setTimeout(() => log(executionAsyncResource() === timer), 45);
    });
    log(storage.getStore());
  },
  "AsyncLocalStorage holds in immediates": (t, log) => {
    const storage = new AsyncLocalStorage();
    t.setImmediate(() => log(storage.getStore()));
    storage.run("inner", () => {
      t.promises.setImmediate().then(() => log(storage.getStore()));
      const immediate = t.setImmediate(() => log(`${storage.getStore()} ${executionAsyncResource() === immediate}`));
      t.setImmediate(() => t.setImmediate(() => log(storage.getStore())));
    });
  },
};

if (!isMainThread && workerData === BY_NODE) {
  parentPort?.on("message", async ({ name, time }) => {
    /** @type {unknown[]} */
    const logged = [];
    await SCENARIOS[name](TIMERS, (what) => logged.push(what));
    timers.setTimeout(() => parentPort?.postMessage(logged), time);
  });
}
