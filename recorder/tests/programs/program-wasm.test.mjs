// Whole programs with shared memory of WebAssembly. What an instruction does is compared with what the engine does;
// what wait and notify do is as the standard says.

import assert from "node:assert/strict";
import { describe, it } from "node:test";
import { fileURLToPath } from "node:url";
import { hasSharedMemory, translated } from "../../lib/program/wasm/translate.mjs";
import { commandNow } from "../helpers/common.mjs";
import { seedsTo } from "../helpers/recorded.mjs";
import { endingsOf, finishing, racing, runsOf } from "../helpers/whole-programs.mjs";
import { ATOMIC, code, moduleOf } from "../programs/wasm/assembled.mjs";
import { locks } from "../programs/wasm/locks.mjs";

const { get, i32, load, store, atomic, loop, again, add } = code;

/** @param {Uint8Array} bytes @returns {string} code that makes them */
const shown = (bytes) =>
  `Uint8Array.from(atob("${Buffer.from(bytes).toString("base64")}"), (byte) => byte.charCodeAt(0))`;

const MAIN = `import { Worker } from "node:worker_threads";
const workerOf = (workerData) => new Worker(new URL("./worker.mjs", import.meta.url), { workerData });
const ended = (worker) => new Promise((done) => worker.on("exit", done));
const memory = new WebAssembly.Memory({ initial: 1, maximum: 1, shared: true });
const env = { memory };
`;
const WORKER = `import { workerData } from "node:worker_threads";
const { memory, module } = workerData;
const { exports } = new WebAssembly.Instance(module, { env: { memory } });
`;

// Each instruction that uses the memory, by its number in the standard, with its type and how many bytes it takes.
const VARIANTS = [["i", 4], ["l", 8], ["i", 1], ["i", 2], ["l", 1], ["l", 2], ["l", 4]];
const NAMES = ["load", "store", "add", "sub", "and", "or", "xor", "xchg", "cmpxchg"];
const PLAIN_LOADS = [
  ["i", 4], ["l", 8], ["f", 4], ["d", 8], ["i", 1], ["i", 1], ["i", 2], ["i", 2], ["l", 1], ["l", 1], ["l", 2],
  ["l", 2],
  ["l", 4], ["l", 4],
];
const PLAIN_STORES = [["i", 4], ["l", 8], ["f", 4], ["d", 8], ["i", 1], ["i", 2], ["l", 1], ["l", 2], ["l", 4]];
const OFFSET = 3;

/** @typedef {{ name: string, type: string, size: number, isAtomic: boolean, body: number[] }} Each */

/** @returns {Each[]} the atomic instructions with values */
const atomicOnes = () => NAMES.flatMap((name, kind) => VARIANTS.map(([value, size], at) => {
  const count = [0, 1, 1, 1, 1, 1, 1, 1, 2][kind];
  const given = Array.from({ length: count + 1 }, (_, local) => get(local)).flat();
  const body = [...given, ...atomic(0x10 + 7 * kind + at, Math.log2(Number(size)), 8 * OFFSET)];
  const type = `i${String(value).repeat(count)}>${name === "store" ? "" : value}`;
  return { name: `${name} ${value}${size}`, type, size: Number(size), isAtomic: true, body };
}));

/** @returns {Each[]} plain ones. What they say of their alignment is right for some addresses, and else only a hint */
const plainOnes = () => [
  ...PLAIN_LOADS.map(([value, size], at) => ({ kind: "load", number: 0x28 + at, type: `i>${value}`, value, size })),
  ...PLAIN_STORES.map(([value, size], at) => ({ kind: "store", number: 0x36 + at, type: `i${value}>`, value, size })),
].map(({ kind, number, type, size }) => ({
  name: `${kind} 0x${number.toString(16)}`, type, size: Number(size), isAtomic: false,
  body: [...get(0), ...(kind === "store" ? get(1) : []), number, Math.log2(Number(size)), 8 * OFFSET],
}));

const lanes = (/** @type {number} */ number, /** @type {number[]} */ ...more) =>
  [0xfd, ...(number > 127 ? [number, 1] : [number]), 0, 8 * OFFSET, ...more];

/** @returns {Each[]} those on vectors, whose results are made numbers, and those on many bytes */
const others = () => [
  ...Array.from({ length: 11 }, (_, at) => [at, lanes(at)]), [92, lanes(92)], [93, lanes(93)],
].map(([number, body]) => ({
  name: `vector load ${number}`, type: "i>l", size: 16, isAtomic: false,
  body: [...get(0), .../** @type {number[]} */ (body), 0xfd, 29, 0],
})).concat([84, 85, 86, 87].map((number) => ({
  name: `lane load ${number}`, type: "il>l", size: 2 ** (number - 84), isAtomic: false,
  body: [...get(0), ...get(1), 0xfd, 18, ...lanes(number, 0), 0xfd, 29, 0],
}))).concat([11, 88, 89, 90, 91].map((number) => ({
  name: `vector store ${number}`, type: "il>", size: number === 11 ? 16 : 2 ** (number - 88), isAtomic: false,
  body: [...get(0), ...get(1), 0xfd, 18, ...lanes(number, ...(number === 11 ? [] : [0]))],
}))).concat([
  { name: "fill", type: "ii>", size: 8, isAtomic: false, body: [...get(0), ...get(1), ...i32(7), 0xfc, 11, 0] },
  { name: "copy", type: "ii>", size: 8, isAtomic: false,
    body: [...get(0), ...get(1), ...i32(63), 0x71, ...i32(9), 0xfc, 10, 0, 0] },
]);

const EACH = [...atomicOnes(), ...plainOnes(), ...others()];
const ALL = moduleOf(EACH);

/** What both sides evaluate: it makes calls, and collects what they return or throw, and the bytes behind them. */
const CALLS = `export function results(exports, memory, calls) {
  const bytes = new Uint8Array(memory.buffer);
  const all = [];
  for (const [name, ...given] of calls) {
    try {
      const answer = exports[name](...given.map((each) => (typeof each === "string" ? BigInt(each) : each)));
      all.push(name + ": " + (Object.is(answer, -0) ? "-0" : answer));
    } catch (error) {
      all.push(name + ": " + error.constructor.name + " " + error.message);
    }
    all.push([...bytes.subarray(0, 96)].join());
  }
  return all;
}
`;

/** @param {number} seed @returns {() => number} draws whole numbers of 32 bits */
function drawing(seed) {
  let state = seed;
  return () => {
    state = (Math.imul(state, 1664525) + 1013904223) | 0;
    return state ^ (state >>> 15);
  };
}

/** @param {() => number} draw @param {string} type @returns {number | string} of a type; those of 64 bits as a text */
function valueOf(draw, type) {
  const some = [0, -1, 1, 0x80, 0x8000, 0x7fffffff, 0x1ff, draw() & 255, draw() & 65535, draw()][(draw() >>> 3) % 10];
  if (type === "l") return String((draw() & 1) === 0 ? BigInt(some) : (BigInt(some) << 32n) | BigInt(draw() >>> 0));
  return type === "i" ? some : some / 8;
}

/** @param {Each} each @param {() => number} draw @returns {number} an address that mostly is right for it */
function addressFor({ size, isAtomic }, draw) {
  const kind = (draw() >>> 4) % 12;
  if (kind === 0) return 65536 - 8 * OFFSET - ((draw() >>> 5) % (size + 2));
  if (kind === 1) return -1 - ((draw() >>> 5) % 64);
  return kind < 4 || !isAtomic ? (draw() >>> 5) % 32 : ((draw() >>> 5) % (32 / size)) * size;
}

/** Those of a part of a word. */
const PARTS = VARIANTS.filter(([value, size]) => size !== (value === "i" ? 4 : 8));

/**
 * Exchanges of a part of a word: what is expected has the lower bits that are there, and others above them or none.
 * @returns {(string | number)[][]}
 */
const partsExchanged = () => PARTS.flatMap(([value, size]) => {
  const shown = (/** @type {bigint} */ number) => (value === "i" ? Number(number) : String(number));
  const variant = `${value}${size}`;
  return [1n << (8n * BigInt(size)), 0n].flatMap((above) => [
    [`store ${variant}`, 16, shown(0x81n)], [`cmpxchg ${variant}`, 16, shown(0x81n + above), shown(0x7fn)],
  ]);
});

/** @param {number} seed @returns {(string | number)[][]} names with what is given: each instruction several times */
function callsOf(seed) {
  const draw = drawing(seed);
  const rounds = Array.from({ length: 3 }, () => EACH).flat();
  const drawn = rounds.map((each) => {
    const types = [...each.type.split(">")[0]].slice(1);
    return [each.name, addressFor(each, draw), ...types.map((type) => valueOf(draw, type))];
  });
  return [...drawn, ...partsExchanged()];
}

describe("instructions that use the memory do what the engine's do", () => {
  for (const wasmAccesses of ["ordinary", "relaxed"]) {
    it(`with ${wasmAccesses} accesses`, async (context) => {
      const calls = callsOf(wasmAccesses.length);
      const { results } = await import(`data:text/javascript,${encodeURIComponent(CALLS)}`);
      const memory = new WebAssembly.Memory({ initial: 1, maximum: 1, shared: true });
      const { exports } = new WebAssembly.Instance(new WebAssembly.Module(ALL), { env: { memory } });
      const expected = results(exports, memory, calls);
      const outcomes = await finishing(context, {
        "main.mjs": `${MAIN}import { results } from "./calls.mjs";
          const worker = workerOf(memory);
          const { exports } = new WebAssembly.Instance(new WebAssembly.Module(${shown(ALL)}), { env });
          const found = results(exports, memory, ${JSON.stringify(calls)});
          const expected = ${JSON.stringify(expected)};
          const at = found.findIndex((each, at) => each !== expected[at]);
          if (at >= 0) throw new Error("at " + at + ": " + [found[at - 1], found[at], expected[at]].join(" | "));
          Atomics.store(new Int32Array(memory.buffer), 16000, 1);
          Atomics.notify(new Int32Array(memory.buffer), 16000);`,
        "worker.mjs": `import { workerData } from "node:worker_threads";
          Atomics.wait(new Int32Array(workerData.buffer), 16000, 0);`,
        "calls.mjs": CALLS,
      }, { options: { wasmAccesses } });
      assert.ok(expected.some((each) => /unaligned/.test(each)) && expected.some((each) => /out of bounds/.test(each)));
      assert.ok(outcomes[0].ordinary > 100, String(outcomes[0].ordinary));
    });
  }

  it("and those without memory stay as they are", () => {
    const before = moduleOf([{ name: "f", type: "i>i", body: [...get(0), ...i32(1), ...add] }]);
    const { exports } = new WebAssembly.Instance(new WebAssembly.Module(translated(before)), {
      env: { memory: new WebAssembly.Memory({ initial: 1, maximum: 1, shared: true }) },
    });
    assert.equal(/** @type {any} */ (exports).f(6), 7);
  });
});

const WAITING = moduleOf([
  { name: "wait32", type: "iil>i", body: [...get(0), ...get(1), ...get(2), ...atomic(ATOMIC.WAIT32)] },
  { name: "wait64", type: "ill>i", body: [...get(0), ...get(1), ...get(2), ...atomic(ATOMIC.WAIT64, 3)] },
  { name: "notify", type: "ii>i", body: [...get(0), ...get(1), ...atomic(ATOMIC.NOTIFY)] },
  { name: "increment", type: "i>i", body: [...get(0), ...i32(1), ...atomic(ATOMIC.ADD)] },
  { name: "fence", type: ">", body: [...atomic(ATOMIC.FENCE).slice(0, 2), 0] },
]);

describe("wait and notify", () => {
  it("wake all sleepers if the count is -1, one at a time if it is 1, and none if it is 0", async (context) => {
    const outcomes = await finishing(context, {
      "main.mjs": `${MAIN}const module = new WebAssembly.Module(${shown(WAITING)});
        const { exports: { notify, increment, fence } } = new WebAssembly.Instance(module, { env });
        const workers = [0, 1, 2].map((at) => workerOf({ memory, module, at }));
        const all = Promise.all(workers.map(ended));
        await new Promise((done) => setTimeout(done, 50));
        fence();
        if (notify(16, 0) !== 0) throw new Error("none was to be woken");
        if (notify(16, 1) !== 1) throw new Error("one was to be woken");
        const rest = notify(16, -1);
        if (rest !== 2) throw new Error("woken: " + rest);
        await all;
        if (increment(8) !== 3) throw new Error("not all have counted");`,
      "worker.mjs": `${WORKER}
        const sleep = workerData.at === 2 ? exports.wait64(16, 0n, -1n) : exports.wait32(16, 0, -1n);
        if (sleep !== 0) throw new Error("it slept with " + sleep);
        exports.increment(8);`,
    }, { seeds: [1, 2, 3, 4, 5, 6], options: { timeouts: 0 } });
    for (const { checked } of outcomes) assert.equal(checked, true);
  });

  it("return 1 for another value, and 2 when the time is up, by the run's clock", async (context) => {
    await finishing(context, {
      "main.mjs": `${MAIN}const module = new WebAssembly.Module(${shown(WAITING)});
        const { exports: { wait32, wait64 } } = new WebAssembly.Instance(module, { env });
        const worker = workerOf({ memory, module });
        const begun = performance.now();
        const found = [[wait32, 1, -1n], [wait64, 1n << 40n, -1n], [wait32, 0, 0n], [wait32, 0, 7_000_000_000n]]
          .map(([wait, value, time]) => wait(16, value, time));
        const passed = performance.now() - begun;
        if (found.join() !== "1,1,2,2") throw new Error("it slept with " + found);
        if (passed < 7000 || passed > 7001) throw new Error("it took " + passed);`,
      "worker.mjs": WORKER,
    }, { seeds: [1, 2], options: { timeouts: 0 } });
  });
});

describe("a program for browsers", () => {
  it("shares memory and module with a worker, and its page can't sleep", async (context) => {
    await finishing(context, {
      "main.mjs": `const memory = new WebAssembly.Memory({ initial: 1, maximum: 1, shared: true });
        const { module, instance } = await WebAssembly.instantiate(${shown(WAITING)}, { env: { memory } });
        try { instance.exports.wait32(16, 0, -1n); throw new Error("it slept"); }
        catch (error) { if (!(error instanceof WebAssembly.RuntimeError)) throw error; }
        const worker = new Worker("worker.mjs", { type: "module" });
        worker.postMessage({ memory, module });
        await new Promise((done) => { worker.onmessage = done; });
        if (new Int32Array(memory.buffer)[2] !== 1) throw new Error("not counted");
        close();`,
      "worker.mjs": `onmessage = ({ data: { memory, module } }) => {
        const { exports } = new WebAssembly.Instance(module, { env: { memory } });
        if (exports.wait32(16, 0, 1000n) !== 2) throw new Error("it didn't sleep");
        exports.increment(8);
        postMessage("done");
      };`,
    }, { seeds: [1, 2, 3], options: { web: true } });
  });
});

describe("a module's memory, data and start", () => {
  it("a memory of its own is exported, holds its data, and is shared from there", async (context) => {
    const bytes = moduleOf([
      { name: "begin", type: ">", body: [...i32(64), ...i32(5), ...store(0)] },
      { name: "read", type: "i>i", body: [...get(0), ...load(0)] },
    ], { isOwn: true, data: "abcd", start: 0, pages: [1, 2] });
    const outcomes = await finishing(context, {
      "main.mjs": `${MAIN}const { instance, module } = await WebAssembly.instantiate(${shown(bytes)});
        const { exports } = instance;
        const names = Object.keys(exports).join();
        if (names !== "begin,read,memory" || !Object.isFrozen(exports)) throw new Error("it exports " + names);
        const isAsItWas = WebAssembly.Module.exports(module).length === 3 && module instanceof WebAssembly.Module;
        if (!isAsItWas) throw new Error("not as it was");
        const { Instance } = WebAssembly;
        if (!(instance instanceof Instance) || instance.constructor !== Instance) throw new Error("no instance");
        if (exports.read(64) !== 5 || exports.read(32) !== 0x64636261) throw new Error("it has " + exports.read(32));
        const worker = workerOf(exports.memory);
        await ended(worker);
        if (exports.read(96) !== 9) throw new Error("not shared");`,
      "worker.mjs": `import { workerData } from "node:worker_threads";
        const words = new Int32Array(workerData.buffer);
        if (words[8] !== 0x64636261 || words[16] !== 5) throw new Error("it got " + words[8]);
        words[24] = 9;`,
    }, { seeds: [1, 2] });
    for (const { checked } of outcomes) assert.equal(checked, true);
  });

  it("data that goes to a memory that others reach is a write", async (context) => {
    const bytes = moduleOf([{ name: "read", type: "i>i", body: [...get(0), ...load(0)] }], { data: "abcd" });
    await racing(context, {
      "main.mjs": `${MAIN}workerOf(memory);
new WebAssembly.Instance(new WebAssembly.Module(${shown(bytes)}), { env });`,
      "worker.mjs": `import { workerData } from "node:worker_threads";
new Int32Array(workerData.buffer)[8] = 9;`,
    }, { seeds: [1, 2, 3] });
  });

  it("grows by an instruction, and another thread's accesses reach what was added", async (context) => {
    const bytes = moduleOf([
      { name: "grow", type: "i>i", body: [...get(0), 0x40, 0] }, { name: "size", type: ">i", body: [0x3f, 0] },
      { name: "put", type: "ii>", body: [...get(0), ...get(1), ...atomic(ATOMIC.STORE)] },
      { name: "look", type: "i>i", body: [...get(0), ...atomic(ATOMIC.LOAD)] },
    ], { pages: [1, 3] });
    await finishing(context, {
      "main.mjs": `import { Worker } from "node:worker_threads";
        const memory = new WebAssembly.Memory({ initial: 1, maximum: 3, shared: true });
        const module = new WebAssembly.Module(${shown(bytes)});
        const { exports } = new WebAssembly.Instance(module, { env: { memory } });
        if (exports.grow(0) !== 1 || exports.grow(9) !== -1 || memory.grow(0) !== 1) throw new Error("not 1");
        const worker = new Worker(new URL("./worker.mjs", import.meta.url), { workerData: { memory, module } });
        while (exports.look(0) === 0) Atomics.wait(new Int32Array(memory.buffer), 0, 0, 5);
        const hasGrown = exports.size() === 2 && exports.look(65540) === 8 && memory.buffer.byteLength === 131072;
        if (!hasGrown) throw new Error("it has " + exports.size());
        if (exports.grow(1) !== 2 || exports.grow(1) !== -1) throw new Error("it grew");
        try {
          memory.grow(1);
          throw new Error("it grew");
        } catch (error) {
          if (!(error instanceof RangeError)) throw error;
        }`,
      "worker.mjs": `${WORKER}if (exports.grow(1) !== 1) throw new Error("not 1");
        exports.put(65540, 8);
        exports.put(0, 1);`,
    }, { seeds: [1, 2, 3, 4], options: { timeouts: 0 } });
  });

  it("goes by messages and clones, each another object on the same memory", async (context) => {
    const outcomes = await finishing(context, {
      "main.mjs": `${MAIN}const module = new WebAssembly.Module(${shown(locks(2))});
        const copy = structuredClone({ deep: [memory, module] });
        const { exports } = new WebAssembly.Instance(copy.deep[1], { env: { memory: copy.deep[0] } });
        if (copy.deep[0] === memory || !(copy.deep[0] instanceof WebAssembly.Memory)) throw new Error("no clone");
        const worker = workerOf(null);
        worker.postMessage({ memory, module, again: memory });
        worker.on("message", (back) => {
          exports.countLocked(64);
          const counted = new Int32Array(back.buffer)[17];
          if (counted !== 2) throw new Error("counted " + counted);
          worker.terminate();
        });`,
      "worker.mjs": `import { parentPort } from "node:worker_threads";
        parentPort.on("message", ({ memory, module, again }) => {
          if (memory !== again || !(module instanceof WebAssembly.Module)) throw new Error("not the same");
          new WebAssembly.Instance(module, { env: { memory } }).exports.countLocked(64);
          parentPort.postMessage(memory);
        });`,
    }, { seeds: [1, 2, 3] });
    for (const { ordinary, checked } of outcomes) assert.deepEqual([ordinary > 0, checked], [true, true]);
  });
});

describe("findings", () => {
  const COUNTING = {
    "main.mjs": `${MAIN}const module = new WebAssembly.Module(${shown(locks(2))});
      const workers = [0, 1].map(() => workerOf({ memory, module }));
      await Promise.all(workers.map(ended));
      const counted = new Int32Array(memory.buffer)[17];
      if (counted !== 2) throw new Error("counted " + counted);`,
    "worker.mjs": `${WORKER}exports.count(64);`,
  };

  it("name the function and the instruction's byte in the module", async (context) => {
    const bytes = locks(2);
    // Where count's load and its store stand: their bytes, with the offset 4, are there once.
    const at = (/** @type {number[]} */ instruction) => Buffer.from(bytes).indexOf(Buffer.from(instruction));
    const outcomes = await runsOf(context, COUNTING, { seeds: [1, 2] });
    const lines = outcomes.flatMap(({ races }) => races.flatMap((race) => race.lines));
    const expected = [load(4), store(4)].map((instruction) => `wasm:count:1:${at(instruction)}`);
    assert.deepEqual([...new Set(lines)].sort(), expected.sort());
    assert.deepEqual([...new Set(outcomes.map(({ ending }) => ending))], ["race"]);
  });

  it("aren't races if accesses are relaxed, but what is lost is found", async (context) => {
    const seeds = seedsTo(30);
    const outcomes = await runsOf(context, COUNTING, { seeds, options: { wasmAccesses: "relaxed" } });
    assert.deepEqual(outcomes.flatMap(({ races }) => races), []);
    assert.deepEqual([...new Set(outcomes.map(({ ending }) => ending))].sort(), ["failed", "finished"]);
    for (const { ending, detail } of outcomes) assert.match(detail, ending === "failed" ? /counted 1/ : /^$/);
  });

  it("have races with ordinary accesses of JavaScript, also if those of WebAssembly are relaxed", async (context) => {
    const files = { ...COUNTING, "worker.mjs": `${WORKER}exports.count(64);\nnew Int32Array(memory.buffer)[17] = 2;` };
    await racing(context, files, { seeds: [1, 2], options: { wasmAccesses: "relaxed" } });
  });

  it("show a trap with the function's name", async (context) => {
    const files = { ...COUNTING, "worker.mjs": `${WORKER}exports.count(-4);` };
    const [{ ending, detail }] = await runsOf(context, files);
    assert.equal(ending, "failed");
    assert.match(detail, /RuntimeError: memory access out of bounds\n +at count \(wasm:/);
  });

  it("show where a thread spins", async (context) => {
    const bytes = moduleOf([{ name: "spin", type: "i>",
      body: loop(...get(0), ...atomic(ATOMIC.LOAD), 0x45, ...again(0)) }]);
    const outcomes = await runsOf(context, {
      "main.mjs": `${MAIN}workerOf({ memory, module: new WebAssembly.Module(${shown(bytes)}) });`,
      "worker.mjs": `${WORKER}exports.spin(64);`,
    });
    assert.equal(outcomes[0].ending, "limit");
    assert.match(outcomes[0].detail, /spins at wasm:spin:1:\d+/);
  });
});

describe("--wasm-accesses", () => {
  it("goes with programs alone", () => {
    const words = ["agents/naive-mutex.mjs", "--wasm-accesses", "relaxed"];
    const cwd = fileURLToPath(new URL("../", import.meta.url));
    const { status, stderr } = commandNow(words, { cwd });
    const why = "record: --wasm-accesses needs --program: the shared memory of WebAssembly is recorded in programs "
      + "alone\n";
    assert.deepEqual([status, stderr], [2, why]);
  });
});

describe("modules of WebAssembly", () => {
  it("without shared memory stay the engine's", async (context) => {
    const bytes = moduleOf([{ name: "count", type: "i>",
      body: [...get(0), ...get(0), ...load(4), ...i32(1), ...add, ...store(4)] }], { isShared: false });
    assert.equal(hasSharedMemory(bytes), false);
    await finishing(context, {
      "main.mjs": `const memory = new WebAssembly.Memory({ initial: 1, maximum: 1 });
        const module = new WebAssembly.Module(${shown(bytes)});
        const { exports } = new WebAssembly.Instance(module, { env: { memory } });
        exports.count(64);
        if (new Int32Array(memory.buffer)[17] !== 1 || memory.grow(0) !== 1) throw new Error("not counted");
        if (WebAssembly.Module.customSections(module, "sabsim.data").length > 0) throw new Error("translated");`,
    });
  });

  it("that can't be translated end the run, with what they have and the line", async (context) => {
    const bytes = moduleOf([{ name: "f", type: ">", body: [] }], { data: "a", isDataMoved: true });
    assert.ok(WebAssembly.validate(/** @type {any} */ (bytes)));
    const outcomes = await runsOf(context, {
      "main.mjs": `${MAIN}const bytes = ${shown(bytes)};\nnew WebAssembly.Module(bytes);`,
    });
    const why = "failed: agent 0 compiled a module of WebAssembly that the recorder can't translate: "
      + "it has data at a place that isn't constant, at main.mjs:7:1";
    assert.deepEqual(endingsOf(outcomes), [why]);
  });
});
