// Values that whole programs clone and share: structuredClone keeps shared memory, memory grows in several threads, and
// a thread that is kept has no port of an earlier run.

import assert from "node:assert/strict";
import { describe, it } from "node:test";
import { endingsOf, finishing, racing, runsOf } from "../helpers/whole-programs.mjs";

const MAIN = 'import { MessageChannel, Worker } from "node:worker_threads";\n';

/** Main has memory that grows up to 16 bytes, and gives it to a worker. */
const GROWING = `${MAIN}const grows = new SharedArrayBuffer(8, { maxByteLength: 16 });
const words = new Int32Array(grows);
new Worker(new URL("./worker.mjs", import.meta.url), { workerData: grows });
`;
const WORKER = `import { workerData as grows } from "node:worker_threads";
const words = new Int32Array(grows);
`;

describe("structuredClone", () => {
  it("gives objects on the same shared memory, before and after another thread can reach it", async (context) => {
    const outcomes = await finishing(context, {
      "main.mjs": `${MAIN}const words = new Int32Array(new SharedArrayBuffer(16));
        const check = (value) => {
          const inside = { deep: [words, new Map([["b", words.buffer]])], view: new DataView(words.buffer, 4) };
          const copy = structuredClone(inside);
          if (copy.deep[0] === words || copy.deep[0].buffer !== copy.deep[1].get("b")) throw new Error("no clone");
          copy.deep[0][1] = value;
          const found = [words[1], new Int32Array(copy.deep[1].get("b"))[1], copy.view.getInt32(0, true)];
          if (found.join() !== [value, value, value].join()) throw new Error("it has " + found);
          return copy.deep[0];
        };
        check(5);
        const copy = check(6);
        const worker = new Worker(new URL("./worker.mjs", import.meta.url), { workerData: words });
        Atomics.wait(copy, 0, 0);
        if (copy[1] !== 7) throw new Error("it is " + copy[1]);
        worker.on("exit", () => check(8));`,
      "worker.mjs": `import { workerData } from "node:worker_threads";
        const { words } = structuredClone({ words: workerData });
        words[1] = 7; Atomics.store(words, 0, 1); Atomics.notify(words, 0);`,
    }, { seeds: [1, 2, 3] });
    for (const { ordinary, checked } of outcomes) assert.deepEqual([ordinary > 0, checked], [true, true]);
  });

  it("lets races be seen that are made by a clone", async (context) => {
    const races = await racing(context, {
      "main.mjs": `${MAIN}const words = new Int32Array(new SharedArrayBuffer(16));
new Worker(new URL("./worker.mjs", import.meta.url), { workerData: words });
structuredClone([words])[0][1] = 5;`,
      "worker.mjs": 'import { workerData } from "node:worker_threads";\n'
        + "structuredClone({ workerData }).workerData[1] = 7;",
    }, { seeds: [1, 2] });
    for (const lines of races) assert.deepEqual(lines, [["main.mjs:4:32", "worker.mjs:2:47"]]);
  });
});

describe("a getter in what is sent or cloned", () => {
  const ENDS = `const list = [];
      Object.defineProperty(list, 0, { enumerable: true, get: () => words.buffer });
      const given = {
        get words() { calls += 1; delete given.gone; return words; },
        gone: 1, list, at: new Date(7), get [Symbol.iterator]() { return calls; },
      };
      given.self = given;
      Object.defineProperty(given, "hidden", { get: () => { throw new Error("hidden"); } });`;

  it("is called once, as in node, and the memory that it returns is found", async (context) => {
    const outcomes = await finishing(context, {
      "main.mjs": `${MAIN}const words = new Int32Array(new SharedArrayBuffer(8));
      let calls = 0;
      ${ENDS}
      const copy = structuredClone(given);
      if (copy.words.buffer !== copy.list[0] || "gone" in copy || copy.at.getTime() !== 7) throw new Error("no clone");
      new Worker(new URL("./worker.mjs", import.meta.url), { workerData: given });
      if (calls !== 2) throw new Error("it was called " + calls + " times");
      Atomics.wait(words, 0, 0);
      if (copy.words[1] !== 7) throw new Error("it is " + copy.words[1]);`,
      "worker.mjs": `import { workerData } from "node:worker_threads";
      const { words, self, list } = workerData;
      const isSame = self === workerData && words.buffer === list[0];
      if (!isSame || Object.keys(self).join() !== "words,list,at,self") throw new Error("no");
      new Int32Array(list[0])[1] = 7;
      Atomics.store(words, 0, 1);
      Atomics.notify(words, 0);`,
    }, { seeds: [1, 2, 3] });
    for (const { ordinary, checked } of outcomes) assert.deepEqual([ordinary > 0, checked], [true, true]);
  });

  it("ends the call by what it throws", async (context) => {
    await finishing(context, {
      "main.mjs": `${MAIN}const { port1 } = new MessageChannel();
        try {
          port1.postMessage({ get words() { throw new RangeError("no words"); } });
        } catch (error) {
          if (!(error instanceof RangeError) || error.message !== "no words") throw error;
          process.exit(0);
        }
        process.exit(3);`,
    });
  });
});

describe("memory that grows", () => {
  it("is as in node if one thread has it alone", async (context) => {
    await finishing(context, {
      "main.mjs": `const grows = new SharedArrayBuffer(4, { maxByteLength: 64 });
        const words = new Int32Array(grows);
        grows.grow(32);
        const lengths = [words.length, grows.byteLength, grows.maxByteLength].join();
        if (lengths !== "8,32,64") throw new Error("it hasn't grown");
        words[7] = 5;
        if (Atomics.add(words, 7, 1) !== 5 || words.at(-1) !== 6) throw new Error("it is " + words[7]);
        if (new DataView(structuredClone({ grows }).grows).getInt32(28, true) !== 6) throw new Error("no clone");`,
    });
  });

  const SENT = ["grows", "new Int32Array(grows)", "structuredClone(new DataView(grows))", "new Uint8Array(grows, 4)"];
  for (const sent of SENT) {
    it(`grows in two threads, of which one got ${sent}`, async (context) => {
      const outcomes = await finishing(context, {
        "main.mjs": `${MAIN}const grows = new SharedArrayBuffer(8, { maxByteLength: 64 });
        const [words, fixed, view] = [new Int32Array(grows), new Int32Array(grows, 0, 2), new DataView(grows, 4)];
        new Worker(new URL("./worker.mjs", import.meta.url), { workerData: ${sent} });
        while (Atomics.load(words, 0) === 0) Atomics.wait(words, 0, 0);
        const lengths = [grows.byteLength, words.length, words.byteLength, fixed.length, view.byteLength];
        const isRight = lengths.join() === "32,8,32,2,28" && grows.maxByteLength === 64;
        if (!isRight) throw new Error("the lengths are " + lengths);
        const found = [words[7], words.at(-1), view.getInt32(24, true)];
        if (found.some((value) => value !== 70)) throw new Error("it is " + words[7]);
        if (words[8] !== undefined || [...words].join() !== "1,0,0,0,0,0,0,70") throw new Error("it has " + words);
        grows.grow(64);
        if (words.length !== 16 || fixed.length !== 2) throw new Error("it has " + words.length);`,
        "worker.mjs": `import { workerData } from "node:worker_threads";
        const grows = workerData instanceof SharedArrayBuffer ? workerData : workerData.buffer;
        if (!grows.growable || grows.byteLength !== 8) throw new Error("it has " + grows.byteLength + " bytes");
        grows.grow(32);
        const words = new Int32Array(grows);
        words[7] = 70;
        const isWhole = workerData === grows || workerData.byteLength + workerData.byteOffset === 32;
        if (!isWhole) throw new Error("it didn't follow");
        Atomics.store(words, 0, 1);
        Atomics.notify(words, 0);`,
      }, { seeds: [1, 2, 3] });
      for (const { checked, ordinary } of outcomes) assert.ok(checked && ordinary > 0);
    });
  }

  /**
   * @param {string} before what the worker does before it grows
   * @param {string} behind and then
   * @param {number[]} seeds
   */
  const grown = (context, before, behind, seeds) => runsOf(context, {
    "main.mjs": `${GROWING}while (grows.byteLength < 16);
if (words.length !== 4) throw new Error("it has " + words.length);
const found = words[1];`,
    "worker.mjs": `${WORKER}${before}
grows.grow(16);
${behind}`,
  }, { seeds });
  const SEEDS = [1, 2, 3, 4, 5, 6];

  it("orders what was done before it grew before what is done by a thread that finds it longer", async (context) => {
    assert.deepEqual(endingsOf(await grown(context, "words[1] = 5;", "", SEEDS)), ["finished: "]);
  });

  it("doesn't order what is done behind that", async (context) => {
    const outcomes = await grown(context, "", "words[1] = 5;", SEEDS);
    assert.deepEqual([...new Set(outcomes.map(({ ending }) => ending))], ["race"]);
    for (const { races } of outcomes) {
      assert.deepEqual(races.map(({ lines }) => lines), [["main.mjs:7:20", "worker.mjs:5:10"]]);
    }
  });

  it("is a spin if its length is asked for again and again, and nobody grows it", async (context) => {
    const [{ ending, detail }] = await runsOf(context, {
      "main.mjs": `${GROWING}while (grows.byteLength < 16);`,
      "worker.mjs": 'import { workerData } from "node:worker_threads";\nAtomics.load(new Int32Array(workerData), 0);',
    });
    assert.equal(ending, "limit");
    assert.match(detail, /spins at main\.mjs:5:14/);
  });

  describe("only reads its length if `grow` changes nothing", () => {
    for (const length of [4, 17, 8]) {
      it(`to ${length} bytes, so that nothing is ordered by it`, async (context) => {
        await racing(context, {
          "main.mjs": `${GROWING}if (grows.byteLength !== 8) throw new Error("it has grown");
const found = words[1];`,
          "worker.mjs": `${WORKER}words[1] = 5;
try { grows.grow(${length}); } catch (error) { if (!(error instanceof RangeError)) throw error; }`,
        }, { seeds: SEEDS });
      });
    }

    it("and what came before the length that it reads is ordered", async (context) => {
      const outcomes = await finishing(context, {
        "main.mjs": `${GROWING}words[1] = 5;
grows.grow(16);`,
        "worker.mjs": `${WORKER}try { grows.grow(8); } catch { if (words[1] !== 5) throw new Error(words[1]); }`,
      }, { seeds: SEEDS });
      assert.ok(outcomes.some(({ ordinary }) => ordinary > 1) && outcomes.some(({ ordinary }) => ordinary === 1));
    });

    it("and doesn't even do that if no buffer could have the length", async (context) => {
      /** @param {string} length @returns {Promise<number>} how many calls a run has that asks for it */
      const callsWith = async (length) => {
        const [{ calls, ending }] = await runsOf(context, {
          "main.mjs": `${GROWING}try { grows.grow(${length}); } catch {}`,
          "worker.mjs": "",
        });
        assert.equal(ending, "finished");
        return calls;
      };
      const [none, ...others] = await Promise.all(["-1", "2 ** 60", "12n", "4", "8", "12"].map(callsWith));
      assert.deepEqual(others.map((calls) => calls - none), [0, 0, 1, 1, 1]);
    });
  });

  it("is refused as too long by the engine, in the thread that does it alone", async (context) => {
    await finishing(context, {
      "main.mjs": `${GROWING}for (const wrong of [17, 4, -1]) {
          try {
            grows.grow(wrong);
          } catch (error) {
            if (error instanceof RangeError) continue;
          }
          throw new Error(wrong + " was taken");
        }
        if (grows.byteLength !== 8) throw new Error("it has grown");`,
      "worker.mjs": "",
    });
  });
});

describe("what node does by itself", () => {
  it("isn't the program's: to end a stream of the web makes a context, which isn't refused", async (context) => {
    await finishing(context, {
      "main.mjs": `const web = new ReadableStream({ start(controller) { controller.enqueue(1); controller.close(); } });
        let sum = 0;
        for await (const number of web) sum += number;
        if (sum !== 1) throw new Error("the sum is " + sum);`,
    });
  });
});

describe("a thread that is kept", () => {
  it("isn't kept alive by a port of an earlier run", async (context) => {
    await finishing(context, {
      // The first run ends while its worker is kept alive by a port. Each other one ends only when its worker does.
      "main.mjs": `${MAIN}const worker = new Worker(new URL("./worker.mjs", import.meta.url));
        worker.once("message", (isFirst) => { if (isFirst) worker.unref(); });`,
      // The realm's globals show that the thread is the same.
      "worker.mjs": `import { MessageChannel, parentPort } from "node:worker_threads";
        globalThis.runs = (globalThis.runs ?? 0) + 1;
        if (globalThis.runs === 1) new MessageChannel().port1.on("message", () => {});
        parentPort.postMessage(globalThis.runs === 1);`,
    }, { seeds: [1, 2, 3], options: { timeouts: 0 } });
  });
});
