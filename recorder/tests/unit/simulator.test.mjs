// The simulator in this process, sabsim.wasm: what it writes, what it says about bad input, and how its loader meets a
// trap and want of memory.

import assert from "node:assert/strict";
import { readFileSync, readdirSync } from "node:fs";
import { describe, test } from "node:test";
import { Simulator, Trapped } from "../../wasm/simulator.mjs";
import { limited } from "../helpers/limited-module.mjs";
import { moduleOfOne } from "../helpers/wrong-modules.mjs";

const WASM = new URL("../../wasm/", import.meta.url);
const EXAMPLES = new URL("../../../examples/", import.meta.url);
const HELP = new URL("../../../tests/help/", import.meta.url);
const BYTES = readFileSync(new URL("sabsim.wasm", WASM));
const NAMES = readdirSync(EXAMPLES).filter((name) => name.endsWith(".json"));
const OUT_OF_MEMORY = "sabsim: 5 OutOfMemory\n";

const simulator = new Simulator(new WebAssembly.Module(BYTES));
const read = (name) => readFileSync(new URL(name, EXAMPLES));
const bytesOf = (text) => new TextEncoder().encode(text);
const textOf = ({ output }) => Buffer.from(output).toString();
const script = (parts) => bytesOf(JSON.stringify({ blocks: [4], views: [], agents: [], schedule: [], ...parts }));
const noInput = () => assert.fail("nothing is to be read");

/** How a command line ends, with an input or with no file to read. */
const command = (words, input = noInput, isTerminal = false) => {
  const { status, complaint, ...ended } = simulator.command(words, input, isTerminal);
  return { status, output: textOf(ended), complaint };
};

describe("reports", () => {
  const kept = { plain: "report", explained: "explained", json: "jsonl", svg: "svg" };
  for (const [format, ending] of Object.entries(kept)) {
    test(`of the examples as ${format}`, () => {
      for (const name of NAMES) {
        const wanted = { status: 0, output: read(name.replace(/json$/, ending)).toString(), complaint: "" };
        const { status, complaint, ...ended } = simulator.run({ job: "replay", format }, read(name));
        assert.deepEqual({ status, output: textOf(ended), complaint }, wanted);
        assert.deepEqual(command(["replay", "--format", format], () => read(name)), wanted);
      }
    });
  }

  test("a script that keeps a run replays to the same report", () => {
    for (const name of NAMES) {
      const plain = simulator.run({ job: "replay" }, read(name));
      const again = simulator.run({ job: "replay", format: "script" }, read(name));
      assert.deepEqual(simulator.run({ job: "replay" }, again.output), plain);
    }
  });

  test("one that needs a larger room", () => {
    const zeros = "00".repeat(65_536);
    const wanted = [0, 1, 2, 3].map((block) => `block ${block} ${zeros}\n`).join("");
    assert.equal(textOf(simulator.run({ job: "replay" }, script({ blocks: Array(4).fill(65_536) }))), wanted);
  });

  test("without the lines of begin and return", () => {
    const calls = [["store", "a", 0, 5]];
    const views = [{ name: "a", kind: "Int32", block: 0, offset: 0, length: null }];
    const input = script({ views, agents: [{ block: true, calls }], schedule: [0, 0, 0] });
    const wanted = "1 0 0 act 5\nblock 0 05000000\nagent 0 1 of 1\n";
    assert.equal(textOf(simulator.run({ job: "replay", acts: true }, input)), wanted);
  });
});

test("with `--finish` a call that hasn't returned gives status 5", () => {
  const input = script({ agents: [{ block: true, calls: [] }] });
  assert.equal(simulator.run({ job: "replay", finish: true }, input).status, 0);
  assert.equal(simulator.run({ job: "replay", finish: true }, read("lost-wake-up.json")).status, 5);
  assert.equal(simulator.run({ job: "replay" }, read("lost-wake-up.json")).status, 0);
});

for (const [line, file, kind] of [
  ["replay", undefined, "script"],
  ["check a.json", "a.json", "script"],
  ["race --share lock", undefined, "script"],
  ["judge --trace a.jsonl", "a.jsonl", "trace"],
  ["search --limit 5", undefined, "automata"],
  ["search --states a.json", "a.json", "states"],
  ["search --format script --failure 1", undefined, "automata"],
]) {
  test(`"${line}" asks for ${kind} of ${file ?? "standard input"}`, () => {
    const asked = [];
    command(line.split(" "), (...words) => {
      asked.push(words);
      throw new Error("it can't be read");
    });
    assert.deepEqual(asked, [[file, kind]]);
  });
}

test("a trace is judged", () => {
  const rows = new URL("../judge-rows/", import.meta.url);
  const traces = readdirSync(rows).filter((name) => name.endsWith(".jsonl"));
  const judged = (name) => simulator.run({ job: "judge-trace" }, readFileSync(new URL(name, rows)));
  const statuses = traces.map((name) => judged(name).status);
  assert.deepEqual([...new Set(statuses)].sort(), [0, 5]);
});

describe("refusals", () => {
  test("of a script, with and without their place", () => {
    const { status, output, complaint } = simulator.run({ job: "replay" }, script({ views: 1 }));
    const wanted = { status: 1, size: 0, complaint: "sabsim: 10 BadShape\n" };
    assert.deepEqual({ status, size: output.length, complaint }, wanted);
    const explained = simulator.run({ job: "replay", explain: true }, script({ views: 1 })).complaint;
    assert.match(explained, /^sabsim: 10 BadShape\nviews: .+\n$/);
    assert.equal(command(["replay"], () => script({ views: 1 }), true).complaint, explained);
  });

  test("of a line of a trace", () => {
    const { status, complaint } = simulator.run({ job: "judge-trace" }, bytesOf("nothing\n"));
    assert.deepEqual({ status, complaint }, { status: 1, complaint: "sabsim: 16 NotJson: line 1\n" });
  });

  test("of a job and of a format that aren't there", () => {
    const jobs = [{ job: "nothing" }, { job: "replay", format: "nothing" }, { job: "judge", format: "svg" }];
    for (const job of jobs) assert.equal(simulator.run(job, read(NAMES[0])).status, 2);
  });
});

describe("command lines", () => {
  for (const name of readdirSync(HELP)) {
    test(`the help of ${name}`, () => {
      const words = name === "sabsim" ? ["--help"] : [name, "--help"];
      const output = readFileSync(new URL(name, HELP), "utf8");
      assert.deepEqual(command(words), { status: 0, output, complaint: "" });
    });
  }

  test("words that are refused read nothing", () => {
    const { status, output, complaint } = command(["replay", "--nothing"]);
    assert.deepEqual({ status, output }, { status: 2, output: "" });
    assert.match(complaint, /--nothing/);
  });

  test("the file that they name is read, and else standard input", () => {
    const asked = [];
    const reading = (name) => asked.push(name) && script({});
    const lines = [["check", "a file"], ["check", "\u00e9\u{1f600}"], ["check"], ["check", "-"]];
    for (const words of lines) command(words, reading);
    assert.deepEqual(asked, ["a file", "\u00e9\u{1f600}", undefined, undefined]);
  });

  test("a file that can't be read is named", () => {
    const failing = () => assert.fail("it can't be read");
    const wanted = { status: 3, output: "", complaint: "sabsim: 19 ReadFailed: a file\n" };
    assert.deepEqual(command(["check", "a file"], failing), wanted);
    assert.equal(command(["check"], failing).complaint, "sabsim: 19 ReadFailed\n");
  });

  test("a race needs the program", () => {
    const { status, output, complaint } = command(["race", "--share", "lock"], () => script({}));
    assert.deepEqual({ status, output }, { status: 4, output: "" });
    assert.match(complaint, /^sabsim: 9 NoThread\nraces in threads need the native program/);
  });
});

/** A module whose first call in an instance returns, and whose second one traps. */
const TRAPPING = moduleOfOne(
  // If the byte at 0 is 1 it traps; then that byte becomes 1.
  18, 0, 0x41, 0, 0x2d, 0, 0, 0x04, 0x40, 0, 0x0b, 0x41, 0, 0x41, 1, 0x3a, 0, 0, 0x0b,
);

describe("failures", () => {
  test("a trap is an error, and the next call has another memory", () => {
    const trapping = new Simulator(new WebAssembly.Module(TRAPPING));
    const call = () => trapping.run({ job: "replay" }, new Uint8Array());
    assert.equal(call().status, 0);
    assert.throws(call, { name: "Trapped", message: /^the simulator stopped: unreachable/ });
    assert.equal(call().status, 0);
    assert.throws(call, Trapped);
  });

  test("a memory that can't grow is want of memory, and the next call goes on", () => {
    const replayed = (host) => {
      const { status, complaint, ...ended } = host.run({ job: "replay", format: "json" }, read(NAMES[0]));
      return { status, output: textOf(ended), complaint };
    };
    const [whole, none] = [replayed(simulator), { status: 4, output: "", complaint: OUT_OF_MEMORY }];
    const statuses = new Set();
    for (let pages = 16; pages < 64; pages++) {
      const small = new Simulator(new WebAssembly.Module(limited(BYTES, pages)));
      for (const came of [replayed(small), replayed(small)]) {
        statuses.add(came.status);
        assert.deepEqual(came, came.status === 0 ? whole : none);
      }
    }
    assert.deepEqual([...statuses], [4, 0]);
  });

  test("an engine that has no memory for the module is want of memory", () => {
    const whole = WebAssembly.Instance;
    WebAssembly.Instance = class {
      constructor() {
        throw new RangeError("no memory");
      }
    };
    try {
      const { status, complaint } = new Simulator(new WebAssembly.Module(BYTES)).run({ job: "check" }, script({}));
      assert.deepEqual({ status, complaint }, { status: 4, complaint: OUT_OF_MEMORY });
    } finally {
      WebAssembly.Instance = whole;
    }
  });
});

test("the file beside the module says what it was made of", () => {
  const origin = JSON.parse(readFileSync(new URL("sabsim.json", WASM), "utf8"));
  assert.deepEqual(Object.keys(origin).sort(), ["beforeBinaryen", "binaryen", "kit", "module", "sources"]);
});

test("the module and its loader import nothing, so a page can have them", () => {
  assert.deepEqual(WebAssembly.Module.imports(new WebAssembly.Module(BYTES)), []);
  assert.doesNotMatch(readFileSync(new URL("simulator.mjs", WASM), "utf8"),
    /^import\b|\bimport\(|\bprocess\.|\bBuffer\b/m);
});
