// Makes the package, installs it in a folder of its own, and uses it there as a project does that has it as a
// dependency. If the environment has SABSIM, the built program, the package has that program.

import assert from "node:assert/strict";
import { spawn, spawnSync } from "node:child_process";
import { createHash } from "node:crypto";
import { chmodSync, copyFileSync, existsSync, mkdirSync, readFileSync, readdirSync, writeFileSync } from "node:fs";
import { once } from "node:events";
import { join } from "node:path";
import { test } from "node:test";
import { MACHINE } from "../../recorder/lib/processes/platform.cjs";
import { SABSIM, needing, withSabsim } from "../../recorder/tests/helpers/needs.mjs";
import { NODES, PROJECT, TOP, environment, filesOf, packagedFiles, packed, pathOf, projectWith, room, run, succeeds,
  version } from "./installed.mjs";

const ENGINE = pathOf("../../recorder/tests/engine/main.mjs");
const FILES = packagedFiles();
const EXAMPLES = join(TOP, "examples");
const PROGRAM_FILES = [`program/${MACHINE}/sabsim`, `program/${MACHINE}/sabsim.txt`];

const withCompiler = needing("tsc", spawnSync("tsc", ["--version"]).status === 0);

/** What a summary says about runs that the module has checked. */
const CHECKED =
  new RegExp("^every run was replayed and judged by the simulator \\(WebAssembly module\\), except exact repeats: "
    + "it agrees with the recorder$", "m");

const npx = (folder, words, input) => run(folder, "npx", ["--no-install", ...words], input);

/** What the folder of the repository has, with the folders that packing reads. */
const listing = () => [TOP, join(TOP, "recorder"), join(TOP, "tools")].map((folder) => readdirSync(folder));

const before = listing();
const plain = packed("plain", []);
const project = projectWith("project", plain);

test("packing leaves nothing in the repository", () => assert.deepEqual(listing(), before));

test("the package has the files that package.json names, no program, and no test", () => {
  assert.deepEqual(filesOf(plain), FILES);
  assert.ok(FILES.length > 400, `${FILES.length} files`);
  assert.deepEqual(FILES.filter((name) => /\.test\.|(?:^|\/)(?:tests|bench)\/|\/\./.test(name)), []);
});

test("by `npm pack` alone it is the same package", () => {
  const folder = join(room, "alone");
  mkdirSync(folder);
  succeeds(TOP, "npm", ["pack", "--silent", "--pack-destination", folder]);
  assert.deepEqual(filesOf(join(folder, `sabsim-${version}.tgz`)), FILES);
});

test("each link of its documents leads to a file of it, and so does each picture", () => {
  const LINK = /\]\((?!https?:|#)([^)#\s]+)[^)]*\)|<img src="([^"]+)"/g;
  const documents = FILES.filter((name) => name.endsWith(".md"));
  const broken = documents.flatMap((name) => {
    const links = [...readFileSync(join(TOP, name), "utf8").matchAll(LINK)].map(([, link, picture]) => link ?? picture);
    return links.filter((link) => !FILES.includes(join(name, "..", link))).map((link) => `${name}: ${link}`);
  });
  assert.ok(documents.length >= 4 && documents.includes("README.md"));
  assert.deepEqual(broken, []);
});

test("each module that a command of its documents runs is a file of it", () => {
  const COMMAND = /record\.mjs (recorder\/\S+\.mjs)/g;
  const documents = FILES.filter((name) => name.endsWith(".md"));
  const texts = documents.map((name) => readFileSync(join(TOP, name), "utf8"));
  const modules = texts.flatMap((text) => [...text.matchAll(COMMAND)].map(([, module]) => module));
  assert.ok(modules.length > 5 && modules.includes("recorder/examples/mutex-naive.agents.mjs"));
  assert.deepEqual(modules.filter((module) => !FILES.includes(module)), []);
});

test("its programs say by their usage how they are called", () => {
  for (const name of ["sabsim-record", "sabsim-merge"]) {
    assert.ok(npx(project, [name, "--help"]).output.startsWith(`usage: ${name} `), name);
  }
});

test("nothing else is installed with it", () => {
  const names = readdirSync(join(project, "node_modules")).filter((name) => !name.startsWith("."));
  assert.deepEqual(names, ["sabsim"]);
});

test("a program's version is the package's", () => {
  const words = readFileSync(join(TOP, "crates/sab_cli/src/command/help.rt"), "utf8");
  assert.equal(/^pub\(crate\) const VERSION: &str = "([0-9.]+)[^0-9.]/m.exec(words)?.[1], version);
});

test("a project's own tests import it", () => {
  const output = succeeds(project, "node", ["--test", "--test-reporter=tap"]);
  assert.match(output, /^# pass 4$/m);
  assert.match(output, /^# 10 runs passed, 10 checked by the simulator$/m);
  assert.match(output, /^# fail 0$/m);
});

for (const { name, command: [node, ...before], needs } of NODES) {
  test(`by \`require\` ${name} gets all that \`import\` gets`, needs, () => {
    const output = succeeds(project, node, [...before, "--test", "--test-reporter=tap", "required.cjs"]);
    assert.match(output, /^# pass 5$/m);
    assert.match(output, /^# 10 runs passed, 10 checked by the simulator$/m);
  });

  test(`${name} that can't require ES modules gets a form that runs the recorder in a process`, needs, () => {
    const words = ["--no-experimental-require-module", "--test", "--test-reporter=tap", "apart.cjs"];
    const output = succeeds(project, node, [...before, ...words]);
    assert.match(output, /^# pass 6$/m);
    assert.match(output, /^# 10 runs passed, 10 checked by the simulator$/m);
  });
}

test("the test that the README shows finds the lost wake-up", () => {
  const readme = readFileSync(join(TOP, "README.md"), "utf8").split("\n");
  const from = readme.indexOf('    import { testAgents } from "sabsim/test";');
  const to = readme.findIndex((line) => line.startsWith("    testAgents("));
  const lines = readme.slice(from, to + 1).map((line) => line.slice(4));
  const folder = join(project, "shown");
  mkdirSync(folder);
  for (const name of ["lock.mjs", "mutex.mjs"]) copyFileSync(join(PROJECT, name), join(folder, name));
  writeFileSync(join(folder, "readme.mjs"), lines.join("\n"));
  const { status, output } = run(folder, "node", ["--test", "--test-reporter=tap", "readme.mjs"]);
  assert.equal(status, 1);
  assert.match(output, /seed [0-9]+: deadlock.*\n.*waits at byte 4 of block 0/);
});

test("each exported name has a type, and is used below", async () => {
  for (const [from, file, user] of [["sabsim", "recorder", "uses"], ["sabsim/test", "testing", "uses-test"]]) {
    const typesOf = (name) => readFileSync(join(project, `node_modules/sabsim/recorder/${name}.d.cts`), "utf8");
    const whole = typesOf(file);
    const further = [...whole.matchAll(/^export \* from "\.\/([\w-]+)\.cjs";$/gm)].map(([, name]) => typesOf(name));
    const types = [whole, ...further].join("");
    const found = [...types.matchAll(/^export (function|class|interface|type) (\w+)/gm)];
    const names = (...kinds) => found.filter(([, kind]) => kinds.includes(kind)).map(([, , name]) => name).sort();
    const words = `import("${from}").then((all) => console.log(Object.keys(all).sort().join()))`;
    assert.equal(succeeds(project, "node", ["-e", words]), `${names("function", "class").join()}\n`);
    const imports = new RegExp(`^import .*\\{\\s+(.*?),?\\s\\} from "${from}";$`, "gm");
    const used = [...readFileSync(join(project, `${user}.mts`), "utf8").matchAll(imports)];
    assert.deepEqual(used.flatMap(([, list]) => list.split(", ")).sort(), found.map(([, , name]) => name).sort());
  }
});

for (const words of [
  ["--module", "nodenext", "--moduleResolution", "nodenext"],
  ["--module", "esnext", "--moduleResolution", "node"],
  ["--module", "commonjs", "--moduleResolution", "node"],
  ["--module", "nodenext", "--moduleResolution", "nodenext", "--lib", "es2022"],
]) {
  test(`TypeScript takes its types: ${words.join(" ")}`, withCompiler, () => {
    const strictly = ["--noEmit", "--strict", "--allowJs", "--checkJs", "--target", "es2022"];
    succeeds(project, "tsc", [...strictly, ...words, "uses.mts", "uses-test.mts", "uses-test.cts", "lock.mjs"]);
  });
}

/** Records the lock until a run fails, and keeps that run; returns its seed. */
function recorded(folder, words) {
  const { status, output, errors } = npx(folder, ["sabsim-record", "lock.mjs", "--seeds", "1..50", ...words]);
  assert.equal(status, 1, errors);
  const seed = /^first failing seed: ([0-9]+), deadlock$/m.exec(output)?.[1];
  assert.notEqual(seed, undefined, output);
  return { seed: Number(seed), output };
}

test("sabsim-record finds the failing seed, and its script is what the engine says", () => {
  const { seed, output: summary } = recorded(project, ["--out", "found"]);
  assert.match(summary, CHECKED);
  const kept = (ending) => readFileSync(join(project, `found/seed-${seed}.${ending}`), "utf8");
  if (seed > 1) {
    assert.equal(npx(project, ["sabsim-record", "lock.mjs", "--seeds", `1..${seed - 1}`]).status, 0);
  }
  const { status, output } = run(project, process.execPath, [ENGINE, `found/seed-${seed}.json`]);
  assert.equal(status, 0);
  assert.equal(output, kept("report"));
});

test("sabsim-merge joins the summaries of shards", () => {
  const words = ["sabsim-record", "lock.mjs", "--seeds", "1..20"];
  const shards = ["1/2", "2/2"].map((shard) => npx(project, [...words, "--shard", shard, "--format", "json"]).output);
  const joined = npx(project, ["sabsim-merge", "-"], shards.join(""));
  const one = npx(project, words);
  assert.deepEqual([joined.status, joined.output], [one.status, one.output]);
});

test("the package's own examples are recorded", () => {
  const example = "node_modules/sabsim/recorder/examples/mutex-three-state.agents.mjs";
  const { status, output, errors } = npx(project, ["sabsim-record", example, "--seeds", "1..5"]);
  assert.equal(status, 0, errors);
  assert.match(output, /^5 runs: 5 finished$/m);
});

test("in an empty folder README's first command checks every run, and keeps explanation, picture and page", () => {
  const folder = projectWith("empty", plain, []);
  const example = "node_modules/sabsim/recorder/examples/mutex-naive.agents.mjs";
  const words = ["sabsim-record", example, "--seeds", "1..200", "--out", "found"];
  const { status, output, errors } = npx(folder, words);
  assert.deepEqual([status, errors], [1, ""]);
  assert.match(output, CHECKED);
  const kept = (ending) => readFileSync(join(folder, `found/seed-13.${ending}`), "utf8");
  for (const [ending, format] of [["report", "plain"], ["explained", "explained"], ["svg", "svg"]]) {
    const replay = npx(folder, ["sabsim", "replay", "--format", format, "found/seed-13.json"]);
    assert.deepEqual(replay, { status: 0, signal: null, output: kept(ending), errors: "" });
  }
  assert.match(kept("html"), /^<!doctype html>\n[^]*id="simulator">[A-Za-z0-9+/=]{1000}[^]*<\/html>\n$/);
});

test("without a program `npx sabsim replay` of every example gives its report", () => {
  const names = readdirSync(EXAMPLES).filter((name) => name.endsWith(".json"));
  assert.ok(names.length > 5);
  for (const name of names) {
    const output = readFileSync(join(EXAMPLES, name.replace(/json$/, "report")), "utf8");
    const replay = npx(project, ["sabsim", "replay", join(EXAMPLES, name)]);
    assert.deepEqual(replay, { status: 0, signal: null, output, errors: "" });
  }
});

test("the module's version says what the proof doesn't cover", () => {
  for (const word of ["--version", "-V"]) {
    const [first, ...others] = npx(project, ["sabsim", word]).output.split("\n");
    assert.ok(first.startsWith(`sabsim ${version}, proved with Rattle logic `));
    assert.match(others.join(" "), /^This is the module sabsim\.wasm, of the same proved sources\. .*heap .*binaryen/);
  }
});

test("without a program the module does what sabsim does, except races", () => {
  const script = readFileSync(join(EXAMPLES, "lost-wake-up.json"), "utf8");
  const report = readFileSync(join(EXAMPLES, "lost-wake-up.explained"), "utf8");
  const words = ["sabsim", "replay", "--format", "explained"];
  assert.deepEqual(npx(project, words, script), { status: 0, signal: null, output: report, errors: "" });
  const refused = { status: 1, signal: null, output: "", errors: "sabsim: 10 BadShape\n" };
  assert.deepEqual(npx(project, ["sabsim", "replay"], "{}"), refused);
  const raced = npx(project, ["sabsim", "race", "--share", "lock"], script);
  assert.deepEqual([raced.status, raced.output], [4, ""]);
  assert.match(raced.errors, /^sabsim: 9 NoThread\nraces in threads need the native program/);
  assert.equal(npx(project, ["sabsim", "replay", "nowhere.json"]).status, 3);
});

const launched = projectWith("launched", plain);
const launcher = join(launched, "node_modules/.bin/sabsim");

/** Puts a script of a shell where the package has its program. */
function withStandIn(script, mode = 0o755) {
  const place = join(launched, "node_modules/sabsim/program", MACHINE);
  mkdirSync(place, { recursive: true });
  writeFileSync(join(place, "sabsim"), `#!/bin/sh\n${script}\n`);
  chmodSync(join(place, "sabsim"), mode);
}

test("words, streams and the status are passed on", () => {
  withStandIn('printf "%s|" "$@"; cat; echo wrong >&2; exit 7');
  const result = run(launched, launcher, ["a b", "", "--c=*"], "given");
  assert.deepEqual(result, { status: 7, signal: null, output: "a b||--c=*|given", errors: "wrong\n" });
});

test("it ends by the signal that ended the program", () => {
  withStandIn('kill -"$1" $$');
  for (const signal of ["TERM", "KILL", "HUP"]) assert.equal(run(launched, launcher, [signal]).signal, `SIG${signal}`);
  // Node itself isn't ended by this signal, so the status reports it, as a shell does.
  assert.equal(run(launched, launcher, ["PIPE"]).status, 128 + 13);
});

/** Ends what is left of a group of processes. */
function endGroup(leader) {
  try {
    process.kill(-leader, "SIGKILL");
  } catch {
    // None is left.
  }
}

for (const signal of ["SIGHUP", "SIGINT", "SIGQUIT", "SIGTERM"]) {
  test(`${signal} is passed on to the program`, { timeout: 30_000 }, async (the) => {
    withStandIn(`trap "echo caught; exit 5" ${signal.slice(3)}\necho begun\nwhile :; do sleep 0.05; done`);
    const stdio = ["ignore", "pipe", "ignore"];
    const child = spawn(launcher, { cwd: launched, env: environment, stdio, detached: true });
    the.after(() => endGroup(child.pid));
    let output = "";
    child.stdout.setEncoding("utf8").on("data", (part) => {
      if (output === "") child.kill(signal);
      output += part;
    });
    const [status] = await once(child, "close");
    assert.deepEqual([status, output], [5, "begun\ncaught\n"]);
  });
}

test("a program that can't be run is reported", () => {
  withStandIn("", 0o644);
  const { status, output, errors } = run(launched, launcher, []);
  assert.deepEqual([status, output], [2, ""]);
  assert.match(errors, /^sabsim: .* can't be run: /);
});

test("with a program it replays what was recorded, and checks", withSabsim, async (the) => {
  const path = packed("whole", [SABSIM]);
  const folder = projectWith("own", path);
  const place = join(folder, "node_modules/sabsim/program", MACHINE);

  await the.test("the package has two files more", () => {
    assert.deepEqual(filesOf(path), [...FILES, ...PROGRAM_FILES].sort());
    const digest = createHash("sha256").update(readFileSync(join(place, "sabsim"))).digest("hex");
    const text = readFileSync(join(place, "sabsim.txt"), "utf8");
    assert.ok(text.includes(`sha256: ${digest}\n`), text);
    assert.match(text, /^kit: \S/m);
  });

  await the.test("its version", () => {
    assert.match(npx(folder, ["sabsim", "--version"]).output, new RegExp(`^sabsim ${version},[^\\n]*\\n$`));
  });

  await the.test("runs are checked by it if it is chosen, and else by the module", () => {
    const chosen = recorded(folder, ["--sabsim", join(place, "sabsim")]);
    assert.match(chosen.output, /^every run .* by the simulator \(native program\): it agrees with the recorder$/m);
    const { seed, output } = recorded(folder, ["--out", "found"]);
    assert.match(output, CHECKED);
    const kept = (ending) => join(folder, `found/seed-${seed}.${ending}`);
    const { status, output: report } = npx(folder, ["sabsim", "replay", kept("json")]);
    assert.equal(status, 0);
    assert.equal(report, readFileSync(kept("report"), "utf8"));
    const explained = npx(folder, ["sabsim", "replay", "--format", "explained", kept("json")]).output;
    assert.equal(explained, readFileSync(kept("explained"), "utf8"));
    assert.ok(existsSync(kept("svg")));
    assert.match(readFileSync(kept("html"), "utf8"), /^<!doctype html>\n[^]*<\/html>\n$/);
  });

  await the.test("what it refuses is refused", () => {
    assert.equal(npx(folder, ["sabsim", "replay"], "{}").status, 1);
    assert.equal(npx(folder, ["sabsim", "--wrong"]).status, 2);
  });
});
