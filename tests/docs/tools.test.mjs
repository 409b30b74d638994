// tools/fetch and tools/with (CONTRIBUTING.md). No network is used: commands of our own are in the place of apt-get and
// dpkg-deb, and write down each call.

import assert from "node:assert/strict";
import { spawnSync } from "node:child_process";
import {
  chmodSync, existsSync, mkdirSync, mkdtempSync, readFileSync, readdirSync, rmSync, symlinkSync, writeFileSync,
} from "node:fs";
import { tmpdir } from "node:os";
import { delimiter, join } from "node:path";
import { test } from "node:test";
import { fileURLToPath } from "node:url";
import { needing } from "../../recorder/tests/helpers/needs.mjs";

const pathOf = (name) => fileURLToPath(new URL(`../../tools/${name}`, import.meta.url));
const PYTHON = spawnSync("python3", ["-c", "import sys; print(sys.executable)"], { encoding: "utf8" }).stdout.trim();

/** What apt-get does: VERSION is that of the package, and CALLS the file of its calls. */
const APT_GET = `#!/bin/sh
echo "$*" >> "$CALLS"
case "$*" in
*indextargets*--no-release-info*)
    echo 'http://mirror/debian/ bookworm main'; echo 'http://elsewhere/other nodistro main' ;;
*--print-uris*) echo "'http://mirror/a.deb' node-typescript_1%3a\${VERSION}_all.deb 100 SHA256:00"
    echo "'http://mirror/b.deb' libc6_2.0_amd64.deb 100 SHA256:00" ;;
*download*) touch "node-typescript_1%3a\${VERSION}_all.deb" ;;
esac
`;
const DPKG_DEB = `#!/bin/sh
echo "dpkg-deb $*" >> "$CALLS"
mkdir -p "$3/usr/bin" && echo "$2" > "$3/usr/bin/tsc"
`;

/**
 * A machine on which tools/fetch is tried.
 * @param {import("node:test").TestContext} context
 * @param {{ aptGet?: string, dpkgDeb?: string }} [commands]
 */
function machineOf(context, { aptGet = APT_GET, dpkgDeb = DPKG_DEB } = {}) {
  const folder = mkdtempSync(join(tmpdir(), "tools-"));
  context.after(() => rmSync(folder, { recursive: true }));
  const tools = join(folder, "tools");
  const calls = join(folder, "calls");
  const write = (name, text) => writeFileSync(join(folder, name), text, { mode: 0o755 });
  write("apt-get", aptGet);
  write("dpkg-deb", dpkgDeb);
  writeFileSync(calls, "");
  const fetch = (words, env = {}) => {
    const PATH = `${folder}${delimiter}${process.env.PATH}`;
    const all = { ...process.env, SABSIM_TOOLS: tools, CALLS: calls, VERSION: "1.0-1", PATH, ...env };
    return spawnSync(PYTHON, [pathOf("fetch"), ...words], { encoding: "utf8", env: all });
  };
  const there = () => readdirSync(tools).filter((name) => name !== ".lock").sort();
  return { folder, tools, fetch, write, there, calls: () => readFileSync(calls, "utf8") };
}

test("a part is fetched once, by its version, and only what is for every processor", (context) => {
  const { tools, fetch, there, calls } = machineOf(context);
  const { status, stdout, stderr } = fetch(["types"]);
  assert.deepEqual([status, stdout, stderr], [0, "fetched: types 1-1.0-1\n", ""]);
  assert.deepEqual(there(), ["types", "types-1-1.0-1"]);
  assert.match(readFileSync(join(tools, "types/usr/bin/tsc"), "utf8"), /node-typescript_1%3a1\.0-1_all\.deb\n$/);
  assert.equal(readFileSync(join(tools, "types/versions"), "utf8"), "node-typescript 1:1.0-1\n");
  assert.match(calls(), / download node-typescript=1:1\.0-1$/m);
  assert.equal(calls().match(/^dpkg-deb /gm)?.length, 1);
  const before = calls();
  assert.equal(fetch(["types"]).stdout, "there: types 1-1.0-1\n");
  assert.equal(calls(), before);
});

test("--newest fetches a newer version, which replaces the older one", (context) => {
  const { fetch, there, calls } = machineOf(context);
  fetch(["types"]);
  assert.equal(fetch(["--newest", "types"]).stdout, "newest, was there: types 1-1.0-1\n");
  assert.equal(calls().match(/ download /g)?.length, 1);
  assert.equal(fetch(["--newest", "types"], { VERSION: "1.1-1" }).stdout, "fetched: types 1-1.1-1\n");
  assert.deepEqual(there(), ["types", "types-1-1.1-1"]);
});

test("only Debian's sources are asked, and what is this machine's isn't changed", (context) => {
  const show = 'cat "$(dirname "$0")"/tools/.new-*/apt-0/sources.list >> "$CALLS" 2> /dev/null';
  const aptGet = APT_GET.replace("case", `${show}\ncase`);
  const { fetch, calls } = machineOf(context, { aptGet });
  fetch(["types"]);
  assert.match(calls(), /^deb .*http:\/\/mirror\/debian\/ bookworm main$/m);
  assert.doesNotMatch(calls(), /elsewhere/);
  const asked = calls().split("\n").filter((line) => / (?:update|install|download) ?/.test(line));
  assert.equal(asked.length, 3);
  for (const name of ["Etc::SourceList", "State", "State::Lists", "State::status", "Cache"]) {
    for (const line of asked) assert.match(line, new RegExp(`-o Dir::${name}=\\S*/tools/\\.new-`));
  }
});

test("sid's packages come from Debian's archive, and not from the address of its security updates", (context) => {
  const show = 'cat "$(dirname "$0")"/tools/.new-*/apt-0/sources.list >> "$CALLS" 2> /dev/null';
  const security = "echo 'http://mirror/debian-security/ bookworm-security main'; echo 'http://mirror/debian/";
  const aptGet = APT_GET.replace("case", `${show}\ncase`).replace("echo 'http://mirror/debian/", security);
  const { fetch, calls } = machineOf(context, { aptGet });
  fetch(["node"]);
  assert.match(calls(), /^deb .*http:\/\/mirror\/debian\/ sid main$/m);
  assert.doesNotMatch(calls(), /debian-security\/ sid/);
});

test("of a part that is installed nothing is fetched", (context) => {
  const aptGet = APT_GET.replace("*--print-uris*)", "*--print-uris*) exit 0");
  const { fetch, there } = machineOf(context, { aptGet });
  const { status, stdout } = fetch(["pictures"]);
  assert.deepEqual([status, stdout], [0, "installed on this machine: pictures\n"]);
  assert.deepEqual(there(), []);
});

test("what can't be unpacked leaves nothing", (context) => {
  const { fetch, there } = machineOf(context, { dpkgDeb: "#!/bin/sh\necho 'no space' >&2\nexit 2\n" });
  const { status, stdout, stderr } = fetch(["types"]);
  assert.deepEqual([status, stdout], [1, ""]);
  assert.match(stderr, /^not fetched: types \(tsc\): dpkg-deb --extract .*: no space\n$/);
  assert.deepEqual(there(), []);
});

test("a fetch that was killed leaves no part, and the next one removes its rest", (context) => {
  const { fetch, there, tools, write } = machineOf(context, { dpkgDeb: "#!/bin/sh\nkill -9 $PPID\n" });
  assert.equal(fetch(["types"]).signal, "SIGKILL");
  assert.match(there().join(), /^\.new-\w+$/);
  // As one leaves it that was killed while it put the part in its place.
  symlinkSync("types-1-0.9-1", join(tools, ".new-types"));
  write("dpkg-deb", DPKG_DEB);
  assert.equal(fetch(["types"]).stdout, "fetched: types 1-1.0-1\n");
  assert.deepEqual(there(), ["types", "types-1-1.0-1"]);
});

test("without a network it prints what apt-get says", (context) => {
  const says = `*update*) echo "W: Could not resolve mirror" >&2 ;;
*--print-uris*) echo "E: Unable to locate package node-typescript" >&2; exit 100; `;
  const aptGet = APT_GET.replace("*--print-uris*)", says);
  const { fetch, there } = machineOf(context, { aptGet });
  const { status, stderr } = fetch(["types"]);
  assert.equal(status, 1);
  assert.match(stderr, /^not fetched: types \(tsc\): W: Could not resolve mirror\n.*E: Unable to locate package/);
  assert.doesNotMatch(stderr, /Traceback/);
  assert.deepEqual(there(), []);
});

test("without apt-get it says that the tools come from Debian; an unknown part is named", (context) => {
  const { fetch } = machineOf(context);
  const { status, stderr } = fetch(["types"], { PATH: "/nowhere" });
  assert.equal(status, 1);
  const why = "there is no apt-get on this machine, and the tools come from Debian";
  assert.equal(stderr, `not fetched: types (tsc): ${why}\n`);
  const unknown = fetch(["type"]);
  assert.equal(unknown.status, 2);
  assert.match(unknown.stderr,
    /there is no part type: it is one of types, runners, pictures, browsers, slurm, parallel, binaryen, node/);
});

/** A folder of tools with a part of one program. @param {import("node:test").TestContext} context */
function toolsOf(context) {
  const tools = mkdtempSync(join(tmpdir(), "tools-"));
  context.after(() => rmSync(tools, { recursive: true }));
  mkdirSync(join(tools, "slurm/usr/bin"), { recursive: true });
  writeFileSync(join(tools, "slurm/usr/bin/sabsim-only-here"), "#!/bin/sh\necho here\n", { mode: 0o755 });
  chmodSync(tools, 0o755);
  return tools;
}

/**
 * What tools/with prints.
 * @param {string[]} words
 * @param {object} how
 */
const withTools = (words, { tools, ...how }) =>
  spawnSync(pathOf("with"), words, { encoding: "utf8", env: { ...process.env, SABSIM_TOOLS: tools }, ...how });

const OVER = ["--mount", "sh", "-c", 'mount -t overlay none -o "lowerdir=$0:/usr" /usr', tmpdir()];
const withOverlays = needing("root or no overlays", spawnSync("unshare", OVER).status === 0);

test("a part lies over /usr for the command alone", withOverlays, (context) => {
  const tools = toolsOf(context);
  const { status, stdout, stderr } = withTools(["slurm", "node", "--", "sabsim-only-here"], { tools });
  assert.deepEqual([status, stdout, stderr], [0, "here\n", ""]);
  assert.equal(existsSync("/usr/bin/sabsim-only-here"), false);
  assert.doesNotMatch(readFileSync("/proc/self/mounts", "utf8"), /sabsim-tools/);
});

test("who isn't root gets the command without the part, and a line that says so", withOverlays, (context) => {
  const tools = toolsOf(context);
  const { status, stdout, stderr } = withTools(["slurm", "--", "echo", "run"], { tools, uid: 65_534, gid: 65_534 });
  assert.deepEqual([status, stdout], [0, "run\n"]);
  assert.equal(stderr, "with: nothing can be laid over /usr here, which needs root and a kernel with overlays\n");
});

test("without fetched parts the command is run as it is", (context) => {
  const tools = toolsOf(context);
  const { status, stdout, stderr } = withTools(["node", "--", "sh", "-c", "echo run; exit 3"], { tools });
  assert.deepEqual([status, stdout, stderr], [3, "run\n", ""]);
  assert.equal(withTools(["slurm"], { tools }).status, 2);
});
