// Fetches published code, and from each archive keeps only the files that are used.

import { spawnSync } from "node:child_process";
import { existsSync, mkdirSync, mkdtempSync, readFileSync, readdirSync, rmSync, writeFileSync } from "node:fs";
import { basename, dirname, join } from "node:path";
import { fileURLToPath } from "node:url";
import { FETCHED } from "./folder.mjs";
import { make, mended } from "./making/making.mjs";

/** @typedef {import("./table.mjs").Source} Source */

/** The code can't be fetched on this machine as it is. The message says why, for people. */
export class NotFetched extends Error {}

/** What apt-get says if it knows no sources, or none of a package. */
const NO_SOURCES = /'deb-src' URIs|Unable to find a source package/;

/** What it says if it knows no package of a name: so it is where it has no lists yet. */
const NO_PACKAGE = /Unable to locate package|Can't find a source to download/;

/** @param {Source} source @returns {string} the folder of its files */
const folderOf = ({ folder }) => fileURLToPath(new URL(`${folder}/`, FETCHED));

/** @param {string} command @param {string[]} words @param {string} cwd */
function run(command, words, cwd) {
  const { status, stderr, error } = spawnSync(command, words, { cwd, encoding: "utf8" });
  if (status !== 0) throw new NotFetched(`${command} ${words.join(" ")}: ${error?.message ?? stderr.trim()}`);
}

/**
 * Downloads the archive of a package's source.
 * @param {string} name of the package and of its suite: sqlite3/bookworm
 * @param {string} room the folder for it
 */
function download(name, room) {
  try {
    run("apt-get", ["source", "--download-only", "--tar-only", name], room);
  } catch (problem) {
    if (!(problem instanceof NotFetched) || !NO_SOURCES.test(problem.message)) throw problem;
    const [, suite] = name.split("/");
    throw new NotFetched(`apt-get has no sources of ${name}. Put this line into a file such as \
/etc/apt/sources.list.d/sabsim.list, and run \`apt-get update\` as root:
    deb-src http://deb.debian.org/debian ${suite} main`);
  }
}

/**
 * Downloads the archives of packages.
 * @param {string[]} names of the packages, and perhaps of their suites: zlib1g/sid
 * @param {string} room the folder for them
 */
function downloadPackages(names, room) {
  try {
    run("apt-get", ["download", ...names], room);
  } catch (problem) {
    if (!(problem instanceof NotFetched) || !NO_PACKAGE.test(problem.message)) throw problem;
    throw new NotFetched(`apt-get has no package ${names.join(" ")} in its lists. Run \`apt-get update\` as root`);
  }
}

/** @param {string} folder @param {RegExp} name @returns {string} the path of the one file with such a name */
function onlyOne(folder, name) {
  const found = readdirSync(folder).filter((each) => name.test(each));
  if (found.length !== 1) throw new Error(`one file ${name} was expected, and there are ${found.length}`);
  return join(folder, found[0]);
}

/**
 * Writes a file, unless it is there and has this text: a run may read it.
 * @param {string} path
 * @param {string} text
 */
function writeAnew(path, text) {
  if (existsSync(path) && readFileSync(path, "utf8") === text) return;
  mkdirSync(dirname(path), { recursive: true });
  writeFileSync(path, text);
}

/**
 * Writes those of node's files that aren't there yet, or that are another node's.
 * @param {Source} source
 * @param {string} into
 */
function fetchNode({ files, mends = [] }, into) {
  const natives = /** @type {any} */ (process).binding("natives");
  for (const name of files) {
    writeAnew(join(into, `${name}.js`), mended(name, natives[name], mends));
  }
}

/** How TypeScript is turned into JavaScript: the types of what isn't there are left out. */
const TSC = ["--target", "es2022", "--module", "es2022", "--isolatedModules", "--noResolve", "--inlineSourceMap"];

/**
 * Turns the files in TypeScript into modules, in the folder `made`, and puts others beside them.
 * @param {Source} source
 * @param {string} into
 */
function compile({ files, made = {} }, into) {
  const out = join(into, "made");
  const typed = files.filter((file) => file.endsWith(".ts"));
  const { error } = spawnSync("tsc", [...TSC, "--outDir", out, ...typed], { cwd: into });
  if (error !== undefined) throw new NotFetched(`tsc is needed for ${into}: ${error.message}`);
  for (const [name, text] of Object.entries(made)) writeFileSync(join(out, name), text);
}

/**
 * Mends, makes and builds the files in a folder as a source says.
 * @param {Source} source
 * @param {string} into
 */
function finish(source, into) {
  const { mends = [], makings = [] } = source;
  for (const file of new Set(mends.map((mend) => mend.file))) {
    writeFileSync(join(into, file), mended(file, readFileSync(join(into, file), "utf8"), mends));
  }
  make(into, makings);
  if (source.made !== undefined) compile(source, into);
  try {
    source.build?.(into);
  } catch (problem) {
    // What isn't built isn't there.
    rmSync(into, { recursive: true });
    throw problem;
  }
}

/** @type {Record<Source["kind"], (source: Source, into: string, room: string) => void>} */
const FETCH = {
  node: fetchNode,
  deb: (source, into, room) => {
    const { name, files, strip = 0 } = source;
    downloadPackages((name ?? "").split(" "), room);
    const words = ["-C", into, `--strip-components=${strip}`, ...files];
    run("sh", ["-c", `for deb in *.deb; do dpkg-deb --fsys-tarfile "$deb" | tar x "$@" || exit; done`, "sh", ...words],
      room);
    finish(source, into);
  },
  source: (source, into, room) => {
    const { name, files } = source;
    download(name ?? "", room);
    const archive = onlyOne(room, /\.orig\.tar\.\w+$/);
    const wanted = files.map((file) => `*/${file}`);
    run("tar", ["xf", archive, "-C", into, "--strip-components=1", "--wildcards", ...wanted], room);
    finish(source, into);
  },
};

/** @param {Source} source @returns {boolean} whether its files are there */
export function isFetched(source) {
  const folder = folderOf(source);
  return existsSync(folder) && readdirSync(folder).length > 0;
}

/** @param {Source} source whose files are fetched anew, except node's own, if they are there */
export function fetchSource(source) {
  const into = folderOf(source);
  if (source.kind !== "node") rmSync(into, { recursive: true, force: true });
  mkdirSync(into, { recursive: true });
  const room = mkdtempSync(fileURLToPath(new URL("archive-", FETCHED)));
  try {
    FETCH[source.kind](source, into, room);
  } finally {
    rmSync(room, { recursive: true, force: true });
  }
}

/**
 * The program with which a product is tried. A page is put beside the code, as on a site, and so is a project.
 * @param {import("./table.mjs").Product} product
 * @returns {string} its path
 */
export function programOf({ main, site, project = site }) {
  const own = new URL(main, import.meta.url);
  if (project === undefined) return fileURLToPath(own);
  const into = fileURLToPath(new URL(`${project}/`, FETCHED));
  const from = dirname(fileURLToPath(own));
  for (const name of readdirSync(from)) writeAnew(join(into, name), readFileSync(join(from, name), "utf8"));
  return join(into, basename(main));
}
