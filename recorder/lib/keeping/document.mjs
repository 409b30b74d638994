// A page of one file: its code, its looks, its data, and the simulator if it has one. A policy allows the browser only
// these, by their digests.

import { createHash } from "node:crypto";
import { existsSync, readFileSync } from "node:fs";
import { gzipSync } from "node:zlib";
import { bundleOf } from "./bundle.mjs";

const PAGES = new URL("../../page/", import.meta.url);
const SIMULATOR = new URL("../../wasm/", import.meta.url);

/**
 * @typedef {object} SimulatorParts
 * @property {URL} loader the module whose class `Simulator` runs it
 * @property {string} module of WebAssembly, packed by gzip, in base64: it is most of a page
 */

/**
 * The simulator that is built here.
 * @returns {SimulatorParts | undefined} undefined: none is
 */
export function builtSimulator() {
  const [loader, module] = ["simulator.mjs", "sabsim.wasm"].map((name) => new URL(name, SIMULATOR));
  if (!existsSync(loader) || !existsSync(module)) return undefined;
  return { loader, module: gzipSync(readFileSync(module)).toString("base64") };
}

/**
 * Parsers of HTML make one line feed of a carriage return and a line feed before a browser makes its digests.
 * @param {string} text
 */
const withLineFeeds = (text) => text.replaceAll("\r\n", "\n");

/** @param {string} name @returns {string} */
const partOf = (name) => withLineFeeds(readFileSync(new URL(name, PAGES), "utf8"));

/** @param {string} text */
const escaped = (text) => text.replace(/[&<>"']/g, (sign) => `&#${sign.charCodeAt(0)};`);

/**
 * The digest by which a browser knows which code and which looks are the page's own.
 * @param {string} text
 */
const digestOf = (text) => `'sha256-${createHash("sha256").update(text).digest("base64")}'`;

/**
 * The code of a page.
 * @param {string} name of its module, whose function `openPage` opens it
 * @param {URL | undefined} loader
 */
function codeOf(name, loader) {
  const modules = [new URL(`${name}.mjs`, PAGES), ...(loader === undefined ? [] : [loader])];
  const { code, names: [page, simulator] } = bundleOf(modules);
  return withLineFeeds(`${code}\n${page}.openPage(${simulator === undefined ? "" : `${simulator}.Simulator`});\n`);
}

/**
 * A page.
 * @param {string} name of its files in the folder of pages
 * @param {string} title
 * @param {object} data
 * @param {SimulatorParts} [simulator]
 * @returns {string}
 */
export function documentOf(name, title, data, simulator) {
  const [style, code] = [partOf("page.css"), codeOf(name, simulator?.loader)];
  const compiles = simulator === undefined ? "" : " 'wasm-unsafe-eval'";
  /** @type {Record<string, string>} */
  const parts = {
    policy: `default-src 'none'; base-uri 'none'; form-action 'none'; script-src ${digestOf(code)}${compiles}; ` +
      `style-src ${digestOf(style)}; img-src data:`,
    title: escaped(title),
    style,
    // So no text of the data ends the element that it is in.
    data: JSON.stringify(data).replaceAll("<", "\\u003c"),
    simulator: simulator === undefined ? "" : `<script type="text/plain" id="simulator">${simulator.module}</script>\n`,
    code,
  };
  return partOf(`${name}.html`).replace(/\{\{(\w+)\}\}/g, (_, part) => parts[part]);
}
