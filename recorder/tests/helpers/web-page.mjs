// Runs the programs of `programs/web` in a real browser: a page of a server of this process loads the program, and is
// isolated from others, so that it may share memory.

import { readFile } from "node:fs/promises";
import { createServer } from "node:http";
import { setTimeout } from "node:timers/promises";

const FOLDER = new URL("../programs/web/", import.meta.url);

/** What makes a page isolated. */
const HEADERS = Object.freeze({
  "Cross-Origin-Opener-Policy": "same-origin", "Cross-Origin-Embedder-Policy": "require-corp",
});

const TURNS = 600;

/** @param {import("node:http").IncomingMessage} request @param {import("node:http").ServerResponse} response */
async function serve(request, response) {
  const { pathname, search } = new URL(/** @type {string} */ (request.url), "http://localhost");
  if (pathname === "/page") {
    response.writeHead(200, { ...HEADERS, "Content-Type": "text/html" });
    const script = `<script type="module" src="${search.slice(1)}"></script>`;
    response.end(`<!doctype html><link rel="icon" href="data:,">${script}`);
    return;
  }
  try {
    const text = await readFile(new URL(`.${pathname}`, FOLDER));
    response.writeHead(200, { ...HEADERS, "Content-Type": "text/javascript" });
    response.end(text);
  } catch {
    response.writeHead(404, HEADERS);
    response.end();
  }
}

/**
 * The lines that a program has written when it has ended.
 * @param {import("./browser.mjs").Browser} browser
 * @param {string} path of its main module from the folder `programs/web`
 * @returns {Promise<string[]>}
 */
export async function linesInBrowser(browser, path) {
  const server = createServer((request, response) => void serve(request, response));
  await new Promise((done) => { server.listen(0, "127.0.0.1", () => done(undefined)); });
  try {
    const { port } = /** @type {{ port: number }} */ (server.address());
    const page = await browser.open(`http://127.0.0.1:${port}/page?/${path}`);
    for (let turn = 0; turn < TURNS; turn += 1) {
      const lines = await page.value("globalThis.lines ?? []");
      if (lines.at(-1) === "end") return lines;
      await setTimeout(50);
    }
    throw new Error(`${path} didn't come to its end: ${await page.value("globalThis.lines")}, ${page.complaints()}`);
  } finally {
    server.closeAllConnections();
    server.close();
  }
}
