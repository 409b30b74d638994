// A real browser, for tests of pages: Chromium without a screen, by its own protocol over two pipes.

import { spawn, spawnSync } from "node:child_process";
import { once } from "node:events";
import { mkdtempSync, rmSync } from "node:fs";
import { tmpdir } from "node:os";
import { join } from "node:path";
import { setTimeout as sleep } from "node:timers/promises";
import { hasSabsim, needing, withSabsim } from "./needs.mjs";

const NAMES = ["chromium", "chromium-browser", "google-chrome", "google-chrome-stable"];
/** What takes longer hangs. */
export const MOST_MILLISECONDS = 300_000;
/** How often the folder of one that has ended is tried again, each tenth of a second, while it can't be removed. */
const MOST_REMOVALS = 100;

/** The browser of this machine, or undefined. */
export const BROWSER = NAMES.find((name) => spawnSync(name, ["--version"]).status === 0);

/** For tests that need a browser, which tests of the recorder alone never start. */
export const withBrowser = hasSabsim ? needing("browser", BROWSER !== undefined) : withSabsim;

const WORDS = [
  "--headless", "--no-sandbox", "--disable-gpu", "--disable-dev-shm-usage", "--force-device-scale-factor=1",
  "--no-first-run", "--remote-debugging-pipe",
];

/**
 * What a key is called by the protocol, besides its name.
 * @type {Record<string, number>}
 */
const KEY_CODES = {
  ArrowUp: 38, ArrowDown: 40, ArrowLeft: 37, ArrowRight: 39, Home: 36, End: 35, PageUp: 33, PageDown: 34, Tab: 9,
  Enter: 13,
};

/** @typedef {import("node:child_process").Stream} Stream */
/** @typedef {{ words: string[], env?: Record<string, string>, stdio?: Stream | Stream[] }} Beginning */
/** @typedef {{ width?: number, height?: number, background?: "dark" | "light" }} Looks of a window, and of its page */

/** A browser that is started here with a folder of its own, and that is asked for things. */
export class StartedBrowser {
  room = mkdtempSync(join(tmpdir(), "recorder-browser-"));
  count = 0;
  /** @type {Map<number, (answer: any) => void>} */
  asked = new Map();

  /**
   * @param {string | undefined} program undefined: this machine has none, and nobody may start it
   * @param {(room: string) => Beginning} beginningIn how it is started with its folder
   */
  constructor(program, beginningIn) {
    if (program === undefined) throw new Error("this machine has no such browser");
    const { words, env = {}, stdio = "ignore" } = beginningIn(this.room);
    this.child = spawn(program, words, { stdio, env: { ...process.env, HOME: this.room, ...env } });
    this.ended = once(this.child, "exit");
  }

  /**
   * The answer to what is asked for.
   * @param {number} id
   * @param {string} what
   * @returns {Promise<any>}
   */
  answerTo(id, what) {
    return new Promise((done, fail) => {
      const timer = setTimeout(() => fail(new Error(`${what} took too long`)), MOST_MILLISECONDS);
      this.asked.set(id, (message) => {
        clearTimeout(timer);
        done(message);
      });
    });
  }

  /**
   * Ends it.
   * @param {number} milliseconds after which it is killed
   */
  async end(milliseconds) {
    const timer = setTimeout(() => this.child.kill("SIGKILL"), milliseconds);
    this.child.kill();
    await this.ended;
    clearTimeout(timer);
    await removeFolder(this.room);
  }
}

/**
 * Removes a browser's folder. Processes that it began may still write there for a moment. What they write after a
 * folder was listed isn't removed with it, however often `rmSync` tries again: so the whole folder is tried again.
 * @param {string} folder
 */
async function removeFolder(folder) {
  for (let left = MOST_REMOVALS; ; left -= 1) {
    try {
      rmSync(folder, { recursive: true, force: true });
      return;
    } catch (error) {
      if (left === 0) throw error;
      await sleep(100);
    }
  }
}

export class Browser extends StartedBrowser {
  /** @type {{ method: string, params: any, sessionId?: string }[]} */
  events = [];

  constructor() {
    super(BROWSER, (room) => ({
      words: [...WORDS, `--user-data-dir=${room}`], stdio: ["ignore", "ignore", "ignore", "pipe", "pipe"],
    }));
    const [, , , to, from] = this.child.stdio;
    this.questions = /** @type {NodeJS.Writable} */ (to);
    const answers = /** @type {NodeJS.Readable} */ (from);
    let text = "";
    answers.setEncoding("utf8").on("data", (part) => {
      const messages = (text + part).split("\0");
      text = messages.pop() ?? "";
      for (const message of messages) this.#take(JSON.parse(message));
    });
  }

  /** @param {any} message */
  #take(message) {
    const answered = this.asked.get(message.id);
    this.asked.delete(message.id);
    if (answered === undefined) this.events.push(message);
    else answered(message);
  }

  /**
   * Asks for something.
   * @param {string} method
   * @param {object} [params]
   * @param {string} [sessionId]
   */
  async send(method, params = {}, sessionId) {
    this.count += 1;
    const id = this.count;
    const answer = this.answerTo(id, method);
    this.questions.write(`${JSON.stringify({ id, method, params, sessionId })}\0`);
    const { result, error } = await answer;
    if (error !== undefined) throw new Error(`${method}: ${error.message}`);
    return result;
  }

  /**
   * Opens a page, in a window of some size, for one who asks for a light or a dark background.
   * @param {string} url
   * @param {Looks} looks
   */
  async open(url, { width = 1280, height = 800, background = "light" } = {}) {
    const { targetId } = await this.send("Target.createTarget", { url: "about:blank" });
    const { sessionId } = await this.send("Target.attachToTarget", { targetId, flatten: true });
    const page = new Tab(this, sessionId);
    for (const part of ["Page", "Runtime", "Log", "Accessibility", "DOM"]) await page.send(`${part}.enable`);
    await page.send("Emulation.setDeviceMetricsOverride", { width, height, deviceScaleFactor: 1, mobile: false });
    await page.send("Emulation.setEmulatedMedia", { features: [{ name: "prefers-color-scheme", value: background }] });
    await page.go(url);
    return page;
  }

  close() {
    this.questions.end();
    return this.end(5_000);
  }
}

/** @typedef {{ value: unknown }} AccessibleValue */
/**
 * @typedef {object} AccessibleNode
 * @property {boolean} ignored
 * @property {AccessibleValue} [role]
 * @property {AccessibleValue} [name]
 * @property {{ name: string, value: AccessibleValue }[]} [properties]
 */

class Tab {
  /** @param {Browser} browser @param {string} session */
  constructor(browser, session) {
    this.browser = browser;
    this.session = session;
  }

  /** @param {string} method @param {object} [params] */
  send(method, params) {
    return this.browser.send(method, params, this.session);
  }

  /** @param {string} url */
  async go(url) {
    const before = this.#eventsOf("Page.loadEventFired").length;
    await this.send("Page.navigate", { url });
    for (const end = Date.now() + MOST_MILLISECONDS; this.#eventsOf("Page.loadEventFired").length === before;) {
      if (Date.now() > end) throw new Error(`${url} wasn't loaded`);
      await sleep(10);
    }
  }

  /** @param {string} method */
  #eventsOf(method) {
    return this.browser.events.filter((event) => event.method === method && event.sessionId === this.session);
  }

  /**
   * What went wrong in the page: what its code threw, and what the browser complains of.
   * @returns {string[]}
   */
  complaints() {
    const thrown = this.#eventsOf("Runtime.exceptionThrown").map(({ params }) => params.exceptionDetails.text);
    const logged = this.#eventsOf("Log.entryAdded").map(({ params }) => params.entry.text);
    return [...thrown, ...logged];
  }

  /**
   * What code of JavaScript answers in the page.
   * @param {string} expression
   */
  async value(expression) {
    const { result, exceptionDetails } = await this.send("Runtime.evaluate", { expression, returnByValue: true });
    if (exceptionDetails !== undefined) throw new Error(exceptionDetails.exception?.description ?? expression);
    return result.value;
  }

  /**
   * Presses keys, one after the other.
   * @param {...string} keys
   */
  async press(...keys) {
    for (const key of keys) {
      const windowsVirtualKeyCode = KEY_CODES[key] ?? key.toUpperCase().charCodeAt(0);
      const text = key.length === 1 || key === "Enter" ? { text: key === "Enter" ? "\r" : key } : {};
      await this.send("Input.dispatchKeyEvent", { type: "keyDown", key, windowsVirtualKeyCode, ...text });
      await this.send("Input.dispatchKeyEvent", { type: "keyUp", key, windowsVirtualKeyCode });
    }
  }

  /**
   * Clicks amid an element.
   * @param {string} selector
   */
  async click(selector) {
    const { x, y } = await this.value(`(() => {
      const box = document.querySelector(${JSON.stringify(selector)}).getBoundingClientRect();
      return { x: box.left + Math.min(box.width / 2, 80), y: box.top + box.height / 2 };
    })()`);
    const at = { x, y, button: "left", clickCount: 1 };
    await this.send("Input.dispatchMouseEvent", { type: "mousePressed", ...at });
    await this.send("Input.dispatchMouseEvent", { type: "mouseReleased", ...at });
  }

  /** What a screen reader gets: roles, names and other properties. */
  async accessible() {
    /** @type {{ nodes: AccessibleNode[] }} */
    const { nodes } = await this.send("Accessibility.getFullAXTree");
    return nodes.filter(({ ignored }) => !ignored).map(({ role, name, properties = [] }) => ({
      role: role?.value,
      name: name?.value ?? "",
      ...Object.fromEntries(properties.map((each) => [each.name, each.value.value])),
    }));
  }

  /**
   * For how many seconds the page's thread has had a processor.
   * @returns {Promise<number>}
   */
  async processorSeconds() {
    await this.send("Performance.enable");
    /** @type {{ metrics: { name: string, value: number }[] }} */
    const { metrics } = await this.send("Performance.getMetrics");
    const { ThreadTime: seconds } = Object.fromEntries(metrics.map(({ name, value }) => [name, value]));
    return seconds;
  }

  /** @returns {Promise<Buffer>} a picture of the window, as PNG */
  async picture() {
    const { data } = await this.send("Page.captureScreenshot", { format: "png" });
    return Buffer.from(data, "base64");
  }
}
