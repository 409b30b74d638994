// Firefox without a screen, for tests of pages, by its own protocol (Marionette) over a socket. It can do what
// `browser.mjs` can, except for what a screen reader gets.

import { spawnSync } from "node:child_process";
import { existsSync, readFileSync, writeFileSync } from "node:fs";
import { connect } from "node:net";
import { join } from "node:path";
import { setTimeout as sleep } from "node:timers/promises";
import { MOST_MILLISECONDS, StartedBrowser } from "./browser.mjs";

const NAMES = ["firefox-esr", "firefox"];

/** The Firefox of this machine, or undefined. */
export const FIREFOX = NAMES.find((name) => spawnSync(name, ["--version"]).status === 0);

/**
 * What a key is called by the protocol.
 * @type {Record<string, string>}
 */
const KEYS = {
  ArrowUp: "\uE013", ArrowDown: "\uE015", ArrowLeft: "\uE012", ArrowRight: "\uE014", Home: "\uE011", End: "\uE010",
  PageUp: "\uE00E", PageDown: "\uE00F", Tab: "\uE004", Enter: "\uE007",
};

/**
 * Nothing is asked for over a network, and what is downloaded lies in the profile.
 * @param {string} room
 */
const settingsOf = (room) => ({
  "marionette.port": 0, "app.update.auto": false, "browser.shell.checkDefaultBrowser": false,
  "datareporting.policy.dataSubmissionEnabled": false, "toolkit.telemetry.enabled": false,
  "browser.startup.homepage_override.mstone": "ignore", "network.captive-portal-service.enabled": false,
  "network.connectivity-service.enabled": false, "browser.download.folderList": 2, "browser.download.dir": room,
  "browser.safebrowsing.downloads.enabled": false, "app.normandy.enabled": false, "extensions.update.enabled": false,
  "services.settings.server": "data:,", "browser.aboutConfig.showWarning": false,
});

const BACKGROUNDS = { dark: 0, light: 1 };

export class Firefox extends StartedBrowser {
  /** @type {import("node:net").Socket | undefined} */
  #socket;

  /** Starts one. */
  static async begun() {
    const firefox = new Firefox();
    await firefox.#connect();
    return firefox;
  }

  constructor() {
    super(FIREFOX, (room) => {
      const lines = Object.entries(settingsOf(room)).map(([name, value]) => {
        return `user_pref(${JSON.stringify(name)}, ${JSON.stringify(value)});\n`;
      });
      writeFileSync(join(room, "user.js"), lines.join(""));
      const words = ["--headless", "--no-remote", "--marionette", "--remote-allow-system-access", "--profile", room];
      return { words, env: { MOZ_HEADLESS: "1" } };
    });
  }

  async #connect() {
    const file = join(this.room, "MarionetteActivePort");
    const end = Date.now() + MOST_MILLISECONDS;
    while (!existsSync(file) || readFileSync(file, "utf8") === "") {
      if (Date.now() > end) throw new Error("Firefox wasn't ready in time");
      await sleep(50);
    }
    this.#socket = connect(Number(readFileSync(file, "utf8")), "127.0.0.1");
    let bytes = Buffer.alloc(0);
    const greeted = new Promise((done) => {
      this.asked.set(0, done);
    });
    this.#socket.on("data", (part) => {
      bytes = Buffer.concat([bytes, part]);
      for (let colon = bytes.indexOf(":"); colon > 0; colon = bytes.indexOf(":")) {
        const end = colon + 1 + Number(bytes.subarray(0, colon));
        if (bytes.length < end) return;
        this.#take(JSON.parse(`${bytes.subarray(colon + 1, end)}`));
        bytes = bytes.subarray(end);
      }
    });
    await greeted;
    await this.send("WebDriver:NewSession", { capabilities: { alwaysMatch: { acceptInsecureCerts: false } } });
  }

  /** @param {any} message */
  #take(message) {
    const id = Array.isArray(message) ? message[1] : 0;
    this.asked.get(id)?.(message);
    this.asked.delete(id);
  }

  /**
   * Asks for something.
   * @param {string} name
   * @param {object} [params]
   */
  async send(name, params = {}) {
    this.count += 1;
    const text = JSON.stringify([0, this.count, name, params]);
    const answer = this.answerTo(this.count, name);
    this.#socket?.write(`${Buffer.byteLength(text)}:${text}`);
    const [, , error, result] = await answer;
    if (error !== null) throw new Error(`${name}: ${error.message}`);
    return result;
  }

  /**
   * What code returns that runs in the browser's own pages.
   * @param {string} script
   */
  async #ownValue(script) {
    await this.send("Marionette:SetContext", { value: "chrome" });
    const { value } = await this.send("WebDriver:ExecuteScript", { script, args: [], sandbox: "system" });
    await this.send("Marionette:SetContext", { value: "content" });
    return value;
  }

  /**
   * Opens a page, in a window of some size, for one who asks for a light or a dark background.
   * @param {string} url
   * @param {import("./browser.mjs").Looks} looks
   */
  async open(url, { width = 1280, height = 800, background = "light" } = {}) {
    const name = "layout.css.prefers-color-scheme.content-override";
    await this.#ownValue(`Services.prefs.setIntPref("${name}", ${BACKGROUNDS[background]}); Services.console.reset();`);
    await this.send("WebDriver:SetWindowRect", { width, height });
    await this.send("WebDriver:Navigate", { url });
    // The window's own parts take room too.
    const [more, higher] = await this.value(`[${width} - innerWidth, ${height} - innerHeight]`);
    await this.send("WebDriver:SetWindowRect", { width: width + more, height: height + higher });
    return this;
  }

  /**
   * What code of JavaScript returns in the page.
   * @param {string} expression
   */
  async value(expression) {
    return (await this.send("WebDriver:ExecuteScript", { script: `return ${expression};`, args: [] })).value;
  }

  /**
   * Presses keys, one after the other.
   * @param {...string} keys
   */
  async press(...keys) {
    const actions = keys.flatMap((key) => ["keyDown", "keyUp"].map((type) => ({ type, value: KEYS[key] ?? key })));
    await this.send("WebDriver:PerformActions", { actions: [{ type: "key", id: "keys", actions }] });
  }

  /**
   * Clicks amid an element.
   * @param {string} selector
   */
  async click(selector) {
    const element = (await this.send("WebDriver:FindElement", { using: "css selector", value: selector })).value;
    await this.send("WebDriver:ElementClick", { id: Object.values(element)[0] });
  }

  /**
   * What went wrong in the page: what its code threw, and what the browser complains of.
   * @returns {Promise<string[]>}
   */
  complaints() {
    return this.#ownValue(`return Services.console.getMessageArray().flatMap((message) => {
      const isOfPage = message instanceof Ci.nsIScriptError && /^(?:file|data|blob):/.test(message.sourceName);
      return isOfPage && !(message.flags & Ci.nsIScriptError.warningFlag) ? [message.errorMessage] : [];
    });`);
  }

  /** @returns {Promise<Buffer>} a picture of the window, as PNG */
  async picture() {
    return Buffer.from((await this.send("WebDriver:TakeScreenshot", { full: false })).value, "base64");
  }

  close() {
    this.#socket?.destroy();
    return this.end(10_000);
  }
}
