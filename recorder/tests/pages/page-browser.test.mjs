// The page of a run in a real browser: keys, pointer, what is highlighted, what screen readers get, colours.
// Without sabsim or a Chromium on the machine the tests are skipped.

import assert from "node:assert/strict";
import { writeFileSync } from "node:fs";
import { join } from "node:path";
import { pathToFileURL } from "node:url";
import { after, before, describe, it } from "node:test";
import { setTimeout } from "node:timers/promises";
import { pageOfData, pageOfRun, runDataOf } from "../../lib/keeping/kept-page.mjs";
import { Browser, withBrowser } from "../helpers/browser.mjs";
import { fileIn, temporaryFolder } from "../helpers/common.mjs";
import { EVENTS, FACTS, FILE, OUTCOME, lines, view } from "../helpers/page-run.mjs";
import { PALE_TEXTS } from "../helpers/pale-texts.mjs";

/** What is chosen, and what is highlighted of it. */
const SHOWN = `(() => {
  const text = (selector) => [...document.querySelectorAll(selector)].map((each) => each.textContent);
  return {
    step: text("#timeline [aria-selected=true]").length === 1 &&
      document.getElementById("timeline").getAttribute("aria-activedescendant"),
    line: text("#code [aria-current] .number").join(),
    word: text("#code mark").join(),
    file: document.getElementById("code").getAttribute("aria-label"),
    here: text("#code .here .who .badge").join(),
    agents: text("#agents .does").join(", "),
    now: text("#memory .now .value").join(),
    waiters: text("#memory .line-of-waiters .badge").join(),
    sentence: text("#sentence .fact").join(),
  };
})()`;

/** What the data of the run by hand has in place of its own, so that its words and values are long. */
function longValues() {
  const name = "s".repeat(23);
  const views = [view(name, "Float64", 0, 2), view(`ordinary_${name}`, "BigUint64", 0, 2)];
  const bits = new BigUint64Array(Float64Array.of(-Number.MAX_VALUE, Number.MAX_VALUE).buffer);
  const place = { block: 0, byte: 8 };
  const does = (value) => ["store", `ordinary_${name}`, 1, `${value}`];
  const entries = [["0", bits[0]], [bits[0], bits[1]]].map(([before, after], at) => ({
    agent: at, entry: 3 * at + 1, call: 0, what: "act", does: does(after), place, answer: `${after}`, since: 3 * at,
    found: { before: `${before}`, after: `${after}` },
  }));
  return { views, blocks: [16], entries, standings: [], events: [], races: [], ending: "check" };
}

describe("the page of a run, in a browser", { timeout: 600_000 }, () => {
  /** @type {Browser} */
  let browser;
  before(() => {
    browser = withBrowser.skip === false ? new Browser() : undefined;
  });
  after(() => browser?.close());

  /** Writes the page of the run by hand, and opens it. */
  async function opened(context, { parts = {}, data = {}, ...window } = {}) {
    const path = join(temporaryFolder(context), "seed-5.html");
    writeFileSync(path, pageOfData({ ...runDataOf({ ...OUTCOME, ...parts }, lines(FACTS), FILE), ...data }));
    return browser.open(pathToFileURL(path).href, window);
  }

  it("opens at what fails, with the line of code, and the browser has no complaints", withBrowser, async (context) => {
    const page = await opened(context);
    assert.deepEqual(await page.value(SHOWN), {
      step: "step-8", line: "7", word: "Atomics", file: "Code of a.mjs", here: "0,1",
      agents: "does no more, waits at FLAG[0] since 14", now: "", waiters: "1",
      sentence: "wait(FLAG, 0, -1) waits at FLAG[0], first in line",
    });
    assert.equal(await page.value("document.activeElement.id"), "timeline");
    assert.deepEqual(page.complaints(), []);
  });

  it("shows the chosen step and its line when it has opened, in a low window too", withBrowser, async (context) => {
    const path = fileIn(temporaryFolder(context), "seed-5.html", pageOfRun(OUTCOME, lines(FACTS), FILE, {}));
    const page = await browser.open(pathToFileURL(path).href, { height: 640 });
    // The pane of the schedule takes room from the others when the simulator is there.
    const isHidden = "document.getElementById('schedule').hidden";
    for (let time = 0; time < 400 && await page.value(isHidden); time += 1) await setTimeout(50);
    assert.equal(await page.value(isHidden), false);
    const seen = await page.value(`["timeline", "code"].map((id) => {
      const pane = document.getElementById(id);
      const part = pane.querySelector("[aria-selected=true], [aria-current]").getBoundingClientRect();
      const { top, bottom } = pane.getBoundingClientRect();
      return [part.top >= top, part.bottom <= bottom];
    })`);
    assert.deepEqual(seen, [[true, true], [true, true]]);
  });

  it("marks both accesses of a race, whatever the run ends with", withBrowser, async (context) => {
    const side = (at, access) => ({ ...EVENTS[at], access });
    const races = [{ sides: [side(2, "write"), side(6, "read")] }];
    const tagged = `[...document.querySelectorAll("#timeline .tag")].map((tag) => {
      return [tag.closest("[role=option]").querySelector(".text").textContent, tag.textContent].join(": ");
    })`;
    const both = ["writes slots[1]: races", "reads slots[1]: races"];
    const raced = await opened(context, { parts: { ending: "race", races } });
    assert.deepEqual(await raced.value(tagged), both);
    const waits = await opened(context, { parts: { races } });
    assert.deepEqual(await waits.value(tagged), [...both, "wait(FLAG, 0, -1): waits for ever"]);
    const none = await opened(context);
    assert.deepEqual(await none.value(tagged), ["wait(FLAG, 0, -1): waits for ever"]);
  });

  it("goes by keys, and the highlighted line with it", withBrowser, async (context) => {
    const page = await opened(context);
    const at = async (...keys) => {
      await page.press(...keys);
      const { step, line, file } = await page.value(SHOWN);
      return [step, line, file];
    };
    assert.deepEqual(await at("ArrowUp"), ["step-7", "6", "Code of a.mjs"]);
    assert.deepEqual(await at("ArrowLeft"), ["step-6", "1", "Code of a.mjs"]);
    assert.deepEqual(await at("p"), ["step-2", "2", "Code of a.mjs"]);
    assert.deepEqual(await at("ArrowDown"), ["step-3", "", "Code of b.mjs"]);
    const code = await page.value("document.getElementById('code').textContent");
    assert.equal(code, "The code of b.mjs couldn't be read when this run was kept.");
    assert.deepEqual(await at("ArrowRight"), ["step-4", "4", "Code of a.mjs"]);
    assert.equal((await page.value(SHOWN)).now, "-1");
    assert.deepEqual(await at("n"), ["step-6", "1", "Code of a.mjs"]);
    assert.deepEqual(await at("f"), ["step-8", "7", "Code of a.mjs"]);
    assert.equal((await at("Home"))[0], "step-0");
    assert.equal((await at("ArrowUp"))[0], "step-0");
    assert.equal((await at("End"))[0], "step-9");
    assert.equal((await at("PageUp"))[0], "step-0");
    assert.deepEqual(page.complaints(), []);
  });

  it("follows the pointer: rows, buttons, and the place where an agent is", withBrowser, async (context) => {
    const page = await opened(context);
    await page.click("#step-3 .does");
    assert.equal((await page.value(SHOWN)).step, "step-3");
    for (const [button, step] of [
      ["forward", "step-4"], ["back", "step-3"], ["switch-forward", "step-6"], ["switch-back", "step-2"],
      ["last", "step-9"], ["first", "step-0"], ["failing", "step-8"],
    ]) {
      await page.click(`#${button}`);
      assert.equal((await page.value(SHOWN)).step, step, button);
    }
    await page.click("#agents li:first-child button");
    const { step, line, here } = await page.value(SHOWN);
    assert.deepEqual([step, line, here], ["step-8", "5", "0,1"]);
  });

  it("can be used by keys alone: nothing holds the focus, and it is seen", withBrowser, async (context) => {
    const page = await opened(context);
    const focused = [];
    const where = `(() => {
      const { id, className, tagName } = document.activeElement;
      return tagName === "BODY" ? "" : id || className.split(" ")[0];
    })()`;
    for (let time = 0; time < 40 && focused.at(-1) !== ""; time += 1) {
      await page.press("Tab");
      focused.push(await page.value(where));
      const outline = await page.value("getComputedStyle(document.activeElement).outlineStyle");
      if (focused.at(-1) !== "") assert.notEqual(outline, "none", focused.at(-1));
    }
    assert.deepEqual(focused, ["agent", "agent", "file", "file", "code", "memory-pane", ""]);
    await page.press("Tab", "Tab");
    assert.equal(await page.value(where), "back");
    await page.press("Enter");
    assert.equal((await page.value(SHOWN)).step, "step-7");
    await page.press("p");
    assert.equal((await page.value(SHOWN)).step, "step-6");
  });

  it("gives screen readers its parts, the chosen entry and its sentence", withBrowser, async (context) => {
    const page = await opened(context);
    await page.press("ArrowUp", "ArrowUp");
    const nodes = await page.accessible();
    const named = (role) => nodes.filter((node) => node.role === role).map(({ name }) => name);
    for (const role of ["banner", "main", "contentinfo"]) assert.equal(named(role).length, 1, role);
    assert.deepEqual(named("toolbar"), ["Go to a step"]);
    assert.deepEqual(named("region").sort(), [
      "Agents and their code", "Code of a.mjs", "Memory, and who waits", "Memory, and who waits", "Timeline",
    ]);
    assert.deepEqual(named("listbox"), ["Timeline"]);
    const options = nodes.filter(({ role }) => role === "option");
    assert.equal(options.length, 10);
    assert.deepEqual(options.filter(({ selected }) => selected).map(({ name }) => name.replace(/\s+/g, " ").trim()), [
      "11 agent 1: wait(FLAG, 0, 0) goes on",
    ]);
    const [status] = nodes.filter(({ role }) => role === "status");
    assert.equal(status.live, "polite");
    assert.deepEqual(named("columnheader"), ["Where", "Value", "Who waits"]);
    assert.deepEqual(named("rowheader"), ["FLAG", "slots"]);
    assert.deepEqual(named("button").slice(0, 4), ["First", "Back", "Forward", "Last"]);
    const text = await page.value("document.getElementById('sentence').textContent");
    assert.match(text, /agent 1 .*wait\(FLAG, 0, 0\) was woken by 9/);
  });

  for (const background of ["light", "dark"]) {
    it(`can be read on a ${background} background`, withBrowser, async (context) => {
      const page = await opened(context, { background });
      const ground = await page.value("getComputedStyle(document.body).backgroundColor");
      assert.equal(ground === "rgb(255, 255, 255)", background === "light", ground);
      for (const key of ["ArrowUp", "Home", "ArrowDown", "n", "ArrowDown", "End"]) {
        await page.press(key);
        assert.deepEqual(await page.value(PALE_TEXTS), []);
      }
    });
  }

  it("fits a narrow window", withBrowser, async (context) => {
    const page = await opened(context, { width: 400, height: 800 });
    const beyond = "document.scrollingElement.scrollWidth - document.scrollingElement.clientWidth";
    assert.equal(await page.value(beyond), 0);
    await page.press("ArrowUp");
    assert.equal((await page.value(SHOWN)).line, "6");
  });

  it("keeps a row's words and its values in the row, however long both are", withBrowser, async (context) => {
    const page = await opened(context, { data: longValues(), width: 700 });
    const parts = await page.value(`[...document.querySelectorAll("#timeline .row")].map((row) => {
      const [pane, does, changes] = [row, ...row.querySelectorAll(".does, .changes")].map((part) => {
        return part.getBoundingClientRect();
      });
      const { title, scrollWidth, clientWidth } = row.querySelector(".changes");
      return { does: does.width, ends: changes.right <= pane.right && does.right <= changes.left, title,
        isCut: scrollWidth > clientWidth };
    })`);
    const { does, ends, title, isCut } = parts.findLast((part) => part.title !== "");
    assert.ok(parts.every((part) => part.ends), JSON.stringify(parts));
    assert.ok(does > 150 && ends && isCut, JSON.stringify(parts));
    assert.equal(title, `${"s".repeat(23)}[1] ${-Number.MAX_VALUE} → ${Number.MAX_VALUE}`);
  });

  it("shows in memory the old and the new value of an element in one language", withBrowser, async (context) => {
    const page = await opened(context, { data: longValues() });
    await page.press("End", "ArrowUp");
    const cell = "document.querySelector('#memory .cell.now')";
    const [was, is] = await page.value(`[${cell}.querySelector("s"), ${cell}.querySelector(".value")].map((part) => {
      return part.textContent;
    })`);
    assert.deepEqual([was, is], [`${-Number.MAX_VALUE}`, `${Number.MAX_VALUE}`]);
  });

  it("says how its run was made, and copies the command that makes it again", withBrowser, async (context) => {
    const command = { options: "npx sabsim-record a.mjs --clock real", script: "found/seed-5.json", args: " -- one" };
    const about = { module: "src/a.mjs", options: "--clock real -- one", made: "sabsim 0.1.0, module 12, node 20.0.0" };
    const page = await opened(context, { data: { about, command } });
    const text = "npx sabsim-record a.mjs --clock real --replay found/seed-5.json -- one";
    const lines = await page.value("[...document.querySelectorAll('#about p')].map((line) => line.textContent)");
    assert.deepEqual(lines, [`Run it again: ${text} Copy`, "Module: src/a.mjs", "Options: --clock real -- one",
      "Made by: sabsim 0.1.0, module 12, node 20.0.0"]);
    const copy = async (clipboard) => {
      const given = `{ configurable: true, value: ${clipboard} }`;
      await page.value(`(Object.defineProperty(navigator, "clipboard", ${given}), 0)`);
      await page.click("#copy");
      return page.value("[document.querySelector('#copy').textContent, window.copied, getSelection().toString()]");
    };
    const taken = "{ writeText(text) { window.copied = text; } }";
    assert.deepEqual(await copy(taken), ["Copied", text, ""]);
    // If a browser forbids it, the command is selected.
    assert.deepEqual(await copy("undefined"), ["Selected", text, text]);
    assert.deepEqual(await page.value(PALE_TEXTS), []);
    const none = await opened(context, { data: { about: { ...about, options: "" }, command: undefined } });
    const rest = await none.value("document.querySelector('#about').textContent");
    assert.equal(rest, "Run it again: no command makes it againModule: src/a.mjsOptions: none" +
      "Made by: sabsim 0.1.0, module 12, node 20.0.0");
  });

  it("shows texts that look like code as they are", withBrowser, async (context) => {
    const evil = '</script><script>document.title = "broken"</script><!-- <img src=x onerror=alert(1)>';
    const sources = [{ file: "a.mjs", text: evil.concat("\n").repeat(8) }];
    const page = await opened(context, { parts: { detail: evil, sources }, data: { module: "<b>&amp;" } });
    const detail = await page.value("document.getElementById('detail').textContent");
    const code = await page.value("document.querySelector('#code .chosen code').textContent");
    const title = await page.value("document.title");
    assert.deepEqual([detail, code, title], [evil, evil, "seed 5 of <b>&amp;: deadlock"]);
    assert.deepEqual(page.complaints(), []);
  });

  it("is fast with 3,000 steps", withBrowser, async (context) => {
    const [, , store] = FACTS;
    const facts = Array.from({ length: 3_000 }, (_, at) => ({ ...store, entry: 3 * at + 1, agent: at % 2,
      found: { before: at - 1, after: at } }));
    const page = await opened(context, { data: { entries: facts, events: [], races: [], ending: "check" } });
    assert.equal((await page.value(SHOWN)).step, "step-3001");
    // Of a processor, so that other work of the machine doesn't count.
    const before = await page.processorSeconds();
    await page.press(...Array(20).fill("ArrowUp"), "Home", "n");
    assert.equal((await page.value(SHOWN)).step, "step-2");
    const seconds = await page.processorSeconds() - before;
    assert.ok(seconds > 0 && seconds < 2, `${seconds} s`);
  });
});
