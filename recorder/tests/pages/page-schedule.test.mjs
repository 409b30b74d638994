// Changing a schedule in real browsers, on the page of a run and on the page to try the simulator: what the pages show
// is what the program writes. The tests need the program, the built module of the simulator, and the browsers.

import assert from "node:assert/strict";
import { readFileSync, readdirSync } from "node:fs";
import { setTimeout as sleep } from "node:timers/promises";
import { pathToFileURL } from "node:url";
import { after, before, describe, it } from "node:test";
import { builtSimulator } from "../../lib/keeping/document.mjs";
import { pageOfData, runDataOf } from "../../lib/keeping/kept-page.mjs";
import { tryPageOf } from "../../lib/keeping/try-page.mjs";
import { changedData } from "../../page/changed.mjs";
import { Run } from "../../page/model.mjs";
import { outputOf } from "../../schedule/editing.mjs";
import { readReport } from "../../schedule/report-entries.mjs";
import { BROWSER, Browser } from "../helpers/browser.mjs";
import { fileIn, temporaryFolder } from "../helpers/common.mjs";
import { FIREFOX, Firefox } from "../helpers/firefox.mjs";
import { HANDED } from "../helpers/handed.mjs";
import { hasSabsim, needing } from "../helpers/needs.mjs";
import { PALE_TEXTS } from "../helpers/pale-texts.mjs";
import { pathOf } from "../helpers/programs.mjs";
import { simulate } from "../helpers/simulate.mjs";

const SIMULATOR = builtSimulator();
const BROWSERS = {
  Chromium: { isThere: BROWSER !== undefined, begin: () => new Browser() },
  Firefox: { isThere: FIREFOX !== undefined, begin: () => Firefox.begun() },
};
const FOLDER = pathOf("examples");
const EXAMPLES = readdirSync(FOLDER).filter((name) => name.endsWith(".json")).sort().map((name) => {
  return { name, text: readFileSync(`${FOLDER}/${name}`, "utf8") };
});

const SCRIPT = JSON.stringify(HANDED);
const COMMAND = { options: "npx sabsim-record hand.mjs", args: " -- one" };

/** What the program writes about a text. */
const written = (words, text) => outputOf(simulate, words, text);
const factsOf = (text) => written(["replay", "--format", "json"], text);

/** The data of the page of the run by hand, with its facts by the program. */
function handedData() {
  const outcome = { seed: 3, ending: "finished", detail: "", races: [], progress: [{}, {}], script: SCRIPT,
    scriptHolds: "all", sources: [] };
  return { ...runDataOf(outcome, factsOf(SCRIPT), "file:///hand.mjs"), command: COMMAND };
}

/** The rows of a timeline. */
const ROWS = `[...document.querySelectorAll("#timeline [role=option]")].map((row) => {
  return [".number", ".text", ".answer"].map((part) => row.querySelector(part)?.textContent.trim() ?? "").join(" | ");
})`;
const rowsOf = ({ steps }) => steps.map(({ entry = "", text, answer }) => `${entry} | ${text} | ${answer}`);

/** What is different, as the page shows it. */
const LINES = `[...document.querySelectorAll("#schedule tbody tr")].map((row) => {
  return [...row.cells].map((cell) => cell.textContent).join(" | ");
})`;

/** The marks of differences of which less than their first word is seen. */
const HIDDEN_MARKS = `[...document.querySelectorAll("#timeline .mark")].filter((mark) => {
  const [{ left, right }, row] = [mark, mark.closest("[role=option]")].map((each) => each.getBoundingClientRect());
  return Math.min(right, row.right) - left < 50;
}).map((mark) => mark.closest("[role=option]").textContent)`;

/** Waits until something is so in a page. */
async function until(page, expression) {
  for (let time = 0; time < 600; time += 1) {
    if (await page.value(expression)) return;
    await sleep(50);
  }
  assert.fail(`never so: ${expression}`);
}

/** The script that a page saves. */
async function savedBy(page) {
  await page.value(`(URL.createObjectURL = (blob) => {
    blob.text().then((text) => (document.body.dataset.saved = text));
    return "data:,";
  }) && ""`);
  await page.click("#save");
  await until(page, "document.body.dataset.saved !== undefined");
  return page.value("document.body.dataset.saved");
}

for (const [name, { isThere, begin }] of Object.entries(BROWSERS)) {
  const needs = [["sabsim", hasSabsim], ["module of the simulator", SIMULATOR !== undefined], [name, isThere]];
  const [missing] = needs.find(([, is]) => !is) ?? [];
  const withBrowser = needing(`${missing}`, missing === undefined);

  describe(`in ${name}`, { timeout: 1_200_000 }, () => {
    let browser;
    before(async () => {
      browser = withBrowser.skip === false ? await begin() : undefined;
    });
    after(() => browser?.close());

    async function opened(context, text, options) {
      const path = fileIn(temporaryFolder(context), "page.html", text);
      const page = await browser.open(pathToFileURL(path).href, options);
      await until(page, "!document.getElementById('schedule').hidden");
      return page;
    }

    /** The chosen step is the one with an entry. */
    const choose = (page, entry) => page.click(`#${entry} .does`);

    it("a step of a run is moved, and the page shows what the program writes of it", withBrowser, async (context) => {
      const data = handedData();
      const page = await opened(context, pageOfData(data, SIMULATOR));
      assert.deepEqual(await page.value(ROWS), rowsOf(new Run(data)));
      await choose(page, "step-1");
      await page.press("l");
      const text = await savedBy(page);
      assert.notEqual(text, SCRIPT);
      const report = readReport(factsOf(text));
      assert.deepEqual(await page.value(ROWS), rowsOf(new Run(changedData(data, HANDED, report))));
      assert.deepEqual(await page.value(LINES), [
        "agent 1 notify(w, 0) | wakes 0 | wakes nobody", "agent 0 wait(w, 0, 0, 9) | ok | not-equal",
      ]);
      const said = await page.value("document.getElementById('schedule').textContent");
      assert.match(said, /recorded calls in another order, not the program/);
      await page.press("u");
      assert.deepEqual(await page.value(ROWS), rowsOf(new Run(data)));
      assert.deepEqual(await page.complaints(), []);
    });

    it("a command is shown if the code can be run so, and else the reason why not", withBrowser, async (context) => {
      const page = await opened(context, pageOfData(handedData(), SIMULATOR));
      const note = "[...document.querySelectorAll('#schedule .note, #schedule .command')].at(-1).textContent";
      await choose(page, "step-1");
      await page.click("#later");
      const none = "No command can run the code by this schedule";
      assert.equal(await page.value(note), `${none}: agent 0 can't move at 21; drop that step first.`);
      await page.press("End", "ArrowUp", "d");
      assert.equal(await page.value(note), "npx sabsim-record hand.mjs --replay seed-3.changed.json -- one");
    });

    it("an impossible change is refused with a message, and changes nothing", withBrowser, async (context) => {
      const page = await opened(context, pageOfData(handedData(), SIMULATOR));
      const rows = await page.value(ROWS);
      await choose(page, "step-2");
      await page.press("t");
      const said = await page.value("document.querySelector('#schedule .status').textContent");
      assert.equal(said, "Not changed: agent 1 doesn't begin to wait here.");
      assert.deepEqual(await page.value(ROWS), rows);
    });

    it("without the simulator a page of a run shows what it knows", withBrowser, async (context) => {
      const path = fileIn(temporaryFolder(context), "page.html", pageOfData(handedData()));
      const page = await browser.open(pathToFileURL(path).href);
      assert.equal(await page.value("document.getElementById('schedule').hidden"), true);
      assert.deepEqual(await page.complaints(), []);
    });

    for (const [width, background] of [[1280, "light"], [1280, "dark"], [400, "light"], [400, "dark"]]) {
      it(`both pages can be read ${width} pixels wide, on a ${background} background`, withBrowser, async (context) => {
        for (const text of [pageOfData(handedData(), SIMULATOR), tryPageOf(EXAMPLES, SIMULATOR)]) {
          const page = await opened(context, text, { width, background });
          await choose(page, "step-1");
          await page.press("l", "l", "l");
          const { scrollWidth, clientWidth } = await page.value(`(() => {
            const { scrollWidth, clientWidth } = document.scrollingElement;
            return { scrollWidth, clientWidth };
          })()`);
          assert.equal(scrollWidth, clientWidth);
          assert.deepEqual(await page.value(PALE_TEXTS), []);
          assert.deepEqual(await page.value(HIDDEN_MARKS), []);
        }
      });
    }

    it("the page to try it shows of each example what the program writes", withBrowser, async (context) => {
      const page = await opened(context, tryPageOf(EXAMPLES, SIMULATOR));
      for (const [at, { text }] of EXAMPLES.entries()) {
        await page.value(`(() => {
          const select = document.getElementById("examples");
          select.selectedIndex = ${at};
          select.dispatchEvent(new Event("change"));
        })()`);
        assert.deepEqual(await shownBy(page), wantedOf(text));
      }
      assert.deepEqual(await page.complaints(), []);
    });

    it("the page to try it shows an error with its place, and can select the place", withBrowser, async (context) => {
      const page = await opened(context, tryPageOf(EXAMPLES, SIMULATOR));
      const wrong = EXAMPLES[0].text.replace('"store"', '"stoer"');
      await page.value(`(() => {
        const text = document.getElementById("text");
        text.value = ${JSON.stringify(wrong)};
        text.dispatchEvent(new Event("input"));
      })()`);
      await until(page, "!document.getElementById('show-place').hidden");
      const { status, output } = simulate(["check"], new TextEncoder().encode(wrong));
      assert.equal(status, 1);
      assert.equal(await page.value("document.getElementById('check').textContent"), `${output}`.trimEnd());
      assert.equal(await page.value("document.getElementById('stale').hidden"), false);
      await choose(page, "step-1");
      await page.press("l", "d");
      assert.equal(await page.value("document.getElementById('text').value"), wrong);
      await page.click("#show-place");
      const chosen = await page.value(`(() => {
        const { value, selectionStart, selectionEnd } = document.getElementById("text");
        return value.slice(selectionStart, selectionEnd);
      })()`);
      assert.equal(chosen, '"stoer"');
    });

    it("the page to try it changes a schedule, and the script and its report with it", withBrowser, async (context) => {
      const page = await opened(context, tryPageOf(EXAMPLES, SIMULATOR));
      await page.press("Home");
      await choose(page, "step-1");
      for (const key of ["l", "l", "l", "d"]) await page.press(key);
      const text = await page.value("document.getElementById('text').value");
      assert.notEqual(text, EXAMPLES[0].text);
      assert.deepEqual(await shownBy(page), wantedOf(text));
      await page.click("#reset");
      assert.equal(await page.value("document.getElementById('text').value"), EXAMPLES[0].text);
      assert.deepEqual(await page.complaints(), []);
    });

    /** What the page to try it shows. */
    const shownBy = (page) => page.value(`(() => {
      const text = (selector) => document.querySelector(selector).textContent;
      const [, picture] = document.querySelector("#picture img").getAttribute("src").split(",");
      const [check, report, verdict] = ["#check", "#report pre", "#verdict"].map(text);
      return { check, report, verdict, picture: decodeURIComponent(picture) };
    })()`);
  });
}

/** What it has to show of a script. */
function wantedOf(text) {
  const { output, complaint } = simulate(["judge"], new TextEncoder().encode(text));
  return {
    check: written(["check"], text).trimEnd(), report: written(["replay", "--format", "explained"], text),
    verdict: (`${output}` || `${complaint}`).trimEnd(), picture: written(["replay", "--format", "svg"], text),
  };
}
