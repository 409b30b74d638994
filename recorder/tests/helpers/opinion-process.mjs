// A process that asks the engine for its opinion on scripts, one after the other: a text comes in as a message, and its
// report and the lines of its moves go out.

import { Crew } from "../engine/crew.mjs";
import { replay } from "../engine/replay.mjs";
import { reportText } from "../engine/report.mjs";
import { readScript } from "../engine/script.mjs";

const crew = new Crew();

process.on("disconnect", () => process.exit());
process.on("message", async (text) => {
  try {
    const script = readScript(Buffer.from(text));
    const outcome = await replay(script, crew);
    process.send?.({ report: reportText(script, outcome), lines: outcome.entries.map((entry) => entry.text) });
  } catch (error) {
    process.send?.({ fault: `${error}` });
  }
});
