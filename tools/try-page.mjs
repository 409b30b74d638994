// Makes the page to try the simulator without installing anything, docs/try.html, from the built module.
//
// usage: node tools/try-page.mjs [FILE]
//
// FILE is where the page is written to, in place of docs/try.html. The step that makes the module calls this one.

import { readFileSync, readdirSync, writeFileSync } from "node:fs";
import { fileURLToPath } from "node:url";
import { builtSimulator } from "../recorder/lib/keeping/document.mjs";
import { tryPageOf } from "../recorder/lib/keeping/try-page.mjs";

const EXAMPLES = new URL("../examples/", import.meta.url);
const PAGE = fileURLToPath(new URL("../docs/try.html", import.meta.url));

const simulator = builtSimulator();
if (simulator === undefined) {
  process.stderr.write("try-page: the module of the simulator isn't built\n");
  process.exitCode = 1;
} else {
  const names = readdirSync(EXAMPLES).filter((name) => name.endsWith(".json")).sort();
  const examples = names.map((name) => {
    return { name: name.replace(/\.json$/, ""), text: readFileSync(new URL(name, EXAMPLES), "utf8") };
  });
  writeFileSync(process.argv[2] ?? PAGE, tryPageOf(examples, simulator));
}
