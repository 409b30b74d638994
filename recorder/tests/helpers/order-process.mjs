// Runs programs on the order of events in the recorder. It prints how each run ended, a line of JSON each; what a
// program prints goes to standard error, and behind it a line with NUL.

import { writeSync } from "node:fs";
import { programGroup } from "./groups.mjs";

const [seeds, own, ...urls] = process.argv.slice(2);

const STDERR = 2;
// In node what these programs do takes nearly no time. So no timer of theirs is up while something else can be done.
const group = await programGroup({ timeouts: 0, module: urls[0], ...JSON.parse(own) });
for (const url of urls) {
  group.enter(url);
  for (let seed = 1; seed <= Number(seeds); seed += 1) {
    const wanted = { seed, whole: false, isShown: true };
    await group.run([wanted], ({ ending, detail }) => console.log(JSON.stringify({ ending, detail })));
    writeSync(STDERR, "\0\n");
  }
}
await group.close();
