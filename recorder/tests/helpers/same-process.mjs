// Prints what `sameRuns` returns for its arguments, as JSON: the names of programs, and seeds.

import { sameRuns } from "./same-runs.mjs";

const [names, seeds] = process.argv.slice(2).map((word) => JSON.parse(word));
process.stdout.write(JSON.stringify(await sameRuns(names, seeds)));
