// Right: the version only grows, so a reader sees that a pair has changed meanwhile.
import { run } from "./threads.mjs";

await run({ versions: 2 ** 30 });
