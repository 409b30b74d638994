// Wrong: the version has two bits, so a reader doesn't see that two whole pairs were written meanwhile.
import { run } from "./threads.mjs";

await run({ versions: 4 });
