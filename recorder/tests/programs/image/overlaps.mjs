// Wrong: the first worker paints one row of the other half, too.
import { run } from "./threads.mjs";

await run(1);
