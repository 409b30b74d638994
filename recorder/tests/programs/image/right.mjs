// Right: each worker paints its own half.
import { run } from "./threads.mjs";

await run(0);
