// Wrong: the producer never looks whether the ring is full, and overwrites what the consumer hasn't read.
import { run } from "./threads.mjs";

await run({ waitsWhenFull: false });
