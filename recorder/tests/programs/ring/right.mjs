// Right: the producer waits while the ring of six slots is full, and the consumer while it is empty.
import { run } from "./threads.mjs";

await run({ waitsWhenFull: true });
