// Wrong: two workers load a shared sum, await, and store it again, so one of the additions may be lost.
import { add } from "./adders.mjs";

await add(async (sum) => {
  const before = Atomics.load(sum, 0);
  await null;
  Atomics.store(sum, 0, before + 1n);
});
