// Right: two workers add to a shared sum with one call each.
import { add } from "./adders.mjs";

await add(async (sum) => {
  await null;
  Atomics.add(sum, 0, 1n);
});
