// Right: it awaits first, and reads and writes the balance in one step.
import { setImmediate as soon } from "node:timers/promises";
import { run } from "./threads.mjs";

await run(async (account, amount) => {
  await soon();
  account.balance += amount;
});
