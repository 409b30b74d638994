// Wrong: it reads the balance, awaits, and writes a sum that may forget a payment made meanwhile.
import { setImmediate as soon } from "node:timers/promises";
import { run } from "./threads.mjs";

await run(async (account, amount) => {
  const { balance } = account;
  await soon();
  account.balance = balance + amount;
});
