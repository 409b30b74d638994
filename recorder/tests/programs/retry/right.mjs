// Right: the worker drops a payment whose number it has seen.
import { run } from "./threads.mjs";

await run((account, { id, amount }) => {
  if (account.seen.has(id)) return;
  account.seen.add(id);
  account.balance += amount;
});
