// Wrong: a payment that main asks for again, since the answer was slow, is paid twice.
import { run } from "./threads.mjs";

await run((account, { amount }) => {
  account.balance += amount;
});
