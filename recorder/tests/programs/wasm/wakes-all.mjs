// Right: unlock wakes all sleepers. In WebAssembly the count -1 has no sign, so it is the greatest.
import { locks } from "./locks.mjs";
import { count } from "./threads.mjs";

count(import.meta.url, () => locks(2, -1), "countLocked");
