// Wrong: a thread sleeps if the lock is 0, not 2. Nobody wakes it.
import { locks } from "./locks.mjs";
import { count } from "./threads.mjs";

count(import.meta.url, () => locks(0), "countLocked");
