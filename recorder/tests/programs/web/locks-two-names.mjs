// Wrong: the lock of one worker has another name than that of the other one.
import { count } from "./locks-threads.mjs";

await count("under", "elsewhere");
