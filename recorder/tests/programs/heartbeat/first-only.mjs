// Wrong: the time of the last beat is noted once only.
import { look } from "./looks.mjs";

look((worker, note) => worker.once("message", note));
