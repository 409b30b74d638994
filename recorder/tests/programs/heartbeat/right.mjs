// Right: the time of each beat is noted.
import { look } from "./looks.mjs";

look((worker, note) => worker.on("message", note));
