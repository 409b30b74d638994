// Right: the head counts its changes, so a head that has come back isn't taken for one that hasn't changed.
import { use } from "./threads.mjs";

await use({ counts: true });
