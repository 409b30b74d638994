// Functions of node and the engine that get recorded memory: they work and the recorder sees what they access, or the
// run ends.

import { testWatched } from "../helpers/watched.mjs";

await testWatched("native-cases");
