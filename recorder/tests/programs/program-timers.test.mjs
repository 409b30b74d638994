// Timers of whole programs. They stand on node's inside.

import { testInside } from "../helpers/inside.mjs";

await testInside(new URL("../helpers/timer-cases.mjs", import.meta.url));
