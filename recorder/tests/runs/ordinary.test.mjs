// Typed arrays and DataViews on recorded buffers return what plain ones do, and the recorder sees what they read and
// write.

import { testWatched } from "../helpers/watched.mjs";

await testWatched("ordinary-cases");
await testWatched("realm-cases");
