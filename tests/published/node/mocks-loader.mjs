// The loader's half of node's module mocks.

import { workerData } from "node:worker_threads";
import { internals } from "./internals.mjs";

const { name, data } = workerData;
const require = internals({
  files: [name],
  modules: {
    "internal/test_runner/mock/mock": { kMockSuccess: 1, kMockExists: 2, kMockUnknownMessage: 3 },
    "internal/modules/helpers": {}, "internal/modules/esm/get_format": {}, "internal/modules/esm/resolve": {},
  },
});
require(name).initialize(data);
