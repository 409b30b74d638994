// For test suites: `import { testAgents, testObject, testProgram } from "sabsim/test"`, or in any other test
// `assertAgents`, `assertObject` and `assertProgram`.

export {
  assertAgents, assertObject, assertProgram, testAgents, testObject, testProgram,
} from "./lib/suite/tests.mjs";
