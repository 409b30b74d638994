// The recorder as a library: `import { explore, record } from "./recorder.mjs"`.

export { Difference } from "./lib/check/difference.mjs";
export { NotAsLearned } from "./lib/every/not-as-learned.mjs";
export { everySchedule } from "./lib/library/every-schedule.mjs";
export { explore } from "./lib/library/explore.mjs";
export { record } from "./lib/library/record-runs.mjs";
export { Refused } from "./lib/options/refused.mjs";
export { KeepsGlobals } from "./lib/seeds/first-again.mjs";
export { LostJob } from "./lib/seeds/remote-job.mjs";
export { NoSabsim } from "./lib/simulator/native.mjs";
