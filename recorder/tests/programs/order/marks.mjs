// A run doesn't see the times that an earlier run has marked. The first thread has no resource limits.
import { resourceLimits } from "node:worker_threads";

performance.mark("one");
performance.mark("two");
performance.measure("between", "one", "two");
console.log(performance.getEntriesByType("mark").length, performance.getEntriesByName("between").length);
console.log(Object.keys(resourceLimits).length);
