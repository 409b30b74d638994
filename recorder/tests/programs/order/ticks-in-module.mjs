// In a module, which runs as a microtask, promises come before the first process.nextTick.
import begin from "./tick-parts/ticks.cjs";

begin();
