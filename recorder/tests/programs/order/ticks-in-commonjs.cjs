// In CommonJS each process.nextTick comes before promises.
require("./tick-parts/ticks.cjs")();
