// The modules and programs whose summaries differ between versions of node, with the reason. None of them is a fault of
// the recorder.

/** @type {Readonly<Record<string, string>>} the reason by the name that `same-summaries.mjs` prints */
export const EXCEPTIONS = Object.freeze({
  "recorder/examples/node-cwd.agents.mjs": "it tries code of the node that runs it, which node 24 has mended",
  "recorder/tests/agents/retried.mjs": "its tries at the end of the stack depend on how deep the engine lets it be",
  "recorder/tests/agents/spins.mjs alternately": "it spins without a call until real seconds are over",
  "recorder/tests/agents/spins.mjs ordinary": "it spins until real seconds are over, and its reads are counted",
  "recorder/tests/agents/unrecorded.mjs waitsForAbroad": "it waits for a thread that isn't recorded",
});
