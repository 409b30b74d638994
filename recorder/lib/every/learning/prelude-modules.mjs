// The modules of the prelude, rewritten as the agents' are: what they export stands for functions of the engine.

import { PRELUDE, callPrelude } from "../state/installed-loops.mjs";
import { AgentModules } from "./agent-modules.mjs";

/**
 * Makes them, and has the rewritten code call what is theirs.
 * @param {import("./node-platform.mjs").NodePlatform} platform
 * @param {import("../state/runtime.mjs").Runtime} runtime
 * @returns {{ prelude: any, texts: AgentModules["texts"] }} what they export, and their texts
 */
export function madePrelude(platform, runtime) {
  const own = new AgentModules(platform);
  for (const url of PRELUDE) own.take(url);
  const made = own.made(runtime.calls);
  const prelude = Object.assign({}, ...PRELUDE.map((url) => made.get(url)));
  callPrelude(prelude, runtime.calls);
  return { prelude, texts: own.texts };
}
