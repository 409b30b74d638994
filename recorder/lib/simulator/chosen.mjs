// Which simulator is asked: the module, or the native program if somebody chooses it.

import { ModuleSimulator } from "./module.mjs";
import { NativeSimulator, programAt } from "./native.mjs";

/** @typedef {ModuleSimulator | NativeSimulator} ChosenSimulator */

/**
 * The native program that is chosen: by an option, or else by SABSIM of the environment.
 * @param {string | boolean} [option] a boolean names no program
 * @returns {string | undefined} its path; undefined: none is chosen
 * @throws {import("./native.mjs").NoSabsim} if it isn't there
 */
export function chosenProgram(option) {
  const path = typeof option === "string" ? option : process.env.SABSIM ?? "";
  return path === "" ? undefined : programAt(path);
}

/** @param {string} [program] the path of the native program; undefined: the module @returns {ChosenSimulator} */
export const simulatorAt = (program) =>
  program === undefined ? new ModuleSimulator() : new NativeSimulator(program);
