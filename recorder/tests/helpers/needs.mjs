// What some tests need besides node. Each test that needs something says so by `needing`. Where it is missing the test
// is left out, and counted so, with its reason as `no ..`.

import { existsSync } from "node:fs";
import { resolve } from "node:path";
import { HERE } from "../../lib/processes/platform.cjs";

/** Where sabsim certainly isn't. */
export const NOWHERE = "/nowhere/sabsim";

const { SABSIM: named = "" } = process.env;

/** Whether SABSIM of the environment names the built program. If not, tests ask the simulator's module. */
export const hasSabsim = named !== "";

/** The built program, by its whole path. */
export const SABSIM = hasSabsim ? resolve(named) : NOWHERE;

// What tests start asks the same simulator.
process.env.SABSIM = hasSabsim ? SABSIM : "";

/** The option `sabsim` of a test's runs: the program checks them if it is given, and else the module. */
export const CHECKER = hasSabsim ? SABSIM : undefined;

/** The same as words of the command line. */
export const CHECKING = hasSabsim ? ["--sabsim", SABSIM] : [];

/**
 * The options of a test that needs something.
 * @param {string} what
 * @param {boolean} isThere
 */
export const needing = (what, isThere) => ({ skip: isThere ? false : `no ${what}` });

/** For tests that need the program itself. */
export const withSabsim = needing("sabsim", hasSabsim);

/** For tests that look for processes. */
export const onLinux = needing("/proc", existsSync("/proc/self/environ"));

/** For tests that start a shell, or a script for one. */
export const withShell = needing("POSIX shell", existsSync("/bin/sh"));

/** For tests of processes that a signal ends. */
export const withSignals = needing("signals", HERE.hasSignals);

/** For tests that make links: Windows asks for a right to do so. */
export const withLinks = needing("links", !HERE.isWindows);

/** For tests of what the paths of Windows can't name. */
export const withPosixPaths = needing("POSIX paths", !HERE.isWindows);

/** For tests with files of POSIX that are none, as /dev/null. */
export const withDevices = needing("files of devices", existsSync("/dev/full") && existsSync("/dev/zero"));
