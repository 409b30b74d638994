// Runs files of tests by node, and prints what failed, what was left out, and at last `N passed, M failed`. The scripts
// of this folder call it. The status is 0 if no test failed.
//
// usage: node tests/reported.mjs FILE ..

import { execFile } from "node:child_process";
import { closingLines, readReport, wholeOf } from "../recorder/tests/helpers/results.mjs";

/**
 * What comes of a file of tests.
 * @param {string} file
 * @returns {Promise<import("../recorder/tests/helpers/results.mjs").Result>}
 */
const resultOf = (file) => new Promise((done) => {
  execFile(process.execPath, ["--test-reporter=tap", file], { maxBuffer: 2 ** 30 }, (error, stdout, stderr) => {
    done(readReport(stdout + stderr, error === null));
  });
});

const results = await Promise.all(process.argv.slice(2).map(resultOf));
for (const { failed, problems } of results) if (failed > 0) console.log(problems);
const whole = wholeOf(results);
for (const line of closingLines(whole)) console.log(line);
process.exitCode = whole.failed === 0 ? 0 : 1;
