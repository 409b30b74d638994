// Locks and queues as people write them: every schedule of each is tried, and each of their moments is compared.

import assert from "node:assert/strict";
import { readdirSync } from "node:fs";
import { test } from "node:test";
import { fileURLToPath } from "node:url";
import { everySchedule } from "../../recorder.mjs";
import { FEW_WORKERS } from "../helpers/common.mjs";

const FOLDER = new URL("../agents/written/", import.meta.url);

for (const name of readdirSync(FOLDER)) {
  test(`tried as it is written: ${name}`, async () => {
    const module = fileURLToPath(new URL(name, FOLDER));
    const { closed, found, hidden, isWhole } = await everySchedule({ ...FEW_WORKERS, module, seeds: 4 });
    assert.deepEqual({ closed, found, hidden, isWhole }, { closed: true, found: [], hidden: [], isWhole: true });
  });
}
