// Tests that AVA runs.
import test from "ava";

test("adds", (t) => { t.is(1 + 1, 2); });
test("waits", async (t) => {
  await new Promise((done) => setTimeout(done, 5));
  console.log("from a test");
  t.pass();
});
