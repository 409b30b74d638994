// Tests that AVA runs.
import test from "ava";

test("joins", (t) => { t.is(["a", "b"].join(), "a,b"); });
