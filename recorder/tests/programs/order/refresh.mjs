// A timer that is refreshed begins anew, so one that was set later and isn't comes first; a done one may be refreshed.
const first = setTimeout(() => console.log("first"), 20);
setTimeout(() => console.log("second"), 20);
first.refresh();
let times = 0;
const again = setTimeout(() => {
  times += 1;
  console.log("again", times, again.hasRef());
  if (times < 2) again.refresh();
}, 60);
console.log(typeof again[Symbol.toPrimitive](), again.refresh() === again);
