// An interval clears itself in its third call; another one is cleared by a timer's number.
let calls = 0;
const own = setInterval((word) => {
  calls += 1;
  console.log(word, calls);
  if (calls === 3) clearInterval(own);
}, 3, "call");
const other = setInterval(() => console.log("never"), 2 ** 30);
clearInterval(Number(other));
const third = setInterval(() => console.log("never"), 1000);
clearTimeout(String(Number(third)));
process.on("exit", () => console.log("exit", calls));
