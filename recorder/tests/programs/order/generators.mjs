// Async generators queue their calls, and a break runs their finally.
async function* numbers() {
  try {
    for (let number = 1; ; number += 1) {
      console.log("yields", number);
      yield number;
    }
  } finally {
    console.log("finally");
    await null;
    console.log("cleaned");
  }
}
for await (const number of numbers()) {
  console.log("gets", number);
  if (number === 2) break;
}
const iterator = numbers();
const all = [iterator.next(), iterator.next(), iterator.return("end"), iterator.next()];
for (const { value, done } of await Promise.all(all)) console.log(value, done);
