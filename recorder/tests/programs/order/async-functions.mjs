// How many microtasks an await, a returned promise and a thenable take.
const steps = (name, count) => {
  let step = Promise.resolve();
  for (let number = 1; number <= count; number += 1) step = step.then(() => console.log(name, number));
};
steps("step", 6);
(async () => { await null; console.log("after await"); })();
(async () => Promise.resolve())().then(() => console.log("returned promise"));
(async () => undefined)().then(() => console.log("returned value"));
(async () => { await { then(done) { console.log("then is called"); done(); } }; console.log("after thenable"); })();
new Promise((done) => done(Promise.resolve())).then(() => console.log("resolved with a promise"));
Promise.all([1, Promise.resolve(2)]).then(() => console.log("all"));
Promise.race([Promise.resolve(1)]).finally(() => console.log("finally")).then(() => console.log("after finally"));
console.log("main");
