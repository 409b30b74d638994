// Ticks and microtasks run between two timers of one time.
for (const name of ["a", "b"]) {
  setTimeout(() => {
    console.log(`timer ${name}`);
    Promise.resolve().then(() => console.log(`promise ${name}`));
    process.nextTick(() => console.log(`tick ${name}`));
  }, 5);
}
