// A rejection with a value that is no error: the exception listener gets an error with a code.
process.on("uncaughtException", (error, origin) => {
  console.log(error.name, error.code, origin);
  console.log(error.message.split("\n")[0].slice(0, 60));
});
Promise.reject(42);
setTimeout(() => console.log("goes on"), 5);
