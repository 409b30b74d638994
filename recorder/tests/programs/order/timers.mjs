// Timers go by their times, and those of one time by the order in which they were set.
setTimeout(() => console.log("30 first"), 30);
setTimeout(() => console.log("20 first"), 20);
setTimeout(() => console.log("10 first"), 10);
setTimeout(() => console.log("20 second"), 20);
setTimeout((...words) => console.log(...words), 10, "10", "second");
setTimeout(() => console.log("0"), 0);
setTimeout(() => console.log("1"), 1);
setTimeout(() => console.log("NaN"), NaN);
setTimeout(() => console.log("1.9"), 1.9);
setTimeout(() => console.log("-5"), -5);
