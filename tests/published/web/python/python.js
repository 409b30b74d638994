// In place of the interpreter: it reads lines and prints them.

function callMain() {
  const { stdin, stdout } = Module;
  const print = (text) => [...new TextEncoder().encode(text)].forEach((byte) => stdout(byte));
  for (;;) {
    print(">>> ");
    let line = "";
    for (let byte = stdin(); byte !== null; byte = stdin()) line += String.fromCharCode(byte);
    if (line === "exit\n") return 0;
    print(line);
  }
}

// The real one is ready when its code is compiled.
setTimeout(() => Module.onRuntimeInitialized(), 0);
