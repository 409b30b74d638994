// CPython's page for browsers: its script and its worker, with what is typed there. A loop that prints what it reads is
// in place of Python (python.js).

const TYPED = ["one\n", "two\n", "exit\n"];
const SHOWN = ">>> one\r\none\r\n>>> two\r\ntwo\r\n>>> exit\r\n\0";

/** What the terminal shows, and what is typed when it prompts. */
const terminal = { shown: "", buffer: { active: { cursorX: 0 } }, open() {}, clear() {}, onKey() {} };
terminal.onData = (listener) => { terminal.type = listener; };
terminal.write = (text) => {
  terminal.shown += typeof text === "string" ? text : new TextDecoder().decode(text);
  if (terminal.shown.endsWith(">>> ")) terminal.type(TYPED.shift());
  // The page prints a text where a character's number is expected.
  if (terminal.shown.endsWith("\0")) leave();
};

/** The page is closed. */
function leave() {
  if (terminal.shown !== SHOWN) throw new Error(`the terminal shows ${JSON.stringify(terminal.shown)}`);
  close();
}

const elements = new Map(["repl", "clear", "terminal"].map((id) => [id, {
  addEventListener(_, listener) { this.click = listener; },
  // The button can be clicked now.
  removeAttribute() { if (id === "repl") this.click(); },
}]));
window.document = { getElementById: (id) => elements.get(id) };
window.Terminal = class { constructor() { return terminal; } };

await import("./python.html.mjs");
window.onload();
// It leaves the page.
await new Promise(() => {});
