// How the run of a page was made, and the command that makes it again.

import { by, made } from "./dom.mjs";

/** @typedef {import("./run-data.mjs").RunData} RunData */

/** @param {import("./run-data.mjs").Command} command @returns {string} */
const commandText = ({ options, script, args }) => `${options} --replay ${script}${args}`;

/**
 * A button that copies a text, or else selects it.
 * @param {HTMLElement} code that has the text
 */
function copyButton(code) {
  const button = /** @type {HTMLButtonElement} */ (made("button", "", "Copy"));
  button.type = "button";
  button.id = "copy";
  button.addEventListener("click", async () => {
    try {
      await navigator.clipboard.writeText(code.textContent ?? "");
      button.textContent = "Copied";
    } catch {
      getSelection()?.selectAllChildren(code);
      button.textContent = "Selected";
    }
  });
  return button;
}

/**
 * A line that begins with what it is about.
 * @param {string} name
 * @param {...(string | Node)} parts
 */
const line = (name, ...parts) => made("p", "", made("span", "name", `${name}: `), ...parts);

/** @param {RunData} data */
export function showAbout({ about, command, threads = [], windows = [] }) {
  const pane = by("about");
  pane.hidden = about === undefined;
  if (about === undefined) return;
  const { module, options, made: versions } = about;
  const code = made("code", "command", command === undefined ? "" : commandText(command));
  const again = command === undefined ? ["no command makes it again"] : [code, " ", copyButton(code)];
  const started = threads.flatMap((name, agent) => (name === "" ? [] : [line(`Agent ${agent}`, name)]));
  const stretches = windows.map(({ where, what }) => line(where, what));
  const memory = windows.length === 0 ? [] : [made("details", "", made("summary", "", "Memory"), ...stretches)];
  pane.replaceChildren(
    line("Run it again", ...again), line("Module", made("code", "", module)), ...started, ...memory,
    line("Options", options === "" ? "none" : made("code", "", options)), line("Made by", versions),
  );
}
