// What all parts of a page are made of.

/** @param {string} id @returns {HTMLElement} */
export const by = (id) => /** @type {HTMLElement} */ (document.getElementById(id));

/**
 * An element with a class, and a text or children.
 * @param {string} name
 * @param {string} className
 * @param {...(string | Node)} children
 */
export function made(name, className, ...children) {
  const element = document.createElement(name);
  if (className !== "") element.className = className;
  element.append(...children);
  return element;
}

/** @param {number} agent @param {string} [more] classes @returns {HTMLElement} an agent's number in its colour */
export const badge = (agent, more = "") => made("span", `badge a${agent % 8} ${more}`, `${agent}`);

/** @param {string} text @returns {HTMLElement} what only a screen reader reads aloud */
export const spoken = (text) => made("span", "spoken", text);

/**
 * Scrolls a pane, and nothing around it, so that a part of it is seen.
 * @param {HTMLElement} pane
 * @param {HTMLElement} part
 */
export function reveal(pane, part) {
  const [around, inner] = [pane.getBoundingClientRect(), part.getBoundingClientRect()];
  const room = Math.min(pane.clientHeight / 3, 3 * inner.height);
  const above = inner.top - room - around.top;
  const below = inner.bottom + room - around.bottom;
  if (above < 0) pane.scrollTop += above;
  else if (below > 0) pane.scrollTop += below;
}
