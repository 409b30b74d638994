// Texts in one piece. The engine keeps a text that was put together as its parts. Each text of which it becomes a part
// copies those parts one by one. So what comes again in many texts is put into one piece once.

const encoder = new TextEncoder();
const decoder = new TextDecoder();

/** @param {string} text @returns {string} the same text, in one piece */
export const flat = (text) => decoder.decode(encoder.encode(text));
