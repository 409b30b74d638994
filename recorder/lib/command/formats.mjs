// The forms in which a summary is printed.

import { summaryText } from "./summary-text.mjs";

/** @typedef {import("./summary-form.mjs").WholeSummary} WholeSummary */

/** @type {Record<string, (summary: WholeSummary) => string>} each ends its last line */
const FORMATS = {
  plain: summaryText,
  json: (summary) => `${JSON.stringify(summary)}\n`,
};

/** @param {WholeSummary} summary @param {string} format @returns {string} */
export const formatted = (summary, format) => FORMATS[format](summary);
