// Classes of a module in Python, turned into JavaScript, each statement at its own line. This knows only as much of
// Python as the classes have for which it is used.

const OPEN = /[([{]/g;
const CLOSED = /[)\]}]/g;

/** @param {string} text @returns {number} how many brackets are open at its end */
const depthOf = (text) => (text.match(OPEN)?.length ?? 0) - (text.match(CLOSED)?.length ?? 0);

/** @typedef {{ at: number, code: string }} Statement its line, and its text in one line, with the spaces before it */

/** @param {string} text @returns {Statement[]} */
function statementsOf(text) {
  const statements = [];
  for (const [at, line] of text.split("\n").entries()) {
    const code = line.replace(/^ *#.*|  +#.*$/, "").trimEnd();
    const last = statements.at(-1);
    if (last !== undefined && depthOf(last.code) > 0) last.code += ` ${code.trim()}`;
    else if (code !== "") statements.push({ at, code });
  }
  return statements;
}

/** What expressions have, and what JavaScript has for it. @type {[RegExp, string][]} */
const WORDS = [
  [/\bf"([^"]*)"/g, "`$1`"], [/\{(\w+(?:\[\d\])?)\}(?=[^`]*`)/g, "${$1}"], [/\bNone\b/g, "undefined"],
  [/\bTrue\b/g, "true"], [/\bFalse\b/g, "false"],
  [/\{\s*(\w+): (\w+) for \w+, \w+ in ([\w.]+)\.items\(\) if (.*?)\s*\}/g,
    "Object.fromEntries(Object.entries($3).filter(([$1, $2]) => $4))"],
  [/(\w+) not in (\w+)/g, "!$2.includes($1)"], [/\bnot /g, "!"], [/\band\b/g, "&&"], [/\bor\b/g, "||"],
  [/^(.*?= )?(.+) if (.+) else (.+)$/, "$1$3 ? $2 : $4"], [/([(,] *)\w+=(?!=)/g, "$1"],
  [/(?<![.\w])(_?[A-Z]\w*[a-z]\w*)\(/g, "new $1("], [/super\(\)/g, "super"],
];

/** @param {string} code an expression, or an assignment @returns {string} */
const expression = (code) => WORDS.reduce((text, [python, js]) => text.replace(python, js), code);

/** @param {string} given the parameters of a function @returns {string} their names */
const parametersOf = (given) =>
  given.split(/,(?![^[]*\])/).map((each) => /\w*/.exec(each.trim())[0]).filter((name) => !["", "self"].includes(name))
    .join(", ");

/** @type {[RegExp, (...parts: string[]) => string][]} the kinds of statements, and what each is in JavaScript */
const STATEMENTS = [
  [/^class (\w+).*:$/, (name) => `class ${name} extends Base {`],
  [/^def __init__\((.*)\).*:$/, (given) => `constructor(${parametersOf(given)}) { super(); const self = this;`],
  [/^def (\w+)\(self,? ?(.*)\).*:$/, (name, given) => `${name}(${parametersOf(given)}) { const self = this;`],
  [/^def (\w+)\((.*)\).*:$/, (name, given) => `function ${name}(${parametersOf(given)}) {`],
  [/^@property$/, () => "get"],
  [/^if (.*):$/, (code) => `if (${expression(code)}) {`],
  [/^elif (.*):$/, (code) => `else if (${expression(code)}) {`],
  [/^else:$/, () => "else {"],
  [/^return (.*)$/, (code) => `return ${expression(code)};`],
  [/^return$/, () => "return;"],
  [/^raise (\w+)$/, (name) => `throw new ${name}();`],
  [/^raise (.*)$/, (code) => `throw ${expression(code)};`],
  [/^(.+)\[(\w+):(\w+)\] = (.*)$/, (target, from, _, code) => `${target}.set(${expression(code)}, ${from});`],
  [/^(\w+) = \((.*),\)$/, (name, code) => `var ${name} = [${code}];`],
  [/^(\w+) = (.*)$/, (name, code) => `var ${name} = ${expression(code)};`],
  [/^([\w.]+): [^=]* = (.*)$/, (target, code) => `${target} = ${expression(code)};`],
  [/^(.*)$/, (code) => `${expression(code)};`],
];

/** @param {string} code @returns {string} */
function statement(code) {
  for (const [kind, js] of STATEMENTS) {
    const found = kind.exec(code);
    if (found !== null) return js(...found.slice(1));
  }
  return code;
}

/** @param {string} text in Python @returns {string} in JavaScript, each statement in its own line */
export function fromPython(text) {
  const open = [];
  const lines = text.split("\n").map(() => "");
  for (const { at, code } of statementsOf(text)) {
    const indent = /^ */.exec(code)[0].length;
    while (open.length > 0 && indent <= open.at(-1)) {
      open.pop();
      lines[at] += "} ";
    }
    if (code.endsWith(":")) open.push(indent);
    lines[at] += statement(code.trim());
  }
  return lines.join("\n") + "}".repeat(open.length);
}

/**
 * @param {string} text of a module in Python
 * @param {string[]} names of its classes
 * @returns {string} its constants and these classes, in JavaScript
 */
export function classesOf(text, names) {
  const parts = ["[A-Z]\\w+ = .*[^(]$", ...names.map((name) => `class ${name}\\b[^]*?(?=\\n\\n\\n)`)];
  // What isn't wanted is left out, and its lines stay empty.
  let at = 0;
  const kept = [...text.matchAll(new RegExp(`^(?:${parts.join("|")})`, "gm"))].map((part) => {
    const before = text.slice(at, part.index).replace(/[^\n]/g, "");
    at = part.index + part[0].length;
    return before + part[0];
  });
  return fromPython(kept.join(""));
}
