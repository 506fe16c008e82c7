// The tokens of a policy's text, for colours and for completion. The program alone says what is a policy.

const KINDS = {
  blank: /[ \t\r\n]+/, comment: /#[^\n]*/, name: /[A-Za-z][A-Za-z0-9_.-]*/, figure: /[0-9][0-9./]*/, sign: /=>|>>|[={}(),;]/, other: /[^]/,
};
const TOKEN = new RegExp(Object.entries(KINDS).map(([kind, form]) => `(?<${kind}>${form.source})`).join("|"), "gu");

/** The tokens of a line, each with its kind: blank, comment, word, group, name, figure, sign or other. */
export function tokensOf(text, words, groups) {
  return Array.from(text.matchAll(TOKEN), ({ 0: held, groups: found }) => {
    const kind = Object.keys(found).find((each) => found[each] !== undefined);
    return { held, kind: kind !== "name" ? kind : words.has(held) ? "word" : groups.has(held) ? "group" : "name" };
  });
}

const BEGUN = /(?:^|[^A-Za-z0-9_.\-#])([A-Za-z][A-Za-z0-9_.-]*)$/;

/** The name that is being written at a place, with where it begins; null in a comment and where none is. */
export function begunAt(text, at) {
  const line = text.slice(text.lastIndexOf("\n", at - 1) + 1, at);
  if (line.includes("#") || /^[A-Za-z0-9_.-]/.test(text.slice(at))) return null;
  const found = BEGUN.exec(line);
  return found && { name: found[1], from: at - found[1].length };
}

const DEFINED = /^\s*define\s+([A-Za-z][A-Za-z0-9_.-]*)/;

/** The names of the groups that a text defines, whether or not it is a policy yet. */
export const groupsIn = (text) =>
  text.replace(/#[^\n]*/g, "").split(";").map((item) => DEFINED.exec(item)?.[1]).filter((name) => name);
