// Makes elements. Texts go in as texts alone.

const SVG = "http://www.w3.org/2000/svg";

const isShown = (each) => each !== null && each !== undefined && each !== false;

function fill(made, given, inside) {
  for (const [key, value] of Object.entries(given ?? {})) {
    if (!isShown(value)) continue;
    if (key.startsWith("on")) made.addEventListener(key.slice(2), value);
    else if (key === "style") for (const [name, set] of Object.entries(value)) made.style.setProperty(name, set);
    else made.setAttribute(key, value === true ? "" : value);
  }
  made.append(...inside.flat(Infinity).filter(isShown));
  return made;
}

/** An element with its attributes, its listeners (`on..`) and what stands in it. */
export const el = (name, given, ...inside) => fill(document.createElement(name), given, inside);
export const svg = (name, given, ...inside) => fill(document.createElementNS(SVG, name), given, inside);
export const by = (id) => document.getElementById(id);
/** Puts something in the place of all that stands in an element. */
export const put = (place, ...inside) => place.replaceChildren(...inside.flat(Infinity).filter(isShown));

export const many = (count, one, more = `${one}s`) => `${count} ${count === 1 ? one : more}`;
/** A few words of a list, and how many more there are. */
export const some = (words, most) =>
  words.slice(0, most).join(", ") + (words.length > most ? ` and ${words.length - most} more` : "");
