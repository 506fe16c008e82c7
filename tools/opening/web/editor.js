// The policy's text: a plain field, with its colours and squiggles laid behind it.

import { el } from "./dom.js";
import { groupsIn, tokensOf } from "./tokens.js";

const END_OF_LINE = "\u200b"; // so that an empty line has a height

/** The places at which marks begin or end within a piece of the text. */
function cutsWithin(from, to, marks) {
  const cuts = new Set([from, to]);
  for (const mark of marks) for (const cut of [mark.from, mark.to]) if (from < cut && cut < to) cuts.add(cut);
  return [...cuts].sort((one, other) => one - other);
}

/** One line with its colours and marks; `at` is where it begins. No token but blanks goes past a line. */
function lineDrawn(line, at, marks, words, groups) {
  const made = el("div");
  let from = at;
  for (const { held, kind } of tokensOf(line, words, groups)) {
    const cuts = cutsWithin(from, from + held.length, marks);
    cuts.slice(1).forEach((to, k) => {
      const on = marks.filter((mark) => mark.from <= cuts[k] && to <= mark.to).map((mark) => `m-${mark.kind}`);
      const piece = line.slice(cuts[k] - at, to - at);
      made.append(kind !== "blank" || on.length ? el("span", { class: [`t-${kind}`, ...on].join(" ") }, piece) : piece);
    });
    from += held.length;
  }
  made.append(END_OF_LINE);
  return made;
}

/** How many items two lists have in common at their beginning, and behind that at their end. */
function common(one, other) {
  let begin = 0, end = 0;
  while (begin < one.length && begin < other.length && one[begin] === other[begin]) begin++;
  while (end < one.length - begin && end < other.length - begin && one[one.length - 1 - end] === other[other.length - 1 - end]) end++;
  return [begin, end];
}

const lineNumber = (text, at) => text.slice(0, at).split("\n").length - 1;

/** An editor in a place of the page. It calls `changed` with each new text, and `moved` with the place of the cursor. */
export class Editor {
  constructor(place, words, { changed, moved }) {
    Object.assign(this, { words, changed, moved, marks: [], drawn: [] });
    this.shown = el("pre", { "aria-hidden": "true" });
    this.field = el("textarea", {
      spellcheck: "false", autocapitalize: "off", autocomplete: "off", wrap: "soft",
      "aria-label": "Policy text", "aria-describedby": "says",
    });
    this.sheet = el("div", { class: "sheet" }, this.shown, this.field);
    place.append(this.sheet);
    this.field.addEventListener("input", () => this.edited());
    this.field.addEventListener("blur", () => this.markLine());
    document.addEventListener("selectionchange", () => {
      if (document.activeElement !== this.field) return;
      this.markLine();
      this.moved(this.field.selectionStart);
    });
  }

  get text() { return this.field.value; }

  set text(text) {
    this.field.value = text;
    this.marks = [];
    this.draw();
  }

  /** The text is another one: marks of what was said of the old one go. */
  edited() {
    this.marks = this.marks.filter((mark) => mark.kind === "chosen");
    this.draw();
    this.changed(this.text);
  }

  /** Changes a part as a person would, so that undo takes it back. */
  replace(from, to, text) {
    this.field.focus();
    this.field.setSelectionRange(from, to);
    if (document.execCommand("insertText", false, text)) return;
    this.field.setRangeText(text, from, to, "end");
    this.edited();
  }

  /** Marks places: as a fault, as a finding, or as chosen. */
  mark(kind, places) {
    const made = places.filter(Boolean).map(({ from, to }) => ({ kind, from, to }));
    this.marks = [...this.marks.filter((mark) => mark.kind !== kind), ...made];
    this.draw();
  }

  /** Draws the lines that aren't drawn already: those between what has stayed at the beginning and at the end. */
  draw() {
    const lines = this.text.split("\n"), groups = new Set(groupsIn(this.text)), names = [...groups].join();
    const begins = [], own = [], keys = [];
    let at = 0;
    for (const line of lines) {
      const marks = this.marks.filter((mark) => mark.from <= at + line.length && mark.to >= at);
      begins.push(at);
      own.push(marks);
      keys.push(`${line}\n${marks.map((mark) => `${mark.kind} ${mark.from - at} ${mark.to - at}`).join()}\n${names}`);
      at += line.length + 1;
    }
    const [begin, end] = common(keys, this.drawn), after = this.shown.children[this.drawn.length - end] ?? null;
    for (const each of [...this.shown.children].slice(begin, this.drawn.length - end)) each.remove();
    for (let k = begin; k < keys.length - end; k++) {
      this.shown.insertBefore(lineDrawn(lines[k], begins[k], own[k], this.words, groups), after);
    }
    this.drawn = keys;
    this.markLine();
  }

  /** Marks the line of the cursor. */
  markLine() {
    for (const each of this.shown.querySelectorAll(".here")) each.classList.remove("here");
    if (document.activeElement !== this.field) return;
    this.shown.children[lineNumber(this.text, this.field.selectionStart)]?.classList.add("here");
  }

  /** Goes to a place of the text. */
  goTo(from) {
    this.field.focus();
    this.field.setSelectionRange(from, from);
    this.shown.children[lineNumber(this.text, from)]?.scrollIntoView({ block: "nearest" });
  }

  /** Where a place of the text stands on the sheet: left, and the bottom of its line. */
  placeOf(at) {
    const line = this.shown.children[lineNumber(this.text, at)], range = document.createRange();
    let left = at - (this.text.lastIndexOf("\n", at - 1) + 1);
    const walker = document.createTreeWalker(line, NodeFilter.SHOW_TEXT);
    let node = walker.nextNode();
    while (left > node.length && walker.nextNode()) { left -= node.length; node = walker.currentNode; }
    range.setStart(node, Math.min(left, node.length));
    const found = range.getBoundingClientRect(), sheet = this.sheet.getBoundingClientRect();
    return { left: found.left - sheet.left, top: found.bottom - sheet.top };
  }
}
