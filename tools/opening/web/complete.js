// Completion of names and calls in the policy: a list below the cursor while a name is being written.

import { by, el, put } from "./dom.js";
import { begunAt } from "./tokens.js";

const MOST = 8;

/** The words that go on from what is begun, those with the same capitals first. */
function completions(begun, words) {
  const wanted = begun.toLowerCase(), fits = words.filter(({ name }) => name.toLowerCase().startsWith(wanted));
  if (fits.some(({ name }) => name === begun)) return [];
  return [...fits.filter(({ name }) => name.startsWith(begun)), ...fits.filter(({ name }) => !name.startsWith(begun))].slice(0, MOST);
}

/** Completes in an editor. `words` gives all words, each with its kind and with what is put in its place. */
export class Completion {
  constructor(editor, words) {
    Object.assign(this, { editor, words, found: [], at: 0, begun: null, isChosen: false });
    this.list = el("ul", { class: "completions", id: "completions", role: "listbox", "aria-label": "Completions", hidden: true });
    editor.sheet.append(this.list);
    const { field } = editor;
    for (const [name, value] of [["aria-autocomplete", "list"], ["aria-controls", "completions"], ["aria-haspopup", "listbox"]]) {
      field.setAttribute(name, value);
    }
    field.addEventListener("input", (event) => { if (event.inputType?.startsWith("insertText")) this.open(); else this.close(); });
    field.addEventListener("keydown", (event) => { if (this.key(event)) event.preventDefault(); });
    field.addEventListener("blur", () => this.close());
    field.addEventListener("pointerdown", () => this.close());
  }

  get isOpen() { return !this.list.hidden; }

  /** Opens the list where a name is begun that goes on. */
  open() {
    this.begun = begunAt(this.editor.text, this.editor.field.selectionStart);
    this.found = this.begun ? completions(this.begun.name, this.words()) : [];
    if (!this.found.length) { this.close(); return; }
    const place = this.editor.placeOf(this.begun.from);
    this.list.style.left = `${place.left}px`;
    this.list.style.top = `${place.top}px`;
    this.list.hidden = false;
    this.choose(0);
    this.isChosen = false;
    by("live").textContent = `${this.found.length} completions: ${this.found.map(({ name }) => name).join(", ")}`;
  }

  close() {
    this.list.hidden = true;
    this.editor.field.removeAttribute("aria-activedescendant");
  }

  choose(at) {
    this.at = (at + this.found.length) % this.found.length;
    put(this.list, this.found.map(({ name, kind }, k) => el("li", {
      role: "option", id: `completion${k}`, "aria-selected": String(k === this.at),
      onpointerdown: (event) => { event.preventDefault(); this.at = k; this.take(); },
    }, el("span", {}, name), el("small", {}, kind))));
    this.editor.field.setAttribute("aria-activedescendant", `completion${this.at}`);
    this.isChosen = true;
  }

  /** Puts the chosen word in the place of what is begun. */
  take() {
    const { from, name } = this.begun, { text } = this.found[this.at];
    this.close();
    this.editor.replace(from, from + name.length, text);
    this.close();
  }

  /** What a key does; whether it does anything. Enter ends the line where no completion was chosen by hand. */
  key(event) {
    if (event.key === "Escape") {
      if (this.isOpen) this.close(); else this.editor.field.blur(); // the way out for keys
      return true;
    }
    if (event.key === " " && event.ctrlKey) { this.open(); return true; }
    if (!this.isOpen || event.ctrlKey || event.metaKey || event.altKey) return false;
    if (event.key === "ArrowDown") this.choose(this.isChosen ? this.at + 1 : 0);
    else if (event.key === "ArrowUp") this.choose(this.at - 1);
    else if ((event.key === "Tab" && !event.shiftKey) || (event.key === "Enter" && this.isChosen)) this.take();
    else return false;
    return true;
  }
}
