// The policy: its text, whether it is accepted, and what is said of it at its places.

import * as api from "./api.js";
import { answers, refresh } from "./answers.js";
import { Completion } from "./complete.js";
import { by, el, put } from "./dom.js";
import { Editor } from "./editor.js";
import { on } from "./hub.js";
import { button } from "./parts.js";
import { markPromises } from "./promises.js";
import { chosen, file, given, net } from "./state.js";
import { groupsIn } from "./tokens.js";
import { view } from "./views.js";

const PAUSE = 160; // milliseconds for further keys
const MOST_FINDINGS = 200;
const REFUSED = 1, BAD_INPUT = 3;

let timer = 0;
const editor = new Editor(by("editor"), new Set([...given.words.plain, ...given.words.calls]), { changed, moved: markPromises });

/** The text is another one: all is asked anew, once no further key comes. */
function changed(text, pause = PAUSE) {
  chosen.policy = text;
  answers.before = null;
  answers.cause = "";
  answers.why = null;
  clearTimeout(timer);
  api.stop("why");
  showEdited();
  timer = setTimeout(() => refresh(true), pause);
}

function showEdited() {
  by("edited").hidden = by("revert").hidden = chosen.policy === file.policy;
}

/** Puts another text into the field. */
export function setPolicy(text) {
  editor.text = text;
  changed(text, 0);
}
/** The same as an edit, so that undo takes it back. */
export const editPolicy = (text) => editor.replace(0, editor.text.length, text);
/** The file has become what the field has, or the other way round. */
export const followed = showEdited;

/** Shows where a statement stands. */
export const markStatement = (number) =>
  editor.mark("chosen", [answers.outline.statements.find((each) => each.number === number)]);

// ---- completion

const names = (kind, list) => list.map((name) => ({ name, kind, text: name }));

/** All that may be completed: the calls and words of the language, groups, and the locations of the network. */
const everyWord = () => [
  ...names("group", groupsIn(chosen.policy)), ...names("router", net?.routers ?? []), ...names("peer", net?.peers ?? []),
  ...given.words.calls.map((name) => ({ name, kind: "call", text: `${name}(` })), ...names("word", given.words.plain)];

new Completion(editor, everyWord);

// ---- what is said

const VERDICTS = { [REFUSED]: "refused", [BAD_INPUT]: "not a policy yet" };

function showVerdict() {
  const { fault } = answers, isTopology = /^topology /.test(fault?.error ?? "");
  by("verdict").className = `verdict ${fault ? "bad" : answers.promises ? "good" : ""}`;
  by("verdict").textContent = fault ? (isTopology ? "the topology has a fault" : VERDICTS[fault.status] ?? "no answer")
    : answers.promises ? "accepted" : "asking …";
  by("left").classList.toggle("refused", fault?.status === REFUSED);
}

function apply(number, repair) {
  const found = answers.outline.statements.find((each) => each.number === number);
  if (found) editor.replace(found.from, found.to, repair);
}

const repairShown = (part, { habit, text, costs }) => el("div", { class: "repair" },
  el("div", {}, `To ${habit}:`), el("code", {}, text), el("ul", {}, costs.map((line) => el("li", {}, line))),
  button("Apply", () => apply(part.statement, text), { class: "main apply" }));

/** What is said of one refused statement, and the repairs of it that compile. */
function refusedShown(part) {
  const { refusal, says, picture, legend } = part;
  const found = answers.why.find((each) => each.kind === "repairs" && each.statement === part.statement);
  return el("div", {},
    el("details", {}, el("summary", {}, "Why, in words, with the picture of the nodes"), el("p", {}, refusal), el("p", {}, `${part.case}.`),
      el("div", { class: "picture" }, [...says, "", ...picture, "", ...legend].join("\n"))),
    found ? [
      el("h3", {}, found.head), found.repairs.map((each) => repairShown(part, each)), el("p", { class: "count" }, found.notes.join(" "))] : null);
}

function whyShown() {
  if (answers.why === "asked") return el("p", {}, "Asking why, and trying repairs …");
  return (answers.why ?? []).map((part) => (part.kind === "refused" ? refusedShown(part)
    : part.kind === "together" ? el("p", {}, part.says.join(" ")) : null));
}

/** Names that may have been meant, each with a button that puts it into the text, where its place is in the policy. */
const nearShown = (names, place) => el("p", { class: "near" }, "Near it: ", place
  ? names.map((name) => button(name, () => editor.replace(place.from, place.to, name), { class: "near-name" })) : names.join(", "));

const OF_EXPLAIN = /^`explain`/; // what the page shows itself

function faultShown(fault) {
  const { says = [], near = [], where, page, part } = fault.words ?? {}, isRefused = fault.status === REFUSED;
  return el("div", { class: "say fault" }, fault.of ? el("p", {}, fault.of) : null, el("p", { class: "line" }, el("code", {}, fault.error)),
    [where, ...says].filter((line) => line && !OF_EXPLAIN.test(line)).map((line) => el("p", {}, line)),
    near.length ? nearShown(near, fault.place) : null,
    fault.place && !isRefused ? button("Go there", () => editor.goTo(fault.place.from)) : null, isRefused ? whyShown() : null,
    page ? el("p", { class: "count" }, `More: docs/${page}${part ? `, "${part}"` : ""}`) : null);
}

const FINDINGS = {
  "unused group": "The name is nowhere but in its define.",
  "covered statement": "Each of its prefixes is governed by an earlier statement.",
  "idle statement": "No case has it: nothing is compiled of it.",
  "unreached statement": "No permitted walk has this alternative as its rank.",
};

function findingShown({ line, place }) {
  const [first, second] = line.split(" ");
  return el("button", { class: "finding", type: "button", onclick: () => place && editor.goTo(place.from) },
    el("b", {}, line), ` ${FINDINGS[`${first} ${second}`] ?? ""}`);
}

let shown = []; // the answers that are shown

function showPolicy() {
  const { findings, why } = answers, fault = answers.fault ?? view().fault?.(), now = [fault, findings, why];
  showVerdict();
  if (now.every((each, k) => each === shown[k])) return;
  shown = now;
  const placeOf = (each) => (each?.policy === chosen.policy ? each.place : null); // places of an earlier text mean nothing
  editor.mark("fault", [placeOf(fault)]);
  editor.mark("lint", findings.map(placeOf));
  put(by("says"), fault ? faultShown(fault) : null,
    findings.length ? el("div", { class: "say lint" }, findings.slice(0, MOST_FINDINGS).map(findingShown)) : null);
}

on("show", showPolicy);
by("revert").addEventListener("click", () => editPolicy(file.policy));
