// Pieces that several lists are made of.

import { pin } from "./actions.js";
import { el } from "./dom.js";
import { over } from "./hub.js";
import { told } from "./read.js";
import { isLink } from "./topology.js";

const WORST = 4; // ranks that are worse are drawn as this one

/** The form of a standing, by which it is coloured: its state, or its rank. */
export const formOf = (standing) => (standing?.state === "rank" ? `rank${Math.min(standing.rank, WORST)}` : standing?.state ?? "");

export const chip = (form, said, more = {}) => el("span", { class: `chip c-${form}`, ...more }, said);
export const wideChip = (form, said) => chip(form, said, { style: { "white-space": "normal" } });

export const standingChip = (standing) =>
  chip(formOf(standing) || "dead", standing?.state === "rank" ? `rank ${standing.rank}` : told(standing).split(",")[0]);
export const hops = (standing) => (standing?.path?.length > 1 ? standing.path.slice(1).join(" → ") : "");

export const head = (said) => el("h2", {}, said);
export const text = (...said) => el("p", { class: "text" }, ...said);
export const button = (said, onclick, more = {}) => el("button", { type: "button", onclick, ...more }, said);

/** A row of a list, about a router or a link: the picture shows which while the pointer or the focus is on it. With `glance` for `look`
 * it alone does, so that rows which do something at a click stay where they are. */
export function row(who, what, go, id, more = {}, look = over) {
  const enter = () => look(isLink(id) ? "link" : "node", id);
  return el("button", { class: "item", type: "button", ...more, onclick: go, onpointerenter: enter, onpointerleave: () => look(), onfocus: enter },
    el("span", { class: "who" }, who), el("span", { class: "what" }, what));
}

/** Several rows of which the same is to be said, as one that opens. */
const folded = (who, what, rows) => el("details", { class: "many" },
  el("summary", { class: "item" }, el("span", { class: "who" }, who), el("span", { class: "what" }, what)), rows);

/** Puts together what has the same key, in the order of the first of each. */
export function grouped(list, key) {
  const found = new Map();
  for (const each of list) {
    const of = key(each);
    if (found.has(of)) found.get(of).push(each); else found.set(of, [each]);
  }
  return [...found.values()];
}

const FEW = 3;
/** The rows of a list, where more than a few alike stand in one row that opens. */
export const foldedRows = (list, key, made, said) => grouped(list, key).flatMap((group) =>
  (group.length <= FEW ? group.map(made) : [folded(...said(group), group.map(made))]));

const changeSaid = ({ old, now }) => [
  old?.state === now?.state && old?.rank === now?.rank ? null : [standingChip(old), " → "], standingChip(now), " ", hops(now)];
const changeKey = ({ peer, old, now }) => [peer, old?.state, old?.rank, now?.state, now?.rank, hops(now)].join("|");
const changeRow = (each) =>
  row(each.peer ? `${each.peer} at ${each.name}` : each.name, changeSaid(each), () => pin(each.name), each.name);

/** The rows of what has changed. */
export const changeRows = (list) =>
  foldedRows(list, changeKey, changeRow, (group) => [`${group.length} routers`, changeSaid(group[0])]);

/** A key of a legend: its words beside its colours. */
export const legendKey = (said, fill, edge = fill) => el("span", { style: { "--k": fill, "--e": edge } }, said);
export const legendForm = (form, said) => legendKey(said, `var(--${form}-fill)`, `var(--${form})`);
