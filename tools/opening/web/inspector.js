// What is said of the router or the link that the pointer, the focus or the pin is on.

import { clickLink, clickNode, clickSession, isSilent, pin } from "./actions.js";
import { answers, askBlock } from "./answers.js";
import { by, el, put } from "./dom.js";
import { on } from "./hub.js";
import { button, chip, standingChip } from "./parts.js";
import { told } from "./read.js";
import { chosen, net } from "./state.js";
import { view } from "./views.js";

let at = null; // what the pointer or the focus was on last: its kind and its name
let isBlockOpen = false;

const viewSaid = (id) => { const said = view().told?.(id); return said ? el("p", {}, said) : null; };

function linkShown(key) {
  const ends = net.linked.get(key), session = net.session(key), isCut = chosen.cut.has(key), isMute = chosen.silent.has(key);
  return [
    el("h2", {}, ends.join(" – ")),
    el("p", {}, session ? `The session of ${session[0]} with the peer ${session[1]}` : "A link of two routers"),
    el("p", { class: "path" }, isCut ? "failed" : isMute ? "up; the peer announces nothing" : "up"),
    el("div", { class: "row" }, button(isCut ? "Bring it back" : "Fail it", () => clickLink(key)),
      session ? button(isMute ? "Let the peer announce" : "Silence the peer here", () => clickSession(key)) : null),
    viewSaid(key),
  ];
}

function stateOf(name) {
  if (net.isPeer(name)) {
    if (chosen.dead.has(name)) return "dead";
    return isSilent(name) ? "announces nothing" : "announces the prefix, if it is none of the network's own";
  }
  const standing = answers.report?.routers.get(name);
  return standing ? [standingChip(standing), " ", standing.path.join(" → ")] : "no route is known";
}

function failSaid(name) {
  if (net.isPeer(name)) return isSilent(name) ? "Let it announce" : "Silence it";
  return chosen.dead.has(name) ? "Bring it back" : "Fail it";
}

function blockShown(name) {
  const held = answers.blocks.get(name);
  const opened = (event) => { isBlockOpen = event.target.open; if (isBlockOpen) askBlock(name); };
  if (isBlockOpen && !held) askBlock(name);
  return el("details", { class: "config", open: isBlockOpen, ontoggle: opened }, el("summary", {}, "Configuration"),
    held ? el("pre", { class: "block", tabindex: "0" }, held) : el("p", {}, "…"));
}

function nodeShown(name) {
  const { asn, id } = net.sites.get(name), isPinned = chosen.pinned === name, isPeer = net.isPeer(name);
  const offers = answers.report?.sessions.filter((each) => each.peer === name || each.router === name) ?? [];
  return [
    el("h2", {}, name, " ", isPinned ? chip("origin", "pinned") : null),
    el("p", {}, `${isPeer ? "peer" : "router"} · AS ${asn} · ${id}`),
    el("p", { class: "path" }, stateOf(name)),
    offers.map((each) => el("p", {}, `offer to ${each.peer} at ${each.router}: ${told(each)}`)),
    el("div", { class: "row" }, button(failSaid(name), () => clickNode(name)),
      button(isPinned ? "Unpin" : "Pin", () => pin(name), { class: "quiet" })),
    viewSaid(name), isPeer || !answers.promises ? null : blockShown(name),
  ];
}

const NOTHING = [
  el("h2", {}, "Nothing chosen"),
  el("p", {}, "Move over a router to see its path and its configuration; Shift-click pins it. A click fails it, and brings it back.")];

function inspect() {
  const [kind, id] = at ?? (chosen.pinned ? ["node", chosen.pinned] : []);
  put(by("inspector"), kind === "link" ? linkShown(id) : kind === "node" ? nodeShown(id) : NOTHING);
}

on("show", inspect);
on("over", (kind, id) => { if (kind) { at = [kind, id]; inspect(); } });
