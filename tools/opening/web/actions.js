// What a click does: failures, or events where the view lets BGP run.

import { answers, refresh } from "./answers.js";
import { by } from "./dom.js";
import { show } from "./hub.js";
import { chosen, clear, keep, net, note, takeBack } from "./state.js";
import { isLink } from "./topology.js";

const isStepped = () => chosen.view === "steps";

/** Says what has happened, and asks what follows. */
function after(cause) {
  answers.cause = cause;
  by("live").textContent = cause;
  refresh(false);
}

const EVENTS = {
  deliver: (a, b) => `${a} → ${b} delivered`,
  link_down: (a, b) => `link ${a}–${b} went down`,
  link_up: (a, b) => `link ${a}–${b} came up`,
  router_down: (a) => `${a} went down`,
  router_up: (a) => `${a} came up`,
  peer_silent: (a, b) => `${b} fell silent at ${a}`,
  peer_speak: (a, b) => `${b} speaks at ${a}`,
};
export const eventTold = ([word, ...names]) => EVENTS[word]?.(...names) ?? word;

/** Events that happen, one after another. */
export function happen(...events) {
  note();
  chosen.events = [...chosen.events, ...events];
  chosen.rest = false;
  after(events.length === 1 ? eventTold(events[0]) : `${events.length} at once`);
}

/** Runs BGP to rest behind the events. */
export function runToRest() {
  note();
  chosen.rest = true;
  after("run to rest");
}

export function beginAgain() {
  note();
  chosen.events = [];
  chosen.rest = false;
  after("from the beginning");
}

export function undo() {
  if (takeBack()) after("undone");
}

export function bringAllBack() {
  note();
  clear();
  after("all is back");
}

/** Fails what has this name, or brings it back. */
function toggle(set, id, name) {
  note();
  const isBack = set.delete(id);
  if (!isBack) set.add(id);
  after(`${name} ${isBack ? "is back" : "failed"}`);
}

export function clickLink(key) {
  const ends = net.linked.get(key);
  if (isStepped()) happen([chosen.cut.has(key) ? "link_up" : "link_down", ...ends]);
  else toggle(chosen.cut, key, ends.join("–"));
}

export function clickNode(name) {
  if (net.isPeer(name)) clickPeer(name);
  else if (isStepped()) happen([chosen.dead.has(name) ? "router_up" : "router_down", name]);
  else toggle(chosen.dead, name, name);
}

/** Whether a peer announces nothing anywhere. */
export const isSilent = (peer) => net.linksOf(peer).length > 0 && net.linksOf(peer).every((key) => chosen.silent.has(key));

/** A peer falls silent everywhere, or speaks again. */
function clickPeer(name) {
  const wasSilent = isSilent(name), keys = net.linksOf(name).filter((key) => chosen.silent.has(key) === wasSilent);
  if (isStepped()) {
    happen(...keys.map((key) => [wasSilent ? "peer_speak" : "peer_silent", ...net.session(key)]));
    return;
  }
  note();
  for (const key of keys) if (!chosen.silent.delete(key)) chosen.silent.add(key);
  after(`${name} ${wasSilent ? "announces again" : "announces nothing"}`);
}

/** A peer falls silent over one session, or speaks again. */
export function clickSession(key) {
  const [router, peer] = net.session(key), wasSilent = chosen.silent.has(key);
  if (isStepped()) {
    happen([wasSilent ? "peer_speak" : "peer_silent", router, peer]);
    return;
  }
  note();
  if (!chosen.silent.delete(key)) chosen.silent.add(key);
  after(`${peer} ${wasSilent ? "announces again to" : "announces nothing to"} ${router}`);
}

export const clickOn = (id) => (isLink(id) ? clickLink(id) : clickNode(id));

export function pin(name) {
  chosen.pinned = chosen.pinned === name ? "" : name;
  keep(chosen.policy);
  show();
}
