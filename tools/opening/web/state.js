// What is chosen. It stands in the address, so that a link makes the same view again.

import * as api from "./api.js";
import { topologyOf } from "./topology.js";

/** What the server has told at the start: the topology, the policy as its file has it, and what may be done. */
export const given = await api.start();
export const net = topologyOf(given.topology);

export const chosen = {
  prefix: "", view: "routes", theme: "", pinned: "",
  dead: new Set(), cut: new Set(), silent: new Set(), // locations; links; sessions, by their links
  stage: "one", // of a change
  events: [], rest: false, // the events that have happened, and whether BGP was run to rest behind them
  moved: {}, // where routers were dragged
};

/** The policy as its file has it, as far as this page has seen it: `seen` stands for that text, `policy` is what was taken of it. */
export const file = { seen: given.seen, policy: given.policy };
/** The policy that the network runs, as far as the page can know: as the file had it when the page was begun, or when it was last saved. */
export const running = { policy: given.runs };

// ---- the address

function packed(value) {
  const bytes = new TextEncoder().encode(JSON.stringify(value));
  const letters = btoa(Array.from(bytes, (byte) => String.fromCharCode(byte)).join(""));
  return letters.replaceAll("+", "-").replaceAll("/", "_").replaceAll("=", "");
}

function unpacked(text) {
  try {
    const letters = atob(text.replaceAll("-", "+").replaceAll("_", "/"));
    return JSON.parse(new TextDecoder().decode(Uint8Array.from(letters, (letter) => letter.charCodeAt(0)))) ?? {};
  } catch { return {}; }
}

export const STAGES = ["old", "one", "two", "new"];
const isEmpty = (value) => !value || (typeof value === "object" && !Object.keys(value).length);

/** Writes what is chosen into the address; the policy goes with it where it isn't the file's. */
export function keep(policy) {
  const value = {
    p: chosen.prefix, m: chosen.view, d: [...chosen.dead], c: [...chosen.cut], s: [...chosen.silent], e: chosen.events,
    x: chosen.moved, q: chosen.pinned, h: chosen.theme, g: chosen.stage === "one" ? "" : chosen.stage, t: policy === file.policy ? "" : policy,
  };
  for (const key of Object.keys(value)) if (isEmpty(value[key])) delete value[key];
  history.replaceState(null, "", `#${packed(value)}`);
}

const texts = (value) => (Array.isArray(value) ? value : []).filter((each) => typeof each === "string");
const word = (value) => (typeof value === "string" ? value : "");
const isPlace = (value) => Array.isArray(value) && value.length === 2 && value.every(Number.isFinite);
const isEvent = (value) => Array.isArray(value) && value.every((each) => typeof each === "string");

/** Takes what the address has, as far as it fits this network, and gives the policy's text. Addresses are made by hand, too. */
export function restore(views) {
  const held = unpacked(location.hash.slice(1));
  chosen.prefix = word(held.p);
  chosen.view = views.includes(held.m) ? held.m : views[0];
  chosen.dead = new Set(texts(held.d).filter((name) => net?.sites.has(name)));
  chosen.cut = new Set(texts(held.c).filter((key) => net?.linked.has(key)));
  chosen.silent = new Set(texts(held.s).filter((key) => net?.linked.has(key)));
  chosen.events = (Array.isArray(held.e) ? held.e : []).filter(isEvent);
  for (const [name, at] of Object.entries(held.x ?? {})) if (net?.sites.has(name) && isPlace(at)) chosen.moved[name] = at;
  chosen.pinned = net?.sites.has(held.q) ? held.q : "";
  if (STAGES.includes(held.g)) chosen.stage = held.g;
  chosen.theme = ["dark", "light"].includes(held.h) ? held.h : "";
  return word(held.t) || given.policy;
}

// ---- the texts that stand for it

const pairs = (keys) => [...keys].map((key) => net.session(key) ?? net.linked.get(key));

/** The failures as a scenario of the program. */
export const scenario = () => JSON.stringify({
  prefix: chosen.prefix, dead: [...chosen.dead], dead_links: pairs(chosen.cut), silent: pairs(chosen.silent),
});
/** Events as a text of the program. */
export const eventText = (events) => JSON.stringify({ prefix: chosen.prefix, events });

// ---- taking back

const MOST_KEPT = 200;
let steps = [];

/** Keeps the failures and events, so that the next change can be taken back. */
export function note() {
  steps.push({
    dead: new Set(chosen.dead), cut: new Set(chosen.cut), silent: new Set(chosen.silent), events: chosen.events, rest: chosen.rest,
  });
  if (steps.length > MOST_KEPT) steps.shift();
}
/** Takes the last change back; whether there was one. */
export function takeBack() {
  const held = steps.pop();
  if (held) Object.assign(chosen, held);
  return !!held;
}
export const canTakeBack = () => steps.length > 0;
export const forget = () => { steps = []; };

/** All is up. */
export function clear() {
  chosen.dead = new Set();
  chosen.cut = new Set();
  chosen.silent = new Set();
}
