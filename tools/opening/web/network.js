// The network as the view shows it: the picture, its legend, and the list beside it.

import { clickLink, clickNode, isSilent, pin } from "./actions.js";
import { answers } from "./answers.js";
import { by, el, put } from "./dom.js";
import { svgText } from "./drawn.js";
import { on, over } from "./hub.js";
import { placed } from "./layout.js";
import { formOf, legendForm } from "./parts.js";
import { Picture } from "./picture.js";
import { sameStanding } from "./read.js";
import { spoken } from "./routes.js";
import { chosen, given, keep, net } from "./state.js";
import { linkKey } from "./topology.js";
import { view, VIEWS } from "./views.js";

const LEAVING = 60; // milliseconds until what the pointer has left is no more lit
let picture = null, leaving = 0;

// ---- arrows

const arrow = (id, from, standing, kind, to = standing.path[1]) =>
  ({ id, from, to, kind, colour: kind === "old" ? "var(--faint)" : `var(--${formOf(standing)})` });
const offerId = ({ peer, router }) => `${peer} at ${router}`;
const leads = (standing) => standing?.path?.length > 1;

const wayId = (from, to) => `${from} to ${to}`;

/** Arrows to all next hops of routers that spread packets, and from peers that are offered a path. */
const spreadArrows = ({ routers, sessions }) => [
  ...[...routers].flatMap(([name, sends]) => sends.next.map((next) => arrow(wayId(name, next), name, sends, "", next))),
  ...sessions.filter(({ hops }) => hops).map((each) => arrow(wayId(each.peer, each.router), each.peer, each, "offer", each.router)),
];

/** Arrows along a walk, which may come to a router twice. */
const walkArrows = ({ steps, colour }) =>
  steps.slice(1).map((to, at) => ({ id: `step ${at + 1}`, from: steps[at], to, kind: "walk", colour }));

/** Arrows to next hops, those of the old report where they differ, and what peers are offered; or a walk in the place of all. */
function arrowsOf({ old, spread, walk }) {
  const { report } = answers;
  if (walk) return walkArrows(walk);
  if (!report || view().hasNoArrows) return [];
  if (spread) return spreadArrows(spread);
  const isOther = ([name, standing]) => leads(standing) && !sameStanding(standing, report.routers.get(name));
  return [
    ...[...(old?.routers ?? [])].filter(isOther).map(([name, standing]) => arrow(`old ${name}`, name, standing, "old")),
    ...[...report.routers].filter(([, standing]) => leads(standing)).map(([name, standing]) => arrow(name, name, standing)),
    ...report.sessions.filter(leads).map((each) => arrow(offerId(each), each.peer, each, "offer")),
  ];
}

/** The arrows along which packets of a router or a peer can go where routers spread them. */
function waysOf(name, { routers, sessions }) {
  const found = new Set(), seen = new Set([name]);
  const begin = routers.get(name)?.next ?? sessions.filter((each) => each.peer === name && each.hops).map(({ router }) => router);
  const wait = begin.map((next) => [name, next]);
  while (wait.length) {
    const [from, to] = wait.pop();
    found.add(wayId(from, to));
    if (!seen.has(to)) wait.push(...(routers.get(to)?.next ?? []).map((next) => [to, next]));
    seen.add(to);
  }
  return [...found];
}

/** The arrows along which a router's packets go, or those of a peer to which routes are offered. */
function pathOf(name) {
  const along = (path, first) => path.slice(0, -1).map((each, k) => (k ? each : first));
  if (!answers.report || view().hasNoArrows) return [];
  const { spread, walk } = view().paint();
  if (walk) return [];
  if (spread) return waysOf(name, spread);
  const standing = answers.report.routers.get(name);
  if (standing) return along(standing.path, name);
  return answers.report.sessions.filter((each) => each.peer === name && leads(each)).flatMap((each) => along(each.path, offerId(each)));
}

// ---- shapes

function showSites(changed, { heat, count, free, loads }) {
  const names = new Set(loads ? [] : changed.map(({ name }) => name)), hasRoutes = !view().hasNoArrows;
  for (const [name, site] of picture.sites) {
    site.show({
      standing: answers.report?.routers.get(name), isDead: chosen.dead.has(name), isMute: net.isPeer(name) && isSilent(name),
      isChanged: names.has(name), isPinned: chosen.pinned === name, loads: loads?.has(name),
      heat: heat?.get(name), isFree: free?.has(name), count: count?.get(name), hasRoutes,
    });
  }
}

const SIGNS = { right: "▸▹", left: "◂◃", down: "▾▿", up: "▴▵" }; // the second of each where the first message withdraws a route

/** A sign for messages that wait in a direction of a link, with how many. */
function waitingSign({ from, to, messages }) {
  const [x, y] = picture.at.get(from), [u, v] = picture.at.get(to);
  const way = Math.abs(u - x) > Math.abs(v - y) ? (u > x ? "right" : "left") : v > y ? "down" : "up";
  return `${SIGNS[way][messages[0] ? 0 : 1]}${messages.length > 1 ? messages.length : ""}`;
}

function showLinks({ heat, count, free, waiting = [] }) {
  const signs = new Map();
  for (const each of waiting) {
    const key = linkKey(each.from, each.to);
    signs.set(key, `${signs.get(key) ?? ""}${waitingSign(each)}`);
  }
  for (const [key, link] of picture.links) {
    link.show({
      isCut: chosen.cut.has(key), isOff: link.ends.some((name) => chosen.dead.has(name)), isMute: chosen.silent.has(key),
      heat: heat?.get(key), isFree: free?.has(key), count: count?.get(key), waiting: signs.get(key),
    });
  }
}

// ---- legend and list

function legend() {
  const own = view().legend?.() ?? [];
  if (view().hasNoArrows) return own;
  const present = new Set([...(answers.report?.routers.values() ?? [])].map(formOf));
  return [given.forms.filter(({ name }) => present.has(name)).map(({ name, said }) => legendForm(name, said)),
    answers.report?.sessions.length ? el("b", { class: "sign" }, "- - ▸ offered to a peer") : null, own];
}

function showList(changed) {
  const place = by("view"), top = place.scrollTop, focused = place.contains(document.activeElement) && document.activeElement.id;
  put(place, view().list(changed));
  place.scrollTop = top;
  if (focused) by(focused)?.focus({ preventScroll: true });
  if (changed.length && answers.cause) by("live").textContent = spoken(changed);
}

const classSaid = ({ class: found }) => (found === "none" ? "no class: nothing is compiled for it" : `class ${found}`);

function showBar() {
  by("class").textContent = answers.report ? classSaid(answers.report) : "";
  for (const each of by("modes").children) each.setAttribute("aria-pressed", String(each.dataset.mode === chosen.view));
  if (document.activeElement !== by("prefix")) by("prefix").value = chosen.prefix;
  by("prefix").setAttribute("aria-invalid", String(!answers.isPrefix));
}

function showNetwork() {
  showBar();
  if (!picture) return;
  const changed = view().changes(), painted = view().paint();
  showSites(changed, painted);
  showLinks(painted);
  picture.arrows.point(arrowsOf(painted));
  picture.say(answers.report || painted.walk ? "" : answers.note);
  put(by("legend"), legend());
  showList(changed);
}

function light(kind, id) {
  clearTimeout(leaving);
  if (kind) picture?.light(kind, id, kind === "node" ? pathOf(id) : []);
  else if (chosen.pinned) leaving = setTimeout(() => light("node", chosen.pinned), LEAVING);
  else leaving = setTimeout(() => picture?.light(), LEAVING);
}

/** Drops what views keep of another prefix. */
export const forgetViews = () => VIEWS.forEach((each) => each.forget?.());
export const fit = () => picture?.fit();
export const saved = () => svgText(picture);

function begin() {
  const place = by("network");
  if (!net) {
    put(place, el("div", { class: "note" }, "The topology can't be drawn: it is no JSON of a network."));
    return;
  }
  const moved = (name, at) => { chosen.moved[name] = at.map(Math.round); keep(chosen.policy); };
  picture = new Picture(place, net, { node: clickNode, link: clickLink, pin, over, placed: moved });
  const at = placed(net, place.clientWidth, place.clientHeight, (name) => picture.box(name));
  for (const [name, to] of Object.entries(chosen.moved)) at.set(name, [...to]);
  picture.put(at);
  fit();
  new ResizeObserver(fit).observe(place);
}

on("show", showNetwork);
on("over", light);
on("glance", light);
export { begin as drawNetwork };
