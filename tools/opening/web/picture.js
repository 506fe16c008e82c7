// The picture of the network: its shapes, its arrows, and the part of it that is seen.

import { Arrows } from "./arrows.js";
import { el, put, svg } from "./dom.js";
import { gestures } from "./gestures.js";
import { Link, Site } from "./shapes.js";
import { linkKey } from "./topology.js";
import { walkByKeys } from "./walk.js";

const MANY = 40; // names; above it boxes are smaller and have no badge
const FAR = 0.62; // below this scale names can't be read, and aren't drawn
const MARGIN = 22, FOOT = 24; // around the network, and below it for the picture's note
const NEAR_LINK = 7; // pixels; so near to a link is on it

const HELP = "The network. Arrow keys move between routers, L goes to a link of the router, Enter fails or brings back, P pins.";

export class Picture {
  /** `doing` has what is called: node, link, pin, over and placed. */
  constructor(place, net, doing) {
    Object.assign(this, { place, net, doing, at: new Map(), seen: { x: 0, y: 0, scale: 1 }, isMany: net.names.length > MANY });
    this.sites = new Map(net.names.map((name) => [name, new Site(name, net.isPeer(name), this.isMany)]));
    this.links = new Map(net.links.map((ends) => [linkKey(...ends), new Link(linkKey(...ends), ends, this.isMany)]));
    const layer = (shapes) => svg("g", {}, [...shapes].map(({ group }) => group));
    this.layers = { links: layer(this.links.values()), arrows: svg("g"), sites: layer(this.sites.values()) };
    this.root = svg("svg", { class: this.isMany ? "many" : "", role: "application", "aria-roledescription": "network", "aria-label": HELP },
      this.layers.links, this.layers.arrows, this.layers.sites);
    this.arrows = new Arrows(this.layers.arrows, this);
    this.layers.sites.firstElementChild?.setAttribute("tabindex", "0");
    put(place, this.root);
    gestures(this);
    walkByKeys(this);
  }

  box(name) { const { width, height } = this.sites.get(name); return [width, height]; }
  groupOf(kind, id) { return (kind === "node" ? this.sites : this.links).get(id)?.group; }

  // ---- places

  put(at) {
    this.at = at;
    this.move();
  }

  /** Draws all where it stands. */
  move() {
    for (const [name, site] of this.sites) site.moveTo(this.at.get(name));
    for (const link of this.links.values()) this.moveLink(link);
    this.arrows.aim();
  }

  moveLink(link) {
    const [a, b] = link.ends.map((name) => this.at.get(name)), p = this.edge(link.ends[0], b), q = this.edge(link.ends[1], a);
    link.moveTo(a, b, [(p[0] + q[0]) / 2, (p[1] + q[1]) / 2]);
  }

  /** Drags one to a place, with its links. */
  drag(name, at) {
    this.at.set(name, at);
    this.sites.get(name).moveTo(at);
    for (const key of this.net.linksOf(name)) this.moveLink(this.links.get(key));
    this.arrows.aim();
  }

  /** Where the way from the middle of a box towards a place leaves the box. */
  edge(name, [x, y], more = 3) {
    const [cx, cy] = this.at.get(name), { width, height } = this.sites.get(name), dx = x - cx, dy = y - cy;
    const part = Math.min((width / 2 + more) / Math.max(Math.abs(dx), 1e-6), (height / 2 + more) / Math.max(Math.abs(dy), 1e-6), 1);
    return [cx + dx * part, cy + dy * part];
  }

  /** The link at a place, null where none is near. */
  linkAt([x, y]) {
    let least = NEAR_LINK / this.seen.scale, found = null;
    for (const [key, { ends }] of this.links) {
      const [ax, ay] = this.at.get(ends[0]), [bx, by] = this.at.get(ends[1]), dx = bx - ax, dy = by - ay;
      const along = Math.min(1, Math.max(0, ((x - ax) * dx + (y - ay) * dy) / (dx * dx + dy * dy || 1)));
      const far = Math.hypot(x - ax - along * dx, y - ay - along * dy);
      if (far < least) { least = far; found = key; }
    }
    return found;
  }

  // ---- what is seen

  look() {
    const { x, y, scale } = this.seen;
    this.root.setAttribute("viewBox", `${x} ${y} ${this.place.clientWidth / scale} ${this.place.clientHeight / scale}`);
    this.root.classList.toggle("far", scale < FAR);
  }

  /** The place of the picture under a place of the page. */
  placeUnder(event) {
    const frame = this.root.getBoundingClientRect();
    return [this.seen.x + (event.clientX - frame.left) / this.seen.scale, this.seen.y + (event.clientY - frame.top) / this.seen.scale];
  }

  /** Shows all of it. */
  fit() {
    let low = [Infinity, Infinity], high = [-Infinity, -Infinity];
    for (const [name, at] of this.at) {
      const half = this.box(name).map((each) => each / 2);
      low = low.map((each, k) => Math.min(each, at[k] - half[k]));
      high = high.map((each, k) => Math.max(each, at[k] + half[k]));
    }
    if (!this.at.size) return;
    low = low.map((each) => each - MARGIN);
    high = [high[0] + MARGIN, high[1] + MARGIN + FOOT];
    const { clientWidth: width, clientHeight: height } = this.place;
    const scale = Math.min(width / (high[0] - low[0]), height / (high[1] - low[1]), 1.5);
    this.seen = { scale, x: (low[0] + high[0] - width / scale) / 2, y: (low[1] + high[1] - height / scale) / 2 };
    this.look();
  }

  // ---- what is shown

  /** Lets a router or a link stand out, and the arrows of a path with these ids. */
  light(kind, id, path = []) {
    for (const each of this.root.querySelectorAll(".over")) each.classList.remove("over");
    this.root.classList.toggle("dimmed", path.length > 0);
    this.arrows.light(new Set(path));
    if (kind) this.groupOf(kind, id)?.classList.add("over");
  }

  /** Gives the focus to a router or a link, and to it alone by Tab. */
  focus(kind, id) {
    for (const each of this.root.querySelectorAll('[tabindex="0"]')) each.setAttribute("tabindex", "-1");
    const group = this.groupOf(kind, id);
    group.setAttribute("tabindex", "0");
    group.focus();
  }

  /** What stands in the picture where there is nothing to show. */
  say(text) {
    const held = this.place.querySelector(".note");
    if (held?.textContent === text) return;
    held?.remove();
    if (text) this.place.append(el("div", { class: "note" }, text));
  }
}
