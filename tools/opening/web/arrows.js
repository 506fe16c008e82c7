// The arrows to next hops. Each has an id, so that one whose next hop changes turns from the old to the new one.

import { svg } from "./dom.js";

const FADE = 250, TURN = 420; // milliseconds
const isStill = () => matchMedia("(prefers-reduced-motion: reduce)").matches;
const point = (at) => at.map((each) => each.toFixed(1)).join();

export class Arrows {
  constructor(layer, picture) {
    Object.assign(this, { layer, picture, shown: new Map(), turn: 0 });
  }

  /** Shows these arrows: each with an id, from whom, to whom, its colour and its kind (offer or old). */
  point(list) {
    const left = new Map(this.shown), turning = [];
    this.shown = new Map();
    for (const each of list) {
      const arrow = left.get(each.id) ?? this.made();
      left.delete(each.id);
      if (arrow.to && arrow.to !== each.to && !isStill()) turning.push([arrow, [...(arrow.now ?? this.picture.at.get(arrow.to))]]);
      Object.assign(arrow, { id: each.id, from: each.from, to: each.to, kind: each.kind, now: null });
      arrow.line.setAttribute("class", `n-arrow ${each.kind ?? ""}`);
      arrow.line.dataset.way = `${each.from}>${each.to}`;
      arrow.line.style.stroke = arrow.head.style.fill = each.colour;
      this.shown.set(each.id, arrow);
    }
    for (const { line, head } of left.values()) { line.remove(); head.remove(); }
    this.aim();
    this.turnTo(turning);
  }

  made() {
    const arrow = { line: svg("path", { class: "n-arrow" }), head: svg("polygon", { class: "n-head" }), to: "" };
    this.layer.append(arrow.line, arrow.head);
    if (this.turn && !isStill()) for (const each of [arrow.line, arrow.head]) each.animate([{ opacity: 0 }, { opacity: 1 }], FADE);
    return arrow;
  }

  aim() { for (const arrow of this.shown.values()) this.aimOne(arrow); }

  aimOne({ line, head, from, to, now, kind }) {
    const { at, isMany } = this.picture, size = isMany ? 6 : 9;
    const begin = this.picture.edge(from, now ?? at.get(to), 1), tip = now ?? this.picture.edge(to, at.get(from), 2);
    const long = Math.hypot(tip[0] - begin[0], tip[1] - begin[1]) || 1, ux = (tip[0] - begin[0]) / long, uy = (tip[1] - begin[1]) / long;
    const aside = kind === "old" ? 6 : 0; // beside the new one
    const shifted = ([x, y], back, across) => [x - back * ux - (across + aside) * uy, y - back * uy + (across + aside) * ux];
    const tail = shifted(tip, size, 0);
    line.setAttribute("d", `M${point(shifted(begin, 0, 0))}L${point(tail)}`);
    const corners = [shifted(tip, 0, 0), shifted(tip, size, size * 0.55), shifted(tip, size, -size * 0.55)];
    head.setAttribute("points", corners.map(point).join(" "));
  }

  /** Turns arrows from where they pointed to where they point now. */
  turnTo(turning) {
    const mine = ++this.turn, begun = performance.now();
    if (!turning.length) return;
    const step = (time) => {
      const part = mine === this.turn ? Math.min(1, Math.max(0, (time - begun) / TURN)) : 1, soft = part * part * (3 - 2 * part);
      for (const [arrow, [x, y]] of turning) {
        const [toX, toY] = this.picture.at.get(arrow.to);
        arrow.now = part < 1 ? [x + (toX - x) * soft, y + (toY - y) * soft] : null;
        if (mine === this.turn) this.aimOne(arrow);
      }
      if (part < 1) requestAnimationFrame(step);
    };
    requestAnimationFrame(step);
  }

  /** Lets the arrows with these ids stand out. */
  light(ids) {
    for (const [id, { line, head }] of this.shown) for (const each of [line, head]) each.classList.toggle("on", ids.has(id));
  }
}
