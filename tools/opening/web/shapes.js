// The shapes of routers, peers and links, and how they look. A shape is changed only where it looks otherwise than before: of thousands
// of links a click changes a few.

import { svg } from "./dom.js";
import { formOf } from "./parts.js";
import { told } from "./read.js";

const warmth = (heat) => `color-mix(in oklab, var(--heat0), var(--heat1) ${Math.round(100 * heat)}%)`;
const HOT = 0.55; // above it names are light
const SIGNS = { origin: "●", none: "✕", transit: "·" };

/** A router or a peer. */
export class Site {
  constructor(name, isPeer, isMany) {
    Object.assign(this, { name, isPeer, isMany, look: "" });
    const letters = name.length;
    this.width = isMany ? Math.max(30, 7 * letters + 12) : Math.max(46, 8.6 * letters + (isPeer ? 20 : 40));
    this.height = isMany ? 20 : 28;
    const { width, height } = this;
    this.halo = svg("rect", { class: "halo", x: -width / 2 - 5, y: -height / 2 - 5, width: width + 10, height: height + 10, rx: 12 });
    this.body = svg("rect", { class: "body", x: -width / 2, y: -height / 2, width, height, rx: isPeer ? 3 : isMany ? 6 : 9 });
    this.badge = svg("rect", { class: "badge", rx: 7, height: 16, width: 18, y: -8, x: width / 2 - 23 });
    this.rank = svg("text", { class: "rank", x: width / 2 - 14 });
    this.text = svg("text", { class: "name" }, name);
    this.group = svg("g", { "data-node": name, role: "button", tabindex: "-1" }, this.halo, this.body,
      isMany || isPeer ? null : [this.badge, this.rank], this.text);
  }

  /** Shows how it stands; where the view has no routes, by its heat or whether it is free. `standing` is null for a peer. */
  show({ standing, isDead, isMute, isChanged, isPinned, loads, heat, isFree, count, hasRoutes }) {
    const form = isDead ? "dead" : hasRoutes && !this.isPeer ? formOf(standing) : "";
    const label = !hasRoutes ? count ?? "" : form.startsWith("rank") ? String(standing.rank) : SIGNS[form] ?? "";
    const classes = ["g-node", this.isPeer && "peer", isDead && "dead", isMute && "mute", isChanged && "changed", isPinned && "pinned",
      loads && "loads", heat > HOT && "hot"].filter(Boolean).join(" ");
    const loading = loads ? ", has something to load" : "";
    const said = this.isPeer ? `Peer ${this.name}${isDead ? ", dead" : isMute ? ", announces nothing" : ""}`
      : `Router ${this.name}, ${isDead ? "dead" : told(standing)}${loading}`;
    const fill = heat !== undefined ? warmth(heat) : isFree ? "var(--good-fill)" : form ? `var(--${form}-fill)` : "";
    const edge = heat !== undefined ? "var(--heat1)" : isFree ? "var(--free)" : form ? `var(--${form})` : "";
    const look = [form, label, classes, said, fill, edge].join("|");
    if (look === this.look) return;
    this.look = look;
    this.group.setAttribute("class", classes);
    this.group.setAttribute("aria-label", said);
    this.body.style.fill = fill;
    this.body.style.stroke = edge;
    this.showBadge(this.isMany || this.isPeer ? "" : label, heat !== undefined ? "var(--ink)" : edge);
  }

  showBadge(label, colour) {
    this.badge.style.display = label ? "" : "none";
    this.badge.style.fill = colour;
    this.rank.textContent = label;
    this.text.setAttribute("x", label ? -11 : 0);
  }

  moveTo([x, y]) { this.group.setAttribute("transform", `translate(${x.toFixed(1)} ${y.toFixed(1)})`); }
}

/** A link. Its mark (✕, or that the peer is silent) and its number are made where there is one. */
export class Link {
  constructor(key, ends, isMany) {
    Object.assign(this, { key, ends, isMany, look: "", at: [0, 0], texts: {} });
    this.line = svg("line", { class: "n-link" });
    this.group = svg("g", { "data-link": key, role: "button", tabindex: "-1" }, this.line);
  }

  show({ isCut, isOff, isMute, heat, isFree, count, waiting }) {
    const warm = isCut ? undefined : heat;
    const classes = ["g-link", isCut ? "gone" : isOff ? "off" : isMute && "mute", waiting && "waiting"].filter(Boolean).join(" ");
    const said = isCut ? "failed" : isOff ? "its end is dead" : isMute ? "the peer is silent" : "up";
    const mark = isCut ? "✕" : isMute && !isOff ? "silent" : "";
    const number = isCut || isMute ? "" : waiting ?? (this.isMany ? "" : count ?? "");
    const stroke = warm !== undefined ? warmth(warm) : isFree ? "var(--free)" : "";
    const width = warm !== undefined ? (this.isMany ? 1.2 + 1.6 * warm : 3 + 4 * warm) : isFree ? (this.isMany ? 1.6 : 3.5) : "";
    const look = [classes, said, mark, number, stroke, width].join("|");
    if (look === this.look) return;
    this.look = look;
    this.group.setAttribute("class", classes);
    this.group.setAttribute("aria-label", `Link ${this.ends.join(" to ")}, ${said}`);
    Object.assign(this.line.style, { stroke, strokeWidth: String(width), opacity: stroke ? "1" : "" });
    this.showText("mark", mark);
    this.showText("count", number);
  }

  showText(kind, said) {
    if (said && !this.texts[kind]) {
      this.texts[kind] = svg("text", { class: `n-${kind}`, x: this.at[0], y: this.at[1] });
      this.group.append(this.texts[kind]);
    }
    if (this.texts[kind]) this.texts[kind].textContent = said;
  }

  /** Draws it from one place to another; `middle` is that of what is seen of it. */
  moveTo(a, b, middle) {
    for (const [name, value] of [["x1", a[0]], ["y1", a[1]], ["x2", b[0]], ["y2", b[1]]]) this.line.setAttribute(name, value.toFixed(1));
    this.at = middle.map((each) => each.toFixed(1));
    for (const text of Object.values(this.texts)) { text.setAttribute("x", this.at[0]); text.setAttribute("y", this.at[1]); }
  }
}
