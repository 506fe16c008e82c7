// The picture as a file of its own: a copy with its colours in it.

import { svg } from "./dom.js";

const PLACES = ["x", "y", "x1", "y1", "x2", "y2", "width", "height", "rx", "d", "points", "transform"];
const LOOKS = ["fill", "stroke", "stroke-width", "stroke-dasharray", "opacity", "font-family", "font-size", "font-weight",
  "text-anchor", "dominant-baseline", "paint-order", "text-decoration"];

function copied(shape) {
  const copy = svg(shape.tagName), style = getComputedStyle(shape);
  for (const name of PLACES) if (shape.hasAttribute(name)) copy.setAttribute(name, shape.getAttribute(name));
  if (shape.tagName !== "g") for (const name of LOOKS) copy.setAttribute(name, style.getPropertyValue(name));
  if (shape.tagName === "text") copy.textContent = shape.textContent;
  else for (const inside of shape.children) if (getComputedStyle(inside).display !== "none") copy.append(copied(inside));
  return copy;
}

export function svgText({ root, place, layers }) {
  const { x, y, width, height } = root.viewBox.baseVal;
  const ground = svg("rect", { x, y, width, height, fill: getComputedStyle(place).backgroundColor });
  const whole = svg("svg", { viewBox: `${x} ${y} ${width} ${height}`, width: place.clientWidth, height: place.clientHeight },
    ground, Object.values(layers).map(copied));
  return new XMLSerializer().serializeToString(whole);
}
