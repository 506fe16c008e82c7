// Places routers and peers: in layers where the network has them, else by distances; then boxes off each other and off links.

import { layered, layersOf } from "./layers.js";
import { stressed } from "./stress.js";

const BETWEEN = 14, MOST_OFF_LINKS = 60;
const ROOM = 2600; // square pixels for each router, where they are many

/** Moves boxes apart that would cover each other. */
function apart(place, box) {
  const at = [...place.values()], size = [...place.keys()].map(box);
  for (let turn = 0, moved = true; moved && turn < 80; turn++) {
    moved = false;
    for (let k = 0; k < at.length; k++) {
      for (let m = k + 1; m < at.length; m++) {
        const p = at[k], q = at[m], wx = (size[k][0] + size[m][0]) / 2 + BETWEEN, wy = (size[k][1] + size[m][1]) / 2 + BETWEEN;
        const dx = q[0] - p[0], dy = q[1] - p[1];
        if (Math.abs(dx) >= wx || Math.abs(dy) >= wy) continue;
        moved = true;
        const axis = (wx - Math.abs(dx)) / wx < (wy - Math.abs(dy)) / wy ? 0 : 1;
        const step = (((axis ? wy : wx) - Math.abs(axis ? dy : dx)) / 2 + 0.1) * ((axis ? dy : dx) < 0 ? -1 : 1);
        p[axis] -= step;
        q[axis] += step;
      }
    }
  }
}

/** How a box has to move off a link that isn't its own; null where it is off it. */
function awayFrom([px, py], [ux, uy], [vx, vy], [w, h]) {
  const dx = vx - ux, dy = vy - uy, long = Math.hypot(dx, dy) || 1, along = ((px - ux) * dx + (py - uy) * dy) / (long * long);
  const side = ((px - ux) * dy - (py - uy) * dx) / long, wish = (w * Math.abs(dy) + h * Math.abs(dx)) / long / 2 + 9;
  if (along < 0.05 || along > 0.95 || Math.abs(side) >= wish) return null;
  const step = Math.min(6, wish - Math.abs(side) + 0.2) * (side < 0 ? -1 : 1);
  return [(step * dy) / long, (-step * dx) / long];
}

/** Moves boxes off links that aren't theirs. */
function offLinks(net, place, box) {
  for (let turn = 0, moved = true; moved && turn < 40; turn++) {
    moved = false;
    for (const [name, at] of place) {
      for (const [a, b] of net.links) {
        const step = name === a || name === b ? null : awayFrom(at, place.get(a), place.get(b), box(name));
        if (!step) continue;
        moved = true;
        at[0] += step[0];
        at[1] += step[1];
      }
    }
  }
}

/** The place of each location. Many get more room than the frame has: the picture is then fitted into it. */
export function placed(net, width, height, box) {
  const larger = Math.max(1, Math.sqrt((net.names.length * ROOM) / (width * height)));
  const layers = layersOf(net), room = [width * larger, height * larger];
  const place = layers ? layered(net, layers, ...room) : stressed(net, ...room);
  apart(place, box);
  if (!layers && net.names.length <= MOST_OFF_LINKS) {
    offLinks(net, place, box);
    apart(place, box);
  }
  return place;
}
