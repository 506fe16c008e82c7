// The view of where packets go, if routers spread them over all neighbours whose routes tie with their own.

import * as api from "./api.js";
import { pin } from "./actions.js";
import { askReport } from "./answers.js";
import { many } from "./dom.js";
import { show } from "./hub.js";
import { head, legendKey, row, standingChip, text } from "./parts.js";
import { spreadOf } from "./read.js";
import { scenario } from "./state.js";

/** What `multipath` says, and null where it says nothing. */
const held = { spread: null };

async function askSpread(policy) {
  const said = await api.ask("multipath", policy, scenario(), "spread");
  if (!said) return;
  held.spread = said.status === 0 ? spreadOf(said.output) : null;
  show();
}

const nextSaid = (sends) => [standingChip(sends), sends.next.length ? ` ${sends.next.join(", ")}` : ""];

function list() {
  if (!held.spread) return [];
  const several = [...held.spread.routers.values()].filter(({ next }) => next.length > 1).length;
  return [
    head("Next hops"), text(`${many(several, "router has", "routers have")} several. ${held.spread.last}: links over which no packet goes.`),
    [...held.spread.routers].map(([name, sends]) => row(name, nextSaid(sends), () => pin(name), name))];
}

/** To which neighbours a router sends packets, in a sentence. */
function told(id) {
  const sends = held.spread?.routers.get(id);
  if (held.spread?.idle.has(id)) return "No packet goes over it.";
  if (!sends?.next.length) return "";
  return `Its packets go to ${sends.next.join(", ")}, and have ${many(sends.hops, "hop")} in all.`;
}

export const spread = {
  name: "spread",
  said: "Spread",
  held,
  asks: (policy) => [askReport(policy), askSpread(policy)],
  forget: () => { held.spread = null; },
  changes: () => [],
  paint: () => ({ spread: held.spread, free: held.spread?.idle }),
  list, told,
  legend: () => [legendKey("no packet goes over it", "var(--node)", "var(--free)")],
};
