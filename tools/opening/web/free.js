// The view of what carries nothing, and may be taken out of service.

import * as api from "./api.js";
import { clickOn } from "./actions.js";
import { askReport } from "./answers.js";
import { show } from "./hub.js";
import { head, legendKey, row, text } from "./parts.js";
import { freeOf } from "./read.js";
import { net, scenario } from "./state.js";
import { isLink } from "./topology.js";

const MOST_ROWS = 400;
/** What `drain` says, and null where it says nothing. */
const held = { free: null };

async function askFree(policy) {
  const said = await api.ask("drain", policy, scenario(), "free");
  if (!said) return;
  held.free = said.status === 0 ? freeOf(said.output) : null;
  show();
}

const freeRow = (id) => row(net.linked.get(id)?.join("–") ?? id, isLink(id) ? "link" : "router", () => clickOn(id), id);

export const free = {
  name: "free",
  said: "Free",
  held,
  asks: (policy) => [askReport(policy), askFree(policy)],
  forget: () => { held.free = null; },
  changes: () => [],
  hasNoArrows: true,
  paint: () => ({ free: held.free?.free ?? new Set() }),
  list: () => (held.free ? [
    head("Carries nothing now"), text(`${held.free.last}: each may fail by itself without effect on others, for this prefix.`),
    [...held.free.free].slice(0, MOST_ROWS).map(freeRow)] : []),
  told: (id) => (held.free ? (held.free.free.has(id) ? "It carries nothing now." : "It is in use.") : ""),
  legend: () => [
    legendKey("carries nothing now", "var(--good-fill)", "var(--free)"), legendKey("in use", "var(--node)", "var(--node-edge)")],
};
