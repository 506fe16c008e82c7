// The view of what one more failure would change, as a heat map.

import * as api from "./api.js";
import { clickOn } from "./actions.js";
import { askReport } from "./answers.js";
import { many, some } from "./dom.js";
import { show } from "./hub.js";
import { foldedRows, head, legendKey, row, text, wideChip } from "./parts.js";
import { cutsOf } from "./read.js";
import { scenario } from "./state.js";

const MOST_NAMED = 5;
/** What `whatif` says, and null where it says nothing. */
const held = { whatif: null };

async function askCuts(policy) {
  const said = await api.ask("whatif", policy, scenario(), "whatif");
  if (!said) return;
  held.whatif = said.status === 0 ? cutsOf(said.output) : null;
  show();
}

/** Whether a cut changes a route or a rank of others than the router that is cut. */
const matters = (cut) => cut.moves + cut.lost.length + cut.worse.length > 0;
const weight = (cut) => cut.moves + 3 * cut.lost.length;
const worst = (one, other) => other.lost.length - one.lost.length
  || other.moves + other.worse.length - one.moves - one.worse.length;

const lostSaid = (lost) => wideChip("none", `${some(lost, 4)} ${lost.length > 1 ? "lose" : "loses"} every path`);
const ranksSaid = (worse) => worse.map(({ who, rank }) => `${who} ${rank}`).join(", ");
const worseSaid = (worse) => ` other rank: ${ranksSaid(worse.slice(0, MOST_NAMED))}${worse.length > MOST_NAMED ? " …" : ""}`;
const cutSaid = ({ moves, lost, worse }) =>
  [moves ? `${moves} move ` : "", lost.length ? lostSaid(lost) : null, worse.length ? worseSaid(worse) : null];
const cutRow = (cut) => row(cut.name, cutSaid(cut), () => clickOn(cut.id), cut.id);
const cutKey = ({ kind, moves, lost, worse, name }) =>
  [kind, moves, lost.length, ranksSaid(worse), lost.length > 1 ? name : ""].join("|");
const alikeSaid = (group) => [
  many(group.length, group[0].kind), `${group[0].moves} move each${group[0].lost.length ? ", and one loses every path" : ""}`];

function paint() {
  const heat = new Map(), count = new Map(), cuts = held.whatif?.cuts.filter(matters) ?? [];
  const most = Math.max(1, ...cuts.map(weight));
  for (const cut of cuts) {
    heat.set(cut.id, Math.sqrt(weight(cut) / most));
    count.set(cut.id, `${cut.moves}${cut.lost.length ? "!" : ""}`);
  }
  return { heat, count };
}

function list() {
  if (!held.whatif) return [];
  const cuts = held.whatif.cuts.filter(matters).sort(worst), all = held.whatif.last.split(" ")[1];
  return [
    head("One more failure"),
    text(cuts.length ? `${many(cuts.length, "link or router", "links and routers")} of ${all} matter to others. The worst first:`
      : "No further failure changes anything for others."),
    foldedRows(cuts, cutKey, cutRow, alikeSaid),
  ];
}

const shiftsSaid = (cut) => (cut?.shifts
  ? ` If routers spread packets, ${many(cut.shifts, "other router sends", "other routers send")} to other neighbours than before.` : "");

/** What the failure of a router or a link would change, in a sentence or two. */
function told(id) {
  const cut = held.whatif?.cuts.find((each) => each.id === id);
  if (!held.whatif) return "";
  if (!cut || !matters(cut)) return `Its failure changes ${cut?.shifts ? "no route of others" : "nothing for others"}.${shiftsSaid(cut)}`;
  const lost = cut.lost.length ? `; without any path: ${cut.lost.join(", ")}` : "";
  const worse = cut.worse.length ? `; other best rank: ${ranksSaid(cut.worse)}` : "";
  return `If it fails: ${many(cut.moves, "other router moves", "other routers move")}${lost}${worse}.${shiftsSaid(cut)}`;
}

export const whatif = {
  name: "whatif",
  said: "What if",
  held,
  asks: (policy) => [askReport(policy), askCuts(policy)],
  forget: () => { held.whatif = null; },
  changes: () => [],
  hasNoArrows: true,
  paint, list, told,
  legend: () => [
    legendKey("changes nothing", "var(--node)", "var(--node-edge)"), legendKey("changes little", "var(--heat0)"),
    legendKey("changes much", "var(--heat1)"), "number: how many move; !: some lose every path"],
};
