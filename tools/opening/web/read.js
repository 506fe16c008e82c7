// Reads what the program writes. Nothing here judges: it cuts lines into their words. tools/test/lines.py has each form of line with
// what it says, and the tests hold this reader and those of tools/ to it.

import { linkKey } from "./topology.js";

const STANDS = /^(?:(dead|origin|none)|(?:rank ([0-9]+)|(transit)) path (.+))$/;

/** How a router or an offer stands: its state, its rank (0 where it has none) and its path. */
function standing(text) {
  const found = STANDS.exec(text);
  if (!found) return null;
  if (found[1]) return { state: found[1], rank: 0, path: [] };
  return { state: found[3] ?? "rank", rank: Number(found[2] ?? 0), path: found[4].split(" ") };
}

/** A report of `replay`, `trace` or `settle`. */
export function reportOf(text) {
  const report = {
    prefix: "", class: "", quiet: null, rounds: null, deliveries: null, events: new Map(), routers: new Map(), sessions: [],
  };
  for (const line of text.split("\n")) {
    const [word, first, second] = line.split(" ", 3);
    if (word === "router") report.routers.set(first, standing(line.slice(8 + first.length)));
    else if (word === "session") {
      report.sessions.push({ router: first, peer: second, ...standing(line.slice(10 + first.length + second.length)) });
    } else if (word === "event") report.events.set(Number(first), second);
    else if (word === "quiet") report.quiet = first === "yes";
    else if (word === "rounds" || word === "deliveries") report[word] = Number(first);
    else if (word === "prefix" || word === "class") report[word] = first;
  }
  return report;
}

const emptyCase = (number, statement) =>
  ({ number, statement, prefixes: [], origins: [], routers: [], sessions: [], unclaimed: [], transit: [], unused: [],
    isCovered: false });

// A word of a `prefix` line: the patterns of a case, which stand behind commas.
const WORD = /[^ ]+(?: le [0-9]+(?:,[^ ]+)?)*/g;

const pairsOf = (names) => names.flatMap((name, at) => (at % 2 ? [] : [[name, names[at + 1]]]));

/** What a line of a group says of each of its cases. Of the routers that it names those are left out that are origins of the case. */
function noteCase(each, words) {
  const [kind, what] = words, names = words.slice(2), isEnd = (name) => each.origins.includes(name);
  if (kind === "source") {
    const rank = Number(names.at(-1)) || 0, who = names.slice(0, -2);
    if (what === "router") each.routers.push(...who.filter((name) => !isEnd(name)).map((name) => ({ name, rank })));
    else each.sessions.push(...pairsOf(who).map(([router, peer]) => ({ router, peer, rank })));
  } else if (kind === "unclaimed" && what === "session") each.unclaimed.push(...pairsOf(names).map((pair) => `session ${pair.join(" ")}`));
  else if (kind === "unclaimed") each.unclaimed.push(...names.filter((name) => !isEnd(name)).map((name) => `${what} ${name}`));
  else if (kind === "transit") each.transit.push(...names.filter((name) => !isEnd(name)));
  else if (kind === "covered") each.isCovered = true;
  else if (kind === "unused") each.unused.push(...names.filter(isEnd));
}

/** The patterns inside originated prefixes that peers are believed in, and their case. A prefix is the pattern's own where none stands there. */
function openOf(line) {
  const [parts, number] = line.slice(5).split(" case ");
  return parts.split(", ").map((part) => {
    const [pattern, prefix] = part.split(" in ");
    return { pattern, prefix: prefix ?? pattern.split(" ")[0], number: Number(number) };
  });
}

/**
 * What `promises` says: its cases, each alone though cases that say the same stand together in the text; the alternative of each rank of
 * each statement; what no statement governs, what peers are believed in inside the own space, ranks that no source has both of, and its last
 * line.
 */
export function promisesOf(text) {
  const cases = [], ranks = new Map(), uncarried = [], open = [], apart = [];
  let last = "", group = [], alternatives = [];
  for (const line of text.split("\n")) {
    const words = line.split(" "), [kind] = words;
    if (kind === "statement") ranks.set(Number(words[1]), alternatives = []);
    else if (kind === "rank") alternatives.push(words.slice(2).join(" "));
    else if (kind === "case") {
      group = words.slice(1, words.indexOf("statement")).map((number) => emptyCase(Number(number), Number(words.at(-1))));
      cases.push(...group);
    } else if (kind === "prefix") line.slice(7).match(WORD).forEach((word, at) => group[at].prefixes.push(...word.split(",")));
    else if (kind === "origin") words.slice(1).forEach((word, at) => group[at].origins.push(...word.split(",")));
    else if (kind === "uncarried") uncarried.push(...words.slice(1));
    else if (kind === "open") open.push(...openOf(line));
    else if (kind === "apart") apart.push({ statement: Number(words[2]), better: Number(words[4]), worse: Number(words[5]) });
    else if (kind === "cases") last = line;
    else group.forEach((each) => noteCase(each, words));
  }
  cases.sort((one, other) => one.number - other.number);
  return { cases, ranks, uncarried, open, apart, last };
}

/** A link or a router that is cut: what it is called, how many others move or shift, and whose best rank changes. */
function cutOf(words) {
  const isLink = words[1] === "link", ends = words.slice(2, isLink ? 4 : 3);
  return {
    kind: words[1], id: isLink ? linkKey(...ends) : ends[0], name: ends.join("–"), moves: Number(words[ends.length + 3] ?? 0),
    shifts: Number(words[ends.length + 5] ?? 0), lost: [], worse: [],
  };
}

const sourceOf = (words) => (words[0] === "router" ? words[1] : `${words[1]}–${words[2]}`);

/** What `whatif` says of one more failure. */
export function cutsOf(text) {
  const cuts = [];
  let last = "";
  for (const line of text.split("\n")) {
    const words = line.split(" "), cut = cuts.at(-1);
    if (words[0] === "cut") cuts.push(cutOf(words));
    else if (words[0] === "cuts") last = line;
    else if (words[0] === "router" || words[0] === "session") {
      const who = sourceOf(words);
      if (words.at(-1) !== "none") cut.worse.push({ who, rank: Number(words.at(-1)) });
      else if (cut.kind === "link" || who !== cut.id) cut.lost.push(who);
    }
  }
  return { cuts, last };
}

const emptyChange = (old, now) => ({ old, now, prefixes: [], origins: [], differs: [], carriers: [] });
const numberOf = (word) => (word === "none" ? null : Number(word));

/** Routers or sessions of a line: these, or all but these. */
function namedOf(words) {
  const areAll = words[0] === "all", kind = words[areAll ? 1 : 0], names = words.slice(areAll ? 3 : 1).join(" ");
  return { kind, areAll, names: names ? names.split(kind === "sessions" ? ", " : " ") : [] };
}

/** Origins that are lost, kept or gained, or stay where no such word is told: the peers where no routers are named. */
function originsOf(words) {
  const word = ["lost", "kept", "gained"].includes(words[0]) ? words[0] : "", of = words.slice(word ? 1 : 0);
  return { word, routers: of[0] === "peers" ? null : namedOf(of) };
}

const placesOf = (words) => ({ words, part: [], routers: null, sessions: null, rows: [] });
const rowOf = ([old, , now, kind, ...walk]) => ({ old: numberOf(old), now: numberOf(now), isPath: kind === "path", walk });

/** What a line says of a change. What names routers or sessions, or shows a walk, is of the places that were begun last. */
function noteChange(change, places, line) {
  const words = line.split(" "), [word, ...rest] = words;
  if (word === "prefix") change.prefixes.push(rest.join(" "));
  else if (word === "origins") change.origins.push(originsOf(rest));
  else if (word === "differs" || word === "carriers") change[word].push(places = placesOf(rest));
  else if (word === "only" || word === "but") places.part.push(line);
  else if (word === "rank") places.rows.push(rowOf(rest));
  else if (word) { const named = namedOf(words); places[named.kind] = named; }
  return places;
}

/** What `compare` says of two policies: its changes, how many pairs of cases there are, and how many of them differ. */
export function comparisonOf(text) {
  const changes = [];
  let places = null, cases = 0, changed = 0;
  for (const line of text.split("\n")) {
    const words = line.split(" ");
    if (words[0] === "change") changes.push(emptyChange(numberOf(words[2]), numberOf(words[4])));
    else if (words[0] === "cases") [cases, changed] = [Number(words[1]), Number(words[3])];
    else places = noteChange(changes.at(-1), places, line);
  }
  return { changes, cases, changed };
}

/** Where a router or a peer sends packets: how it stands, and for a router to which neighbours. */
function sending(words) {
  if (words.length === 1) return { state: words[0], rank: 0, hops: 0, next: [] };
  const said = words.slice(words.indexOf("hops"));
  return { state: words[0], rank: words[0] === "rank" ? Number(words[1]) : 0, hops: Number(said[1]), next: said.slice(3) };
}

/** What `multipath` says: where each router sends packets, what peers are offered, and the links over which none goes. */
export function spreadOf(text) {
  const spread = { routers: new Map(), sessions: [], idle: new Set(), last: "" };
  for (const line of text.split("\n")) {
    const words = line.split(" ");
    if (words[0] === "router") spread.routers.set(words[1], sending(words.slice(2)));
    else if (words[0] === "session") spread.sessions.push({ router: words[1], peer: words[2], ...sending(words.slice(3)) });
    else if (words[0] === "idle" && words[1] === "link") spread.idle.add(linkKey(words[2], words[3]));
    else if (words[0] === "idle") spread.last = line;
  }
  return spread;
}

/** What `drain` says: the links and routers that carry nothing. */
export function freeOf(text) {
  const free = new Set();
  let last = "";
  for (const line of text.split("\n")) {
    const words = line.split(" ");
    if (words[0] !== "free") continue;
    if (words[1] === "link") free.add(linkKey(words[2], words[3]));
    else if (words[1] === "router") free.add(words[2]);
    else last = line;
  }
  return { free, last };
}

/** What `waiting` says: the directions in which messages wait, each with its messages, the first one first: a path, or null to withdraw. */
export function waitingOf(text) {
  const ways = new Map();
  for (const line of text.split("\n")) {
    const [word, from, to, what, ...path] = line.split(" "), way = `${from} ${to}`;
    if (word !== "waits") continue;
    if (!ways.has(way)) ways.set(way, { from, to, messages: [] });
    ways.get(way).messages.push(what === "path" ? path : null);
  }
  return [...ways.values()];
}

/** How a router stands, in words. */
export function told(standing) {
  if (!standing) return "nothing known";
  if (standing.state === "rank") return `rank ${standing.rank}, ${standing.path.join(" → ")}`;
  if (standing.state === "transit") return `transit, ${standing.path.join(" → ")}`;
  return { dead: "dead", origin: "origin", none: "no route" }[standing.state];
}

export const sameStanding = (one, other) => one === other
  || (!!one && !!other && one.state === other.state && one.rank === other.rank && one.path.join(" ") === other.path.join(" "));
