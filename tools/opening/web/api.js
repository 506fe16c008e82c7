// Asks the server. Each lane has one question at a time: a newer one ends the one before it.

const tab = crypto.getRandomValues(new Uint32Array(2)).join("-");
const waiting = new Map(); // lane: what aborts its question
/** How long questions took: a lane and milliseconds each. */
export const times = [];
let changed = () => {};

/** Calls this whenever a question begins or ends. */
export const whenever = (call) => { changed = call; };

const NO_SERVER = { status: -2, error: "the server has ended: begin it again in the terminal", output: "" };

function refusal(status) {
  return { status: -2, error: status === 413 ? "the text is too long for this page" : `the server says ${status}`, output: "" };
}

/** What the server answers; null where a newer question of the lane has taken this one's place. */
async function post(part, body, lane) {
  waiting.get(lane)?.abort();
  const stop = new AbortController();
  waiting.set(lane, stop);
  changed();
  const begun = performance.now();
  try {
    const sent = JSON.stringify({ ...body, tab, lane });
    const said = await fetch(part, { method: "POST", headers: { "Content-Type": "application/json" }, body: sent, signal: stop.signal });
    if (!said.ok) return refusal(said.status);
    const answer = await said.json();
    if (lane !== "file") times.push([lane, Math.round(performance.now() - begun)]);
    return waiting.get(lane) === stop ? answer : null;
  } catch (fault) {
    return fault.name === "AbortError" ? null : NO_SERVER;
  } finally {
    if (waiting.get(lane) === stop) waiting.delete(lane);
    changed();
  }
}

export const start = async () => (await fetch("start")).json();
/** What a command says of the policy and a third text, where it reads one. */
export const ask = (command, policy, third, lane = command, more = {}) =>
  post("ask", { command, policy, ...(third === undefined ? {} : { third }), ...more }, lane);
/** The steps of a change from one policy to another, and of a router its blocks, where one is named. */
export const change = (before, policy, router) => post("change", { before, policy, router }, router ? "change block" : "change");
export const why = (policy) => post("why", { policy }, "why");
export const save = (policy, seen) => post("save", { policy, seen }, "save");
export const file = (seen) => post("file", { seen }, "file");
export const stop = (lane) => waiting.get(lane)?.abort();
export const isWaiting = () => [...waiting.keys()].some((lane) => lane !== "file");
