// What has failed, each with a button that brings it back.

import { bringAllBack, clickLink, clickNode, clickSession, undo } from "./actions.js";
import { by, el, put } from "./dom.js";
import { on } from "./hub.js";
import { button } from "./parts.js";
import { canTakeBack, chosen, net } from "./state.js";

const back = (said, go) => button(`${said} ✕`, go, { class: "chip", title: "Bring it back" });

function chips() {
  const silent = (key) => { const [router, peer] = net.session(key); return `${peer} silent at ${router}`; };
  return [
    ...[...chosen.dead].map((name) => back(name, () => clickNode(name))),
    ...[...chosen.cut].map((key) => back(net.linked.get(key).join("–"), () => clickLink(key))),
    ...[...chosen.silent].map((key) => back(silent(key), () => clickSession(key)))];
}

function showFailures() {
  const failed = chips(), isStepped = chosen.view === "steps";
  const allUp = isStepped ? "All is up. Click a link or a router to let it go down: that is an event."
    : "All is up. Click a link or a router to fail it, a peer to silence it.";
  put(by("failures"), failed.length ? [el("b", {}, isStepped ? "Down now" : "Failed"), failed] : el("span", { class: "count" }, allUp),
    el("span", { class: "room" }),
    canTakeBack() ? button("Undo", undo, { class: "quiet" }) : null,
    failed.length && !isStepped ? button("Bring all back", bringAllBack, { class: "quiet" }) : null);
}

on("show", showFailures);
