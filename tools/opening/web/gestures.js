// The picture by hand: a click, a drag, and the part that is seen.

const STILL = 5; // pixels; who moves less has clicked
const LONG = 450; // milliseconds; a touch that stays so long only chooses
const SCALES = [0.15, 6];

export function gestures(picture) {
  const { root, doing } = picture;
  let held = null, isOver = "";

  /** The router or link at a place of the page: its kind and its name, null where there is none. */
  function under(event) {
    const group = event.target.closest?.("[data-node]");
    if (group) return ["node", group.dataset.node];
    const key = root.contains(event.target) ? picture.linkAt(picture.placeUnder(event)) : null;
    return key && ["link", key];
  }

  function hover(event) {
    const found = under(event), now = found?.join(" ") ?? "";
    if (now === isOver) return;
    isOver = now;
    root.classList.toggle("pointing", !!found);
    doing.over(...(found ?? []));
  }

  function begin(event) {
    if (event.button) return;
    const found = under(event), name = found?.[0] === "node" ? found[1] : null;
    held = {
      found, name, moved: 0, time: event.timeStamp, isTouch: event.pointerType === "touch", x: event.clientX, y: event.clientY,
      from: picture.placeUnder(event), seen: { ...picture.seen }, start: name && [...picture.at.get(name)],
    };
    root.setPointerCapture(event.pointerId);
  }

  function move(event) {
    if (!held) { hover(event); return; }
    const dx = event.clientX - held.x, dy = event.clientY - held.y, { seen } = held;
    held.moved = Math.max(held.moved, Math.hypot(dx, dy));
    if (held.moved < STILL) return;
    if (held.name) {
      const [x, y] = picture.placeUnder(event);
      picture.drag(held.name, [held.start[0] + x - held.from[0], held.start[1] + y - held.from[1]]);
    } else {
      picture.seen = { ...seen, x: seen.x - dx / seen.scale, y: seen.y - dy / seen.scale };
      picture.look();
    }
  }

  function end(event) {
    const { found, name, moved, time, isTouch } = held ?? {};
    held = null;
    if (!found || event.type !== "pointerup") return;
    if (name && moved >= STILL) doing.placed(name, picture.at.get(name));
    else if (moved < STILL && isTouch && event.timeStamp - time > LONG) doing.over(...found);
    else if (moved < STILL && name && event.shiftKey) doing.pin(name);
    else if (moved < STILL) doing[found[0]](found[1]);
  }

  function zoom(event) {
    event.preventDefault();
    const [x, y] = picture.placeUnder(event), { seen } = picture;
    const scale = Math.min(SCALES[1], Math.max(SCALES[0], seen.scale * Math.exp(-event.deltaY * 0.0015)));
    picture.seen = { scale, x: x - (x - seen.x) * (seen.scale / scale), y: y - (y - seen.y) * (seen.scale / scale) };
    picture.look();
  }

  root.addEventListener("pointerdown", begin);
  root.addEventListener("pointermove", move);
  root.addEventListener("pointerup", end);
  root.addEventListener("pointercancel", end);
  root.addEventListener("pointerleave", () => { if (isOver) { isOver = ""; doing.over(); } });
  root.addEventListener("wheel", zoom, { passive: false });
  root.addEventListener("click", (event) => { // by a screen reader, without a pointer
    const group = event.detail ? null : event.target.closest("[data-node],[data-link]");
    if (group?.dataset.node) doing.node(group.dataset.node); else if (group) doing.link(group.dataset.link);
  });
  root.addEventListener("focusin", (event) => {
    const group = event.target.closest("[data-node],[data-link]");
    if (group) doing.over(group.dataset.node ? "node" : "link", group.dataset.node ?? group.dataset.link);
  });
}
