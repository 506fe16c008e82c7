// Places a network by its distances: who is near over links stands near. The same network is always placed alike.

const MANY = 200, TURNS = 300, FEW_TURNS = 40;
const PEER_NEARER = 0.25; // a peer stands nearer than a router would

const least = (list) => list.reduce((one, other) => Math.min(one, other), Infinity);
const greatest = (list) => list.reduce((one, other) => Math.max(one, other), -Infinity);
const mean = (list) => list.reduce((sum, each) => sum + each, 0) / list.length;

/** Distances over links from each to each; what can't be reached is farther than all else. */
function distances(net, names) {
  const at = new Map(names.map((name, k) => [name, k])), near = names.map((name) => net.near.get(name).map((other) => at.get(other)));
  const count = names.length, far = new Float64Array(count * count).fill(-1);
  for (let start = 0; start < count; start++) {
    far[start * count + start] = 0;
    const queue = [start];
    for (const here of queue) {
      for (const there of near[here]) {
        if (far[start * count + there] >= 0) continue;
        far[start * count + there] = far[start * count + here] + 1;
        queue.push(there);
      }
    }
  }
  const most = Math.max(1, greatest(far));
  return far.map((each) => (each < 0 ? most + 1 : each));
}

/** The first places: by the distances from the two ends of the network, and from what lies farthest from both. */
function begun(far, count) {
  let a = 0, b = 0, c = 0;
  for (let k = 0; k < count; k++) for (let m = 0; m < count; m++) if (far[k * count + m] > far[a * count + b]) { a = k; b = m; }
  const aside = (k) => Math.min(far[a * count + k], far[b * count + k]);
  for (let k = 0; k < count; k++) if (aside(k) > aside(c)) c = k;
  // A little of no meaning, so that no two stand at one place.
  const x = Float64Array.from({ length: count }, (_, k) => far[a * count + k] - far[b * count + k] + 0.01 * Math.sin(k * 12.9898));
  const y = Float64Array.from({ length: count }, (_, k) => 2 * far[c * count + k] + 0.01 * Math.sin(k * 78.233) + (k % 2 ? 0.15 : -0.15));
  return { x, y };
}

/** Moves each to where the others wish it to be, the near ones most (stress majorization, one after another). */
function relax({ x, y }, far, isPeer, turns) {
  const count = x.length;
  for (let turn = 0; turn < turns; turn++) {
    for (let k = 0; k < count; k++) {
      let sumX = 0, sumY = 0, sum = 0;
      for (let m = 0; m < count; m++) {
        if (m === k) continue;
        const wish = far[k * count + m] - (isPeer[k] || isPeer[m] ? PEER_NEARER : 0), weight = 1 / (wish * wish);
        const dx = x[k] - x[m], dy = y[k] - y[m], is = Math.sqrt(dx * dx + dy * dy) || 1e-6;
        sumX += weight * (x[m] + (wish * dx) / is);
        sumY += weight * (y[m] + (wish * dy) / is);
        sum += weight;
      }
      if (sum) { x[k] = sumX / sum; y[k] = sumY / sum; }
    }
  }
}

function rotate({ x, y }, angle) {
  const cos = Math.cos(angle), sin = Math.sin(angle), mx = mean(x), my = mean(y);
  for (let k = 0; k < x.length; k++) {
    const u = x[k] - mx, v = y[k] - my;
    x[k] = u * cos - v * sin;
    y[k] = u * sin + v * cos;
  }
}

/** Lays the long way across, or the first at the top where it is as long as wide; what comes first stands left and above. */
function turned(at, half) {
  const { x, y } = at, mx = mean(x), my = mean(y);
  let xx = 0, xy = 0, yy = 0;
  for (let k = 0; k < x.length; k++) { const u = x[k] - mx, v = y[k] - my; xx += u * u; xy += u * v; yy += v * v; }
  rotate(at, -0.5 * Math.atan2(2 * xy, xx - yy));
  if (Math.hypot(xx - yy, 2 * xy) < 0.12 * (xx + yy)) rotate(at, -Math.PI / 2 - Math.atan2(y[0], x[0]));
  for (const list of [x, y]) {
    const isBehind = mean(list.slice(0, half)) > 0;
    if (isBehind) list.forEach((each, k) => { list[k] = -each; });
  }
}

export function stressed(net, width, height) {
  const { names } = net, count = names.length, far = distances(net, names), at = begun(far, count), { x, y } = at;
  relax(at, far, names.map(net.isPeer), count > MANY ? FEW_TURNS : TURNS);
  turned(at, Math.max(1, Math.floor(net.routers.length / 2)));
  const low = [least(x), least(y)], high = [greatest(x), greatest(y)];
  const sx = (width - 110) / Math.max(high[0] - low[0], 0.5), sy = (height - 120) / Math.max(high[1] - low[1], 0.5);
  const fx = Math.min(sx, 2.2 * sy, 230), fy = Math.min(sy, 2.6 * sx, 270);
  return new Map(names.map((name, k) =>
    [name, [width / 2 + (x[k] - (low[0] + high[0]) / 2) * fx, height / 2 + (y[k] - (low[1] + high[1]) / 2) * fy]]));
}
