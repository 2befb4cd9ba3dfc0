// A schematic of one frame, from the left to the right: inputs and what the flip-flops hold, the gates by level, and
// outputs and what the flip-flops take. Layered as by Sugiyama, Tagawa and Toda (1981): a long wire passes each column at a
// place of its own, columns are ordered by barycentres, and each wire has a track of its own in the channel before a column.

const COLUMN = 66, GAP = 14, TRACK = 7;
const CLEAR_BAND = 22; // a band in which nothing lies is no higher

// A name that is drawn has at most so many characters, and a box is as wide as its name wants.
const LONGEST = 18;
const shortened = name => (name.length > LONGEST ? name.slice(0, LONGEST - 1) + "…" : name);
const boxWidth = name => Math.max(56, 6.4 * shortened(name).length + 12);

const pinY = (node, pin) => node.y + (node.kind === "gate" ? ((pin + 0.5) / node.net.args.length - 0.5) * (node.height - 6) : 0);
const mean = list => list.reduce((a, b) => a + b, 0) / list.length;

// The boxes and gates that are drawn, column by column, and what reads each net. `kept`: the nets to draw, or null for all.
function placeNodes(circuit, kept) {
  const last = circuit.depth + 1, columns = Array.from({ length: last + 1 }, () => []);
  const drivers = new Map(), sinks = new Map();
  const add = node => { columns[node.column].push(node); return node; };
  const isKept = net => !kept || kept.has(net);
  const reads = (node, net, pin) => { if (!sinks.has(net)) sinks.set(net, []); sinks.get(net).push({ node, pin }); };
  for (const net of [...circuit.inputs, ...circuit.flops, ...circuit.sorted].filter(isKept)) {
    const kind = net.kind === "DFF" ? "held" : net.kind === "INPUT" ? "input" : "gate";
    const height = kind === "gate" ? Math.max(26, 13 * net.args.length) : 18;
    drivers.set(net, add({ kind, net, column: kind === "gate" ? net.level : 0, height, wide: boxWidth(net.name), into: [], out: [] }));
  }
  const end = (kind, net, name, arg) => reads(add({ kind, net, column: last, height: 18, wide: boxWidth(name), into: [], out: [] }), arg, 0);
  for (const net of circuit.outputs.filter(isKept)) end("output", net, net.name, net);
  for (const flop of circuit.flops.filter(isKept)) end("next", flop, flop.name + " next", flop.args[0]);
  for (const [net, node] of drivers) if (node.kind === "gate") net.args.forEach((arg, pin) => reads(node, arg, pin));
  return { last, columns, drivers, sinks, add };
}

// Wires: for each driver a chain of passes, one in each column up to its farthest load.
function layWires({ drivers, sinks, add }) {
  const wires = [];
  for (const [net, driver] of drivers) {
    const loads = sinks.get(net) || [];
    const far = loads.reduce((most, { node }) => Math.max(most, node.column), driver.column);
    const chain = [driver];
    for (let column = driver.column + 1; column < far; column++) {
      const pass = add({ kind: "pass", net, column, height: 4, into: [], out: [] });
      wires.push({ net, from: chain[chain.length - 1], to: pass, pin: 0 });
      chain.push(pass);
    }
    for (const { node, pin } of loads) wires.push({ net, from: chain[node.column - 1 - driver.column], to: node, pin });
  }
  for (const wire of wires) { wire.from.out.push(wire); wire.to.into.push(wire); }
  return wires;
}

const wantedY = (node, side) => {
  const ends = side === "into" ? node.into.map(wire => wire.from.y - (pinY(node, wire.pin) - node.y)) : node.out.map(wire => pinY(wire.to, wire.pin));
  return ends.length ? mean(ends) : node.y;
};

// Places a column near what its nodes want, in their order, by pooling neighbours that would overlap.
function placeColumn(column, want) {
  const pools = [];
  let offset = 0;
  column.forEach((node, i) => {
    if (i) offset += (column[i - 1].height + node.height) / 2 + (node.kind === "pass" && column[i - 1].kind === "pass" ? 6 : GAP);
    node.offset = offset;
    let pool = { sum: want[i] - offset, nodes: [node] };
    while (pools.length && pools[pools.length - 1].sum / pools[pools.length - 1].nodes.length > pool.sum / pool.nodes.length) {
      const before = pools.pop();
      before.sum += pool.sum;
      for (const one of pool.nodes) before.nodes.push(one);
      pool = before;
    }
    pools.push(pool);
  });
  for (const pool of pools) for (const node of pool.nodes) node.y = pool.sum / pool.nodes.length + node.offset;
}

function settle(column, side) {
  const want = new Map(column.map(node => [node, wantedY(node, side)]));
  column.sort((a, b) => want.get(a) - want.get(b));
  placeColumn(column, column.map(node => want.get(node)));
}

// How many pairs of wires of one channel cross: inversions, counted by merging.
function crossings(columns) {
  let count = 0;
  const sorted = list => {
    if (list.length < 2) return list;
    const middle = list.length >> 1, a = sorted(list.slice(0, middle)), b = sorted(list.slice(middle)), made = [];
    for (let i = 0, j = 0; i < a.length || j < b.length; )
      if (j === b.length || (i < a.length && a[i] <= b[j])) made.push(a[i++]);
      else { made.push(b[j++]); count += a.length - i; }
    return made;
  };
  for (const column of columns) {
    const ends = column.flatMap(node => node.into.map(wire => [wire.from.y, pinY(node, wire.pin)]));
    sorted(ends.sort((a, b) => a[0] - b[0] || a[1] - b[1]).map(it => it[1]));
  }
  return count;
}

// Orders the columns by barycentres, to and fro; the fewest crossings that a round came upon stay.
function orderColumns(columns, rounds) {
  for (const column of columns) column.forEach((node, i) => { node.y = i * 40; });
  let best = null;
  for (let round = 0; round < rounds; round++) {
    for (let c = 1; c < columns.length; c++) settle(columns[c], "into");
    for (let c = columns.length - 2; c >= 0; c--) settle(columns[c], "out");
    const count = crossings(columns);
    if (!best || count < best.count) best = { count, orders: columns.map(column => column.map(node => ({ node, y: node.y }))) };
  }
  columns.forEach((column, c) => {
    column.splice(0, column.length, ...best.orders[c].map(it => it.node));
    for (const { node, y } of best.orders[c]) node.y = y;
  });
  for (let round = 0; round < 3; round++)
    for (const column of columns) placeColumn(column, column.map(node => (wantedY(node, "into") + wantedY(node, "out")) / 2));
  return best.count;
}

// Leaves out bands in which nothing lies, and begins at the top.
function closeBands(nodes) {
  let below = -Infinity, shift = 0;
  for (const node of [...nodes].sort((a, b) => a.y - a.height / 2 - b.y + b.height / 2)) {
    const from = node.y - node.height / 2;
    if (below > -Infinity && from - below > CLEAR_BAND) shift += from - below - CLEAR_BAND;
    below = Math.max(below, node.y + node.height / 2);
    node.y -= shift;
  }
  const top = nodes.reduce((least, node) => Math.min(least, node.y - node.height / 2), Infinity);
  for (const node of nodes) node.y += 24 - top;
}

// Gives the wires of a channel their tracks, the shorter spans nearer to where they end; how many tracks there are.
function layTracks(column, x) {
  const nets = new Map();
  for (const node of column) for (const wire of node.into) {
    const y = pinY(node, wire.pin), span = nets.get(wire.net) || { low: wire.from.y, high: wire.from.y, wires: [], track: 0 };
    span.low = Math.min(span.low, y);
    span.high = Math.max(span.high, y);
    span.wires.push(wire);
    nets.set(wire.net, span);
  }
  const tracks = [];
  for (const span of [...nets.values()].filter(it => it.high - it.low > 0.5).sort((a, b) => a.high - a.low - (b.high - b.low))) {
    span.track = tracks.findIndex(track => track.every(it => it.high + 6 < span.low || it.low - 6 > span.high));
    if (span.track < 0) span.track = tracks.push([]) - 1;
    tracks[span.track].push(span);
  }
  for (const span of nets.values()) for (const wire of span.wires) wire.x = x + 12 + TRACK * span.track;
  return tracks.length;
}

function layOut(circuit, kept) {
  const placed = placeNodes(circuit, kept), { columns, last } = placed;
  const wires = layWires(placed);
  const crossed = orderColumns(columns, wires.length > 4000 ? 6 : 12);
  const nodes = columns.flat();
  closeBands(nodes);
  let x = 10;
  columns.forEach((column, c) => {
    if (c > 0) x += 26 + TRACK * layTracks(column, x);
    for (const node of column) node.x = x;
    const isEnd = c === 0 || c === last;
    if (isEnd) x += column.reduce((most, node) => Math.max(most, node.wide || 0), 56) + 10;
    else x += column.some(node => node.kind !== "pass") ? COLUMN : 8;
    for (const node of column) node.right = x;
  });
  const bottom = nodes.reduce((most, node) => Math.max(most, node.y + node.height / 2), 0);
  const levels = columns.map((column, c) => ({ c, x: column.length ? column[0].x : 0, isShown: column.some(node => node.kind === "gate") }));
  return { nodes, wires, width: x + 64, height: bottom + 30, crossings: crossed, levels };
}
