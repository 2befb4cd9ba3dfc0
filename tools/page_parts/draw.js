// Draws frames of the schematic: values of two machines, or the sets of pairs of a step of evidence. A value is never told
// by colour alone: 0 is thin, 1 thick, X dashed, and at each net it is written.

const NS = "http://www.w3.org/2000/svg";

function shape(tag, attributes, ...children) {
  const made = document.createElementNS(NS, tag);
  for (const [key, value] of Object.entries(attributes)) if (key.startsWith("on")) made[key] = value; else made.setAttribute(key, value);
  made.append(...children);
  return made;
}

const GATES = {
  AND: h => `M0 ${-h / 2}H18C34 ${-h / 2} 34 ${h / 2} 18 ${h / 2}H0Z`,
  OR: h => `M-2 ${-h / 2}Q22 ${-h / 2} 32 0Q22 ${h / 2} -2 ${h / 2}Q8 0 -2 ${-h / 2}Z`,
  BUFF: () => `M0 -11L26 0L0 11Z`,
};
GATES.XOR = GATES.OR;
const BUBBLE_AT = { AND: 33, OR: 35, XOR: 35, BUFF: 29 };
const isOr = kind => /OR/.test(kind);

const pairText = (g, f) => (f === undefined || g === f ? SHOWN[g] : `${SHOWN[g]}/${SHOWN[f]}`);

function pairStyle(g, f) {
  if (f !== undefined && g !== f) return opposite(g, f) ? { stroke: "var(--opposite)", width: 3.2 } : { stroke: "var(--maybe)", width: 2.6 };
  return { stroke: ["var(--zero)", "var(--one)", "var(--unknown)"][g], width: g === 1 ? 2.2 : 1.5, dash: g === X ? "4 3" : "" };
}

// A set of pairs where there is little room: its pairs, or how many they are.
function setText(set) {
  const pairs = pairsOf(set);
  return set === ALL ? "any" : pairs.length > 2 ? `${pairs.length} pairs` : pairs.join(" ");
}

function setStyle(set) {
  if (set & DIFFERS) return set & ~DIFFERS ? { stroke: "var(--maybe)", width: 2.4 } : { stroke: "var(--opposite)", width: 3.2 };
  return pairsOf(set).every(pair => pair[0] === pair[1]) ? { stroke: "var(--equal)", width: 1.4 } : { stroke: "var(--maybe)", width: 1.8, dash: "5 3" };
}

// What a frame shows, told by the values of two machines, or by the sets of a step.
function valuesOf(good, faulty) {
  const pair = (net, read) => [read(good), faulty && read(faulty)];
  return {
    onWire: net => pair(net, it => it.seen[net.id]),
    onPin: (to, pin) => pair(to, it => it.at(to, pin)),
    next: (net, j) => pair(net, it => it.next[j]),
    held: net => pair(net, it => it.seen[net.id]),
    kind: "value",
    style: value => pairStyle(...value),
    text: value => pairText(...value),
    full: value => pairText(...value),
  };
}

const setsOf = sets => ({
  onWire: net => sets.seen[net.id],
  onPin: (to, pin) => sets.at(to, pin),
  next: (net, j) => sets.next[j],
  held: (net, j) => sets.latches[j],
  kind: "value sets",
  style: setStyle,
  text: setText,
  full: showSet,
});

const NO_VALUES = { kind: "value", onWire: () => null, onPin: () => null, next: () => null, held: () => null, style: () => ({ stroke: "#777", width: 1.4 }), text: () => "", full: () => "" };

function cross(x, y, stuck, below = 16) {
  return shape("g", {}, shape("path", { d: `M${x - 4} ${y - 5}L${x + 4} ${y + 5}M${x - 4} ${y + 5}L${x + 4} ${y - 5}`, class: "stuck" }),
    shape("text", { x: x - 2, y: y + below, class: "stuck-at" }, "s-a-" + stuck));
}

function nodeTitle({ kind, net }) {
  if (kind === "input") return `input ${net.name}`;
  if (kind === "output") return `output ${net.name}`;
  return `${net.name} = ${net.kind}(${net.args.map(arg => arg.name).join(", ")})` + (kind === "gate" ? `, level ${net.level}` : "");
}

// One frame as a group. `values` as above, `site` the fault or null, `faint` says which nets are, `stops` at which gates the
// effect stops, `picked` is called with the net of a node that is clicked.
function drawFrame(circuit, plan, { values, site, faint, stops, picked, title, top }) {
  const group = shape("g", { transform: `translate(0 ${top})` });
  for (const { c, x, isShown } of plan.levels) if (isShown) group.append(shape("text", { x: x + 4, y: 12, class: "level" }, "level " + c));
  group.append(shape("text", { x: 8, y: 12, class: "frame" }, title));
  const isSite = (net, pin) => site && site.net === net && site.pin === pin;
  for (const wire of plan.wires) drawWire(group, wire, values, faint, isSite, site);
  for (const node of plan.nodes) if (node.kind !== "pass") drawNode(circuit, group, node, values, faint, stops, picked, isSite, site);
  return group;
}

function drawWire(group, wire, values, faint, isSite, site) {
  const { from, to, net, pin } = wire, y = pinY(to, pin);
  const fromX = from.kind === "pass" ? from.x : from.kind === "gate" ? from.x + 36 : from.x + from.wide;
  const endX = to.kind === "pass" ? to.right : to.x + (to.kind === "gate" && isOr(to.net.kind) ? 3 : 0);
  const style = values.style(values.onWire(net));
  const line = shape("path", { d: `M${fromX} ${from.y}H${wire.x}V${y}H${endX}`, class: "wire" + faint(net), stroke: style.stroke, "stroke-width": style.width, "stroke-dasharray": style.dash || "" });
  line.append(shape("title", {}, `${net.name} ${values.full(values.onWire(net))}`));
  group.append(line);
  // from the cross of a stuck pin on its load sees another value
  if ((to.kind === "gate" || to.kind === "next") && isSite(to.net, pin)) {
    const after = values.style(values.onPin(to.net, pin));
    group.append(shape("path", { d: `M${endX - 12} ${y}H${endX}`, class: "wire", stroke: after.stroke, "stroke-width": after.width }), cross(endX - 12, y, site.stuck));
  }
}

function drawNode(circuit, group, node, values, faint, stops, picked, isSite, site) {
  const { net, x, y, kind } = node, isGate = kind === "gate", isOut = kind === "output" || kind === "next";
  const hot = shape("g", { class: "hot" + faint(net), transform: `translate(${x} ${y})`, onclick: () => picked(net) });
  if (isGate) hot.append(...gateShapes(net, node.height, stops(net)));
  else hot.append(shape("rect", { x: 0, y: -9, width: node.wide, height: 18, rx: kind === "held" || kind === "next" ? 0 : 8, class: kind === "held" || kind === "next" ? "flop" : "port" }));
  const j = circuit.flops.indexOf(net);
  const value = kind === "next" ? values.next(net, j) : kind === "held" ? values.held(net, j) : values.onWire(net);
  hot.append(shape("title", {}, `${nodeTitle(node)} ${values.full(value)}`));
  group.append(hot);
  const label = shortened(kind === "next" ? net.name + " next" : net.name), right = isGate ? 38 : node.wide;
  if (isGate) group.append(shape("text", { x: x + right + 2, y: y - 9 - (node.height > 30 ? 2 : 0), class: "name" + faint(net) }, label));
  else group.append(shape("text", { x: x + node.wide / 2, y: y + 4, "text-anchor": "middle", class: "name" + faint(net) }, label));
  const at = isOut ? [x + node.wide + 4, y + 4] : [x + right + (isGate ? 2 : 4), y + (isGate ? 14 : -3)];
  group.append(shape("text", { x: at[0], y: at[1], class: values.kind + faint(net), fill: values.style(value).stroke }, values.text(value)));
  if (!isOut && isSite(net, null)) group.append(cross(x + right + 3, y, site.stuck, isGate ? 27 : 16));
}

function gateShapes(net, h, isStop) {
  const base = baseOf(net.kind), made = [shape("path", { d: GATES[base](h), class: "gate" + (isStop ? " stops" : "") })];
  if (base === "XOR") made.push(shape("path", { d: `M-6 ${-h / 2}Q4 0 -6 ${h / 2}`, class: "gate open" }));
  if (isInverting(net.kind)) made.push(shape("circle", { cx: BUBBLE_AT[base], cy: 0, r: 3, class: "gate" }));
  if (base !== "BUFF") made.push(shape("text", { x: isOr(base) ? 7 : 2, y: 3, class: "kind" }, net.kind));
  return made;
}
