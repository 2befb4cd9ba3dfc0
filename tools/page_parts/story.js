// What happens in a frame, in words.

const differsAtPin = (gate, pin, good, faulty) => good.at(gate, pin) !== faulty.at(gate, pin);

// Whether the fault's effect comes to this gate and not out of it.
const stopsAt = (gate, good, faulty) =>
  good.seen[gate.id] === faulty.seen[gate.id] && gate.args.some((_, pin) => differsAtPin(gate, pin, good, faulty));

// How far the effect comes in a frame: 0 nothing differs, 1 some X against a known value, 2 some line is opposite, 3 an
// output is.
function effectOf(site, good, faulty) {
  let far = 0;
  const put = (g, f) => { if (g !== f) far = Math.max(far, opposite(g, f) ? 2 : 1); };
  good.seen.forEach((value, i) => put(value, faulty.seen[i]));
  good.next.forEach((value, j) => put(value, faulty.next[j]));
  if (site.pin !== null) put(good.at(site.net, site.pin), faulty.at(site.net, site.pin));
  return good.outputs.some((value, o) => opposite(value, faulty.outputs[o])) ? 3 : far;
}

function whyStops(site, gate, good, faulty) {
  if (site.pin === null && site.net === gate) return `${gate.name} is the stuck line itself`;
  const control = CONTROLLING[gate.kind], out = SHOWN[good.seen[gate.id]];
  if (control !== undefined) {
    const holders = gate.args.filter((_, pin) => good.at(gate, pin) === control && faulty.at(gate, pin) === control).map(arg => arg.name);
    if (holders.length) return `${gate.name} (${gate.kind}): ${holders.join(" and ")} ${holders.length > 1 ? "are" : "is"} ${control} in both machines, so it is ${out} whatever comes at the other pin${gate.args.length > 2 ? "s" : ""}`;
    const unknown = gate.args.filter((_, pin) => good.at(gate, pin) === X || faulty.at(gate, pin) === X).map(arg => arg.name);
    if (good.seen[gate.id] === X) return `${gate.name} (${gate.kind}), which is X in both machines: what isn't known at ${unknown.join(", ")} hides the difference`;
  }
  return `${gate.name} (${gate.kind}), which is ${out} in both machines: the differences at its pins cancel`;
}

// Why the vectors don't detect a fault, in words.
function causeText({ cause, vector, net }) {
  const t = vector + 1;
  return {
    possible: `Why not: possible. At vector ${t} output ${net && net.name} is known in the good machine and X in the faulty one: a tester may see the fault, or may not.`,
    stored: `Why not: stored. After vector ${t} flip-flop ${net && net.name} holds a known value and the faulty one another: the effect is inside, and no output ever shows it.`,
    stopped: `Why not: stopped. Vector ${t} is the first that excites the fault, and its effect ends within each frame.`,
    unexcited: "Why not: unexcited. The good value of the line is known at some vector, and always the stuck one.",
    unknown: "Why not: unknown. The good value of the line is never known.",
  }[cause];
}

// The fault in a frame: excited or not, where the effect is, and where it stops and why.
function frameItems(circuit, site, good, faulty) {
  const items = [], line = site.pin === null ? site.net.name : `the line ${site.net.args[site.pin].name} at pin ${site.pin + 1} of ${site.net.name}`;
  const value = carried(site, good);
  if (value === X) items.push(`The good value of ${line} is X: it isn't known whether the fault shows here.`);
  else if (value === site.stuck) items.push(`${line} is ${value} in the good machine too: the fault isn't excited.`);
  else items.push(`${line} is ${value} in the good machine and stuck at ${site.stuck}: the fault is excited.`);
  const differing = (nets, g, f) => nets.map((net, k) => [net, g(k), f(k)]).filter(([, a, b]) => a !== b);
  const named = list => list.map(([net, a, b]) => `${net.name} ${pairText(a, b)}`).join(", ");
  const held = differing(circuit.flops, j => good.held[j], j => faulty.held[j]);
  if (held.length) items.push(`The machines came into this frame different in ${named(held)} (good/faulty).`);
  for (const gate of circuit.sorted.filter(gate => stopsAt(gate, good, faulty))) items.push(`The effect stops at ${whyStops(site, gate, good, faulty)}.`);
  const kept = differing(circuit.flops, j => good.next[j], j => faulty.next[j]);
  if (kept.length) items.push(`Into the next frame goes ${named(kept)}.`);
  const shown = differing(circuit.outputs, o => good.outputs[o], o => faulty.outputs[o]);
  for (const [net, a, b] of shown.filter(([, a, b]) => !opposite(a, b)))
    items.push(`Output ${net.name} is ${pairText(a, b)}: X against a known value is no detection, since the chip may happen to show the same.`);
  return { items, detected: shown.filter(([, a, b]) => opposite(a, b)) };
}
