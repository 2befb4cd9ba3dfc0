"use strict";

// Netlists, faults, three-valued frames and sets of pairs, as docs/FORMATS.md has them. Values are 0, 1 and X = 2.
const X = 2;
const SHOWN = ["0", "1", "X"];
const BASE_KIND = { NAND: "AND", NOR: "OR", XNOR: "XOR", NOT: "BUFF" };
const CONTROLLING = { AND: 0, NAND: 0, OR: 1, NOR: 1 };
const baseOf = kind => BASE_KIND[kind] || kind;
const isInverting = kind => kind in BASE_KIND;

// ---- netlists

// The circuit of a netlist that the program accepts; an Error with the line where there is none. What only the program
// refuses (counts, limits, the bytes of names) isn't looked at.
function readNetlist(text) {
  const nets = new Map(), order = [];
  const netOf = name => {
    if (!nets.has(name)) {
      const net = { name, id: order.length, kind: null, args: [], loads: [], isOutput: false, level: 0 };
      nets.set(name, net);
      order.push(net);
    }
    return nets.get(name);
  };
  const circuit = { nets, order, inputs: [], outputs: [], flops: [], gates: [] };
  text.split("\n").forEach((raw, at) => {
    const line = raw.replace(/\r$/, "").replace(/#.*/, "").replace(/[ \t]+/g, " ").trim();
    if (line !== "") readStatement(circuit, netOf, line, what => { throw new Error(`netlist: line ${at + 1}: ${what}`); });
  });
  for (const net of order) if (!net.kind) throw new Error("netlist: undriven " + net.name);
  for (const net of [...circuit.flops, ...circuit.gates]) net.args.forEach((arg, pin) => arg.loads.push({ to: net, pin }));
  // inputs, flip-flops and gates in the order of their lines: the numbers of the formula of cubes
  [...circuit.inputs, ...circuit.flops, ...circuit.gates].forEach((net, number) => { net.number = number; });
  return withLevels(circuit);
}

function readStatement(circuit, netOf, line, refuse) {
  const port = /^(INPUT|OUTPUT) ?\( ?([^ (),=]+) ?\)$/i.exec(line);
  if (port) return readPort(circuit, netOf(port[2]), port[1].toUpperCase(), refuse);
  const definition = /^([^ (),=]+) ?= ?([^ (),=]+) ?\(([^()=]*)\)$/.exec(line);
  if (!definition) refuse("bad line");
  const net = netOf(definition[1]);
  if (net.kind) refuse("second driver " + net.name);
  const kind = definition[2].toUpperCase() === "BUF" ? "BUFF" : definition[2].toUpperCase();
  if (!/^(AND|NAND|OR|NOR|XOR|XNOR|NOT|BUFF|DFF)$/.test(kind)) refuse("bad kind");
  const names = definition[3].split(",").map(name => name.trim());
  if (names.some(name => name === "" || name.includes(" "))) refuse("bad line");
  net.kind = kind;
  net.args = names.map(netOf);
  (kind === "DFF" ? circuit.flops : circuit.gates).push(net);
}

function readPort(circuit, net, keyword, refuse) {
  if (keyword === "INPUT") {
    if (net.kind) refuse("second driver " + net.name);
    net.kind = "INPUT";
    circuit.inputs.push(net);
  } else if (!net.isOutput) {
    net.isOutput = true;
    circuit.outputs.push(net);
  }
}

// Gates in an order in which each comes after what it reads, and the level of each net: 0 for inputs and flip-flops,
// one more than the highest argument for a gate.
function withLevels(circuit) {
  const left = new Map(), ready = [];
  for (const gate of circuit.gates) {
    const waiting = gate.args.filter(arg => arg.kind !== "INPUT" && arg.kind !== "DFF").length;
    left.set(gate, waiting);
    if (waiting === 0) ready.push(gate);
  }
  circuit.sorted = [];
  for (let at = 0; at < ready.length; at++) {
    const gate = ready[at];
    gate.level = 1 + Math.max(...gate.args.map(arg => arg.level));
    circuit.sorted.push(gate);
    for (const { to } of gate.loads) {
      if (to.kind === "DFF") continue;
      left.set(to, left.get(to) - 1);
      if (left.get(to) === 0) ready.push(to);
    }
  }
  if (circuit.sorted.length < circuit.gates.length) throw new Error("netlist: loop");
  circuit.depth = circuit.order.reduce((most, net) => Math.max(most, net.level), 0);
  return circuit;
}

// ---- gates over 0, 1 and X

const not = a => (a === X ? X : 1 - a);
const and = (a, b) => (a === 0 || b === 0 ? 0 : a === 1 && b === 1 ? 1 : X);
const or = (a, b) => not(and(not(a), not(b)));
const xor = (a, b) => (a === X || b === X ? X : a ^ b);
const OPERATIONS = { AND: and, OR: or, XOR: xor, BUFF: a => a };
const opposite = (a, b) => a !== X && b !== X && a !== b;

// The value of a gate of this kind, by Kleene's tables.
function evaluate(kind, values) {
  const base = baseOf(kind);
  const value = base === "BUFF" ? values[0] : values.reduce(OPERATIONS[base]);
  return isInverting(kind) ? not(value) : value;
}

// ---- faults and machines

// The fault of a report's line: a stem, or pin `pin` (from 0) of the gate or flip-flop that drives `net`. A net whose
// name ends like a pin is a stem.
function readFault(circuit, site, stuck) {
  const stem = circuit.nets.get(site);
  if (stem) return { net: stem, pin: null, stuck: Number(stuck), site };
  const found = /^(.*)\((\d+)\)$/.exec(site);
  const net = found && circuit.nets.get(found[1]);
  if (!net || !(Number(found[2]) >= 1 && Number(found[2]) <= net.args.length)) throw new Error("no such line: " + site);
  return { net, pin: Number(found[2]) - 1, stuck: Number(stuck), site };
}

// What the loads see in one frame: of each net, and of pin `pin` of a gate or flip-flop. `stick` makes of a value that
// of a stuck line.
function lookedAt(fault, stick) {
  const seen = [];
  return {
    seen,
    put: (net, value) => { seen[net.id] = fault && fault.pin === null && fault.net === net ? stick(value) : value; },
    at: (to, pin) => {
      const value = seen[to.args[pin].id];
      return fault && fault.pin === pin && fault.net === to ? stick(value) : value;
    },
  };
}

// One frame over any values, from what inputs and flip-flops hold: what each net shows, each pin sees, and each flip-flop
// takes.
function frameOver(circuit, fault, inputs, held, gateValue, stick) {
  const { seen, put, at } = lookedAt(fault, stick);
  circuit.inputs.forEach((net, i) => put(net, inputs[i]));
  circuit.flops.forEach((net, j) => put(net, held[j]));
  for (const gate of circuit.sorted) put(gate, gateValue(gate.kind, gate.args.map((_, pin) => at(gate, pin))));
  return frameWith(circuit, held, seen, at);
}

// The frame in which the loads see these values, with what each flip-flop takes.
const frameWith = (circuit, held, seen, at) =>
  ({ held, seen, at, next: circuit.flops.map(flop => at(flop, 0)), outputs: circuit.outputs.map(net => seen[net.id]) });

// One frame of the good machine (fault null) or of a faulty one.
const frame = (circuit, held, vector, fault) => frameOver(circuit, fault, vector, held, evaluate, () => fault.stuck);

// The frames of a machine over a list of vectors, from a start (all-unknown where it is null).
function runMachine(circuit, vectors, fault, start) {
  let held = start || circuit.flops.map(() => X);
  return vectors.map(vector => {
    const made = frame(circuit, held, vector, fault);
    held = made.next;
    return made;
  });
}

// The same frames by the text that `respond --lines` writes: a row for each vector, with the value of each net by its number.
function framesOfText(circuit, text, fault, start) {
  let held = start || circuit.flops.map(() => X);
  return text.split("\n").slice(0, -1).map(row => {
    const { seen, put, at } = lookedAt(fault, () => fault.stuck);
    for (const net of circuit.order) put(net, SHOWN.indexOf(row[net.number]));
    const made = frameWith(circuit, held, seen, at);
    held = made.next;
    return made;
  });
}

// The first vector (from 0) and output at which good and faulty frames show opposite definite values, or null.
function firstDetection(good, faulty) {
  for (let t = 0; t < good.length; t++)
    for (let o = 0; o < good[t].outputs.length; o++)
      if (opposite(good[t].outputs[o], faulty[t].outputs[o])) return { vector: t, output: o };
  return null;
}

// What the fault's line carries in a frame of the good machine: of a stem what drives it, of a pin the value of its net.
const carried = (fault, good) => good.seen[(fault.pin === null ? fault.net : fault.net.args[fault.pin]).id];

// Why a fault that isn't detected isn't, over good and faulty frames: the first row of the table that holds.
function causeOf(circuit, fault, good, faulty) {
  const first = (list, holds) => {
    for (let t = 0; t < good.length; t++) {
      const at = list(good[t]).findIndex((value, k) => holds(value, list(faulty[t])[k]));
      if (at >= 0) return { vector: t, at };
    }
    return null;
  };
  const possible = first(it => it.outputs, (g, f) => g !== X && f === X);
  if (possible) return { cause: "possible", vector: possible.vector, net: circuit.outputs[possible.at] };
  const stored = first(it => it.next, (g, f) => g !== X && g !== f);
  if (stored) return { cause: "stored", vector: stored.vector, net: circuit.flops[stored.at] };
  const excited = good.findIndex(it => opposite(carried(fault, it), fault.stuck));
  if (excited >= 0) return { cause: "stopped", vector: excited };
  return { cause: good.some(it => carried(fault, it) !== X) ? "unexcited" : "unknown" };
}

// ---- sets of pairs (good, faulty), as bits

const PAIRS = ["00", "01", "0X", "10", "11", "1X", "X0", "X1", "XX"];
const pairBit = (good, faulty) => 1 << (3 * good + faulty);
const pairsOf = set => PAIRS.filter((_, i) => set & (1 << i));
const showSet = set => "{" + pairsOf(set).join(", ") + "}";
const EQUAL = pairBit(0, 0) | pairBit(1, 1), ANY = EQUAL | pairBit(0, 1) | pairBit(1, 0), ALL = 511;
const DIFFERS = pairBit(0, 1) | pairBit(1, 0);
const membersOf = set => PAIRS.flatMap((_, i) => (set & (1 << i) ? [[Math.floor(i / 3), i % 3]] : []));

// The sets of a two-pin operation, each worked out once.
const joined = {};
function join(base, a, b) {
  const table = (joined[base] ||= new Map()), key = a * 512 + b;
  if (!table.has(key)) {
    let made = 0;
    for (const [g, f] of membersOf(a)) for (const [h, e] of membersOf(b)) made |= pairBit(OPERATIONS[base](g, h), OPERATIONS[base](f, e));
    table.set(key, made);
  }
  return table.get(key);
}

// A gate over sets of pairs: its value for each choice of one pair from each pin's set.
function evaluateSets(kind, sets) {
  const base = baseOf(kind);
  const set = base === "BUFF" ? sets[0] : sets.reduce((a, b) => join(base, a, b));
  return isInverting(kind) ? membersOf(set).reduce((made, [g, f]) => made | pairBit(not(g), not(f)), 0) : set;
}

const stickFaulty = (set, stuck) => membersOf(set).reduce((made, [g]) => made | pairBit(g, stuck), 0);

// One frame over sets of pairs, from what latches and inputs may carry.
const setFrame = (circuit, latches, inputs, fault) => ({
  latches, inputs, ...frameOver(circuit, fault, inputs, latches, evaluateSets, set => stickFaulty(set, fault.stuck)),
});
