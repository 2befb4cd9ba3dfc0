// The formula of an entry by cubes and its steps, as docs/FORMATS.md has them ("An undetectable entry by cubes"). A literal
// is a variable's number or its negative; TRUE and FALSE stand for a stuck line while clauses are made.
const TRUE = "true", FALSE = "false", COMPLETE_PARITY = 8;
const MACHINES = ["good", "faulty"];
const negated = literal => (literal === TRUE ? FALSE : literal === FALSE ? TRUE : -literal);

// The nets to which the effect of a fault may come, in any frame.
function coneOf(fault) {
  const cone = new Set(), found = [fault.net];
  while (found.length) {
    const net = found.pop();
    if (cone.has(net)) continue;
    cone.add(net);
    for (const { to } of net.loads) found.push(to);
  }
  return cone;
}

class Formula {
  constructor(circuit, fault, cubes) {
    Object.assign(this, { circuit, fault, cone: coneOf(fault), count: circuit.order.length, clauses: [], names: new Map() });
    this.last = 4 * this.count;
    this.sayHeld();
    for (const gate of circuit.gates) this.sayGate(gate);
    for (const cube of cubes) this.add(`not all of: ${cubeText(circuit, cube)}`, cube.map(rail => negated(this.held(rail))));
    this.saySome(cubes);
  }

  // A clause that isn't true whatever its variables are, with what it says.
  add(words, literals) {
    if (!literals.includes(TRUE)) this.clauses.push({ words, literals: [...new Set(literals.filter(it => it !== FALSE))] });
  }

  // What drives a net is surely a bit. Outside the cone both machines have one variable for that.
  driven(machine, net, bit) {
    const apart = machine === 1 && this.cone.has(net);
    const variable = (apart ? 2 * this.count : 0) + 2 * net.number + bit + 1;
    this.names.set(variable, `${apart ? "faulty " : this.cone.has(net) ? "good " : ""}${net.name} is ${bit}`);
    return variable;
  }

  held(rail) { return this.driven(rail.machine, this.circuit.flops[rail.flop], rail.bit); }

  // A literal as it is seen at a stem (pin null) or a pin, which may be the stuck one.
  at(net, pin, machine, literal, bit) {
    const isStuck = machine === 1 && this.fault.net === net && this.fault.pin === pin;
    return isStuck ? (bit === this.fault.stuck ? TRUE : FALSE) : literal;
  }

  // The loads of a net see that it is surely a bit; a pin sees it.
  seen(machine, net, bit) { return this.at(net, null, machine, this.driven(machine, net, bit), bit); }
  pin(machine, to, pin, bit) { return this.at(to, pin, machine, this.seen(machine, to.args[pin], bit), bit); }

  sayHeld() {
    for (const net of [...this.circuit.inputs, ...this.circuit.flops])
      for (const machine of this.cone.has(net) && net.kind === "DFF" ? [0, 1] : [0])
        this.add(`${net.name} isn't both 0 and 1`, [-this.driven(machine, net, 0), -this.driven(machine, net, 1)]);
  }

  sayGate(gate) {
    this.sayGateOf(0, gate);
    if (this.cone.has(gate) && !(this.fault.pin === null && this.fault.net === gate)) this.sayGateOf(1, gate);
  }

  // What a gate's output needs of its pins, in one machine.
  sayGateOf(machine, gate) {
    const words = `${machine ? "faulty " : ""}${gate.name} = ${gate.kind}(${gate.args.map(arg => arg.name).join(", ")})`;
    const pins = gate.args.map((_, pin) => [0, 1].map(bit => this.pin(machine, gate, pin, bit)));
    const before = [0, 1].map(bit => this.driven(machine, gate, isInverting(gate.kind) ? 1 - bit : bit));
    if (pins.length === 1) for (const bit of [0, 1]) this.add(words, [-before[bit], pins[0][bit]]);
    else if (baseOf(gate.kind) === "XOR") for (const bit of [0, 1]) this.sayParity(words, before[bit], pins, bit);
    else {
      const control = CONTROLLING[gate.kind];
      for (const pin of pins) this.add(words, [-before[1 - control], pin[1 - control]]);
      this.add(words, [-before[control], ...pins.map(pin => pin[control])]);
    }
  }

  // An output that surely has this parity needs each pin to be sure, and excludes the choices of another parity.
  sayParity(words, output, pins, bit) {
    for (const pin of pins) this.add(words, [-output, ...pin]);
    if (pins.length > COMPLETE_PARITY) return;
    for (let choice = 0; choice < 1 << pins.length; choice++) {
      const bits = pins.map((_, at) => (choice >> (pins.length - 1 - at)) & 1);
      if (bits.reduce((a, b) => a ^ b) !== bit) this.add(words, [-output, ...pins.map((pin, at) => negated(pin[bits[at]]))]);
    }
  }

  // Some target comes: a cube after the frame, or a difference at an output; those that can't come have no variable.
  saySome(cubes) {
    const some = [];
    const say = (words, literals) => {
      if (literals.includes(FALSE)) return;
      this.last += 1;
      this.names.set(this.last, words);
      some.push(this.last);
      for (const literal of literals) this.add(words, [-this.last, literal]);
    };
    for (const cube of cubes)
      say(`next comes: ${cubeText(this.circuit, cube)}`, cube.map(({ machine, flop, bit }) => this.pin(machine, this.circuit.flops[flop], 0, bit)));
    for (const net of this.circuit.outputs.filter(it => this.cone.has(it)))
      for (const bit of [0, 1]) say(`output ${net.name} shows ${bit}/${1 - bit}`, [this.seen(0, net, bit), this.seen(1, net, 1 - bit)]);
    this.add("some forbidden cube comes next, or some output differs", some);
  }

  // A literal in words.
  words(literal) {
    const name = this.names.get(Math.abs(literal)) || `variable ${Math.abs(literal)}`;
    return literal > 0 ? name : `not: ${name}`;
  }
}

const railText = (circuit, rail) => `${MACHINES[rail.machine]} ${circuit.flops[rail.flop].name} is surely ${rail.bit}`;
const cubeText = (circuit, cube) => cube.map(rail => railText(circuit, rail)).join(" and ");

// Follows the hints of a step: each but the last is a clause in which all literals are false but one, which is true from
// there on; the last one has none left. Gives what each hint says, and whether the step passes.
function followStep(clauses, literals, hints) {
  const facts = new Set(literals.map(literal => -literal)), forced = [];
  if (literals.some(literal => facts.has(literal))) return { passes: false, forced };
  for (const [place, hint] of hints.entries()) {
    const clause = clauses[hint - 1];
    if (!clause) return { passes: false, forced };
    const left = clause.literals.filter(literal => !facts.has(-literal));
    if (place === hints.length - 1) return { passes: left.length === 0, forced: [...forced, { hint, clause, literal: null }] };
    if (left.length !== 1 || facts.has(left[0])) return { passes: false, forced };
    facts.add(left[0]);
    forced.push({ hint, clause, literal: left[0] });
  }
  return { passes: false, forced };
}
