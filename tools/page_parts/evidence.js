// What an entry of the proofs says, as a list of steps that a reader can click: each has words, and most have the sets of
// pairs that lines may carry there. `holds` says whether the page's own sets bear the step out. The page explains; that
// the entry passes is the answer of `check`.

const OPEN_PLACES = "some output, or some flip-flop outside the set, may still differ";
const NO_PLACES = "no output and no flip-flop outside the set can differ";
// A step over sets has the fault that is in them as its site, or null where they are those of the good machine alone.
const step = (token, given, words, more = {}) => ({ token, given, words, sets: null, site: null, depth: 0, ...more });

// ---- windows of one frame

// What variable `v`, from 1, of a one-frame window is.
function variableOf(circuit, zeta, v) {
  const n = circuit.inputs.length, m = circuit.flops.length, k = v - 1;
  if (k < n) return circuit.inputs[k].name;
  if (k < n + m) return circuit.flops[k - n].name + (zeta.has(k - n) ? " (good)" : "");
  return k < n + 2 * m ? circuit.flops[k - n - m].name + " (faulty)" : `variable ${v}`;
}

const decisionText = (circuit, zeta, decided) =>
  decided.size ? [...decided].map(([v, bit]) => `${variableOf(circuit, zeta, v)} is ${bit}`).join(", ") : "nothing is decided";

// The pairs of a set whose halves are as decided.
const narrowed = (set, good, faulty) =>
  membersOf(set).filter(([g, f]) => (good === undefined || g === good) && (faulty === undefined || f === faulty)).reduce((made, [g, f]) => made | pairBit(g, f), 0);

// The sets of a one-frame window under decisions (variable from 1 to bit); `fault` null is the good machine alone.
function windowSets(circuit, fault, zeta, decided) {
  const n = circuit.inputs.length, m = circuit.flops.length;
  const inputs = circuit.inputs.map((_, i) => narrowed(EQUAL, decided.get(i + 1)));
  const latches = circuit.flops.map((_, j) =>
    zeta.has(j) ? narrowed(ANY, decided.get(n + j + 1), decided.get(n + m + j + 1)) : narrowed(EQUAL, decided.get(n + j + 1)));
  return setFrame(circuit, latches, inputs, fault);
}

const mayDiffer = (sets, zeta) => sets.outputs.some(set => set & DIFFERS) || sets.next.some((set, j) => !zeta.has(j) && set & DIFFERS);

// The steps of a walk over one-frame windows: for each token what was decided before it, and the sets there. `dead` says
// of sets and decisions why nothing is left to look for, or null.
function walkSteps(circuit, fault, zeta, tokens, dead, open = OPEN_PLACES) {
  const stack = [new Map()], steps = [];
  for (const token of tokens) {
    const decided = stack.pop();
    if (!decided) { steps.push(step(token, "", "no case is left", { holds: false })); break; }
    const sets = windowSets(circuit, fault, zeta, decided), why = dead(sets, decided);
    const found = /^(lo|hi) (\d+)$/.exec(token);
    const at = { sets, site: fault, depth: decided.size + 1 };
    const given = decisionText(circuit, zeta, decided);
    if (found) {
      const v = Number(found[2]), first = found[1] === "hi" ? 1 : 0;
      stack.push(new Map(decided).set(v, 1 - first), new Map(decided).set(v, first));
      steps.push(step(token, given, `${open}: decide ${variableOf(circuit, zeta, v)}, first to ${first}`, { ...at, holds: why === null }));
    } else steps.push(step(token, given, why || open, { ...at, holds: token === "dead" && why !== null }));
  }
  if (stack.length) steps.push(step("(the end)", "", `${stack.length} cases are left`, { holds: false }));
  return steps;
}

// ---- the kinds of entries

const zetaOf = lines => new Set(lines.filter(line => /^z /.test(line)).map(line => Number(line.slice(2)) - 1));
const namesIn = (circuit, zeta) => [...zeta].map(j => circuit.flops[j].name).join(", ");

function explainUntestable(circuit, fault, entry) {
  const zeta = zetaOf(entry.lines), held = namesIn(circuit, zeta);
  return {
    title: "Untestable: no list of vectors, of any length, shows this fault",
    words: [
      held
        ? `A difference may live in ${held} and can never leave: in a frame in which the machines agree in all other flip-flops, no output differs, and no other flip-flop takes different values.`
        : "Start both machines in one state. Whatever one frame brings, no output differs and no flip-flop takes different values; so they stay together for ever.",
      "The steps below split all that one frame can bring into cases. In each last case the pairs (good, faulty) that each line may carry show that nothing differs.",
      "Of a chip: with this fault, from every state that both have in common, it shows what a good one shows.",
    ],
    steps: walkSteps(circuit, fault, zeta, entry.lines.slice(entry.lines.indexOf("walk") + 1), sets => (mayDiffer(sets, zeta) ? null : NO_PLACES)),
  };
}

const readClause = line => {
  const numbers = line.split(" ").slice(1).map(Number);
  return numbers.flatMap((flop, i) => (i % 2 ? [] : [{ flop: flop - 1, bit: numbers[i + 1] }]));
};

// The clauses of an entry from a state, each with the tokens of its closing window.
function readClauses(lines) {
  const clauses = [];
  for (const line of lines) {
    if (/^clause /.test(line)) clauses.push({ line, literals: readClause(line), tokens: [] });
    else if (/^(z |walk$)/.test(line)) break;
    else clauses[clauses.length - 1].tokens.push(line);
  }
  return clauses;
}

function explainFromState(circuit, fault, entry) {
  const state = entry.head.slice("untestable from ".length), zeta = zetaOf(entry.lines), clauses = readClauses(entry.lines);
  const n = circuit.inputs.length, none = new Set();
  const text = clause => clause.literals.map(({ flop, bit }) => `${circuit.flops[flop].name} is ${bit}`).join(" or ");
  const broken = decided => clauses.find(clause => clause.literals.every(({ flop, bit }) => decided.get(n + flop + 1) === 1 - bit));
  const excluded = decided => { const clause = broken(decided); return clause ? `cannot come about: it breaks “${text(clause)}”` : null; };
  const steps = [];
  for (const clause of clauses) {
    const isMet = clause.literals.some(({ flop, bit }) => Number(state[flop]) === bit);
    steps.push(step(clause.line, `the state ${state}`, `${isMet ? "meets" : "does NOT meet"} “${text(clause)}”; can one frame of the good machine lead out of it?`, { holds: isMet }));
    const kept = sets => clause.literals.find(({ flop, bit }) => !(sets.next[flop] & pairBit(1 - bit, 1 - bit)));
    const dead = (sets, decided) => {
      const literal = kept(sets);
      return excluded(decided) || (literal ? `${circuit.flops[literal.flop].name} takes ${literal.bit}, so it is met again` : null);
    };
    steps.push(...walkSteps(circuit, null, none, clause.tokens, dead, "the clause may still be broken"));
  }
  steps.push(step("walk", "the clauses hold", "one frame of both machines"));
  const tokens = entry.lines.slice(entry.lines.lastIndexOf("walk") + 1);
  steps.push(...walkSteps(circuit, fault, zeta, tokens, (sets, decided) => excluded(decided) || (mayDiffer(sets, zeta) ? null : NO_PLACES)));
  return {
    title: `Untestable, shown from the state ${state}`,
    words: [
      `From ${state} on the good machine always keeps: ${clauses.map(text).join("; ")}.`,
      "In every frame from a state that keeps this, no output differs, and no flip-flop" + (zeta.size ? ` but ${namesIn(circuit, zeta)}` : "") + " takes different values. So no list of vectors shows the fault from that state, and none detects it from a start that allows the state.",
      "Of a chip: one that powers up in that state shows what a good one shows. From another state it may differ.",
    ],
    steps,
  };
}

function explainBySets(circuit, fault, entry, start) {
  const own = start.map(value => pairBit(value, value)), latches = [...own];
  for (const line of entry.lines) {
    const [, j, ...pairs] = line.split(" ");
    latches[Number(j) - 1] = pairs.reduce((set, pair) => set | (1 << PAIRS.indexOf(pair)), 0);
  }
  const sets = setFrame(circuit, latches, circuit.inputs.map(() => EQUAL), fault);
  const steps = [step("frame", "each flip-flop holds a pair of its set, inputs are 0 or 1", "one frame over these sets", { sets, site: fault })];
  circuit.flops.forEach((net, j) => {
    const isWithin = (sets.next[j] & ~latches[j]) === 0, hasStart = (latches[j] & own[j]) !== 0;
    steps.push(step("next " + net.name, `begins with ${showSet(own[j])}, may hold ${showSet(latches[j])}`,
      `takes ${showSet(sets.next[j])}, ${isWithin ? "within its set" : "NOT within its set"}${hasStart ? "" : "; the start isn't in its set"}`, { sets, site: fault, depth: 1, holds: isWithin && hasStart }));
  });
  circuit.outputs.forEach((net, o) => steps.push(step("output " + net.name, "", `shows ${showSet(sets.outputs[o])}: ${sets.outputs[o] & DIFFERS ? "opposite known values!" : "never opposite known values"}`,
    { sets, site: fault, depth: 1, holds: !(sets.outputs[o] & DIFFERS) })));
  return {
    title: "Undetectable: an unknown never resolves",
    words: [
      "Each flip-flop has a set of pairs (good, faulty). They begin in their sets, no vector leads out of the sets, and no output ever shows 0 against 1. So no list of vectors, however long, is sure to show the fault.",
      "Of a chip this says less: one with the fault may differ from a good one, at no vector that can be foretold.",
    ],
    steps,
  };
}

const readCube = line => [...line.matchAll(/(good|faulty) (\d+) ([01])/g)].map(found => ({ machine: MACHINES.indexOf(found[1]), flop: Number(found[2]) - 1, bit: Number(found[3]) }));

// A frame from states in which a cube comes about: its rails hold, all else may be anything.
function cubeSets(circuit, fault, cube) {
  const latches = circuit.flops.map((_, j) => {
    const bits = MACHINES.map((_, machine) => cube.filter(rail => rail.machine === machine && rail.flop === j).map(rail => rail.bit)[0]);
    return narrowed(ALL, bits[0], bits[1]);
  });
  return setFrame(circuit, latches, circuit.inputs.map(() => EQUAL), fault);
}

function explainByCubes(circuit, fault, entry, start) {
  const cubes = entry.lines.filter(line => /^never/.test(line)).map(readCube);
  const formula = new Formula(circuit, fault, cubes), clauses = [...formula.clauses], steps = [];
  cubes.forEach((cube, k) => {
    const isAvoided = cube.some(({ flop, bit }) => start[flop] !== bit);
    const isOfCone = cube.every(({ machine, flop }) => machine === 0 || formula.cone.has(circuit.flops[flop]));
    steps.push(step(entry.lines[k], "", `never ${cubeText(circuit, cube)}; the start ${isAvoided ? "avoids it" : "does NOT avoid it"}`, { sets: cubeSets(circuit, fault, cube), site: fault, holds: isAvoided && isOfCone }));
  });
  for (const line of entry.lines.filter(line => /^step/.test(line))) {
    const [said, by] = line.slice(4).split(" by");
    const literals = said.split(" ").filter(Boolean).map(Number), hints = by.split(" ").filter(Boolean).map(Number);
    const { passes, forced } = followStep(clauses, literals, hints);
    const chain = forced.map(({ hint, clause, literal }) => `${hint} (${clause.words}) ${literal === null ? "is a contradiction" : `gives ${formula.words(literal)}`}`).join("; ");
    steps.push(step(line, literals.length ? `suppose not: ${literals.map(it => formula.words(it)).join(" or ")}` : "suppose that some cube comes next, or some output differs", chain || "no hint", { depth: 1, holds: passes }));
    clauses.push({ words: `step ${clauses.length - formula.clauses.length + 1}`, literals });
  }
  return {
    title: "Undetectable: forbidden cubes",
    words: [
      `Never, whatever the vectors, ${cubes.map(cube => cubeText(circuit, cube)).join("; never ")}.`,
      `That no frame leads into one of these and none shows a difference is a formula of ${formula.clauses.length} clauses, and the steps below lead it to a contradiction: each takes what it says for false, and its hints are clauses that then leave one choice, until none is left.`,
      "So no list of vectors detects the fault. Of a chip this says less: one with the fault may differ at no vector that can be foretold.",
    ],
    steps,
  };
}

const SEARCHES = {
  walk: "the search for a refutation",
  "forward open": "the search ahead from the told frame, not finished",
  "forward closed": "the search ahead from the told frame: within 16 frames no vectors go on from it to a difference",
  "back open": "the search back to its cube, not finished",
  "back closed": "the search back to its cube: within 32 frames it isn't reached",
  attempt: "an attempt at a list, which doesn't detect the fault",
  sweep: "the search through all short lists",
};

// The told frames of an aborted entry, each a place that surely differs under its decisions.
function toldSteps(circuit, fault, lines) {
  const steps = [], zeta = new Set();
  for (let at = 0; at < lines.length && /^frame /.test(lines[at]); ) {
    const [, kind, k] = lines[at].split(" "), decided = new Map(), line = lines[at++];
    for (; at < lines.length && /^set /.test(lines[at]); at++) decided.set(...lines[at].split(" ").slice(1).map(Number));
    const sets = windowSets(circuit, fault, new Set(zeta), decided);
    const set = kind === "output" ? sets.outputs[k - 1] : sets.next[k - 1];
    const place = kind === "output" ? `output ${circuit.outputs[k - 1].name} differs` : `${circuit.flops[k - 1].name} takes different values`;
    steps.push(step(line, decisionText(circuit, zeta, decided), `then ${place} for certain`, { sets, site: fault, holds: set !== 0 && (set & ~DIFFERS) === 0 }));
    if (kind === "state") zeta.add(k - 1);
  }
  return steps;
}

// The searches of an aborted entry, each with how long it is.
function searchSteps(lines) {
  const steps = [];
  let part = null;
  for (const line of lines) {
    if (line in SEARCHES || /^length /.test(line)) {
      part = step(line, "", SEARCHES[line] || `all lists of ${line.slice(7)} vectors`, { depth: /^length/.test(line) ? 1 : 0, count: 0 });
      steps.push(part);
    } else if (part) part.given = `${++part.count} ${part.token === "attempt" ? "vectors" : "tokens"}`;
  }
  return steps;
}

function explainAborted(circuit, fault, entry) {
  const told = toldSteps(circuit, fault, entry.lines);
  const searches = entry.lines.slice(entry.lines.findIndex(line => !/^(frame|set) /.test(line)));
  return {
    title: "Aborted: nothing is known of this fault",
    words: ["The searches spent their budget before they found a list or a proof. The record says what was searched, so nobody has to take “gave up” on trust. A larger budget may decide it."],
    steps: [...told, ...searchSteps(searches)],
  };
}

function explain(circuit, fault, entry, start) {
  if (entry.head === "untestable") return explainUntestable(circuit, fault, entry);
  if (/^untestable from /.test(entry.head)) return explainFromState(circuit, fault, entry);
  if (entry.head === "undetectable by sets") return explainBySets(circuit, fault, entry, start);
  if (entry.head === "undetectable by cubes") return explainByCubes(circuit, fault, entry, start);
  return explainAborted(circuit, fault, entry);
}
