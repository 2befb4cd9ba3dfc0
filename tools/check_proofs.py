#!/usr/bin/env python3
"""Checks a netlist, tests, a report and proofs as `check` does, and shares no code with it.

    tools/check_proofs.py NETLIST TESTS REPORT PROOFS [--start FILE]

Written from docs/FORMATS.md and docs/DEFINITIONS.md, for whoever wants a second opinion: the answer, its stream and the
status are those of `./ht check`. 0: `valid`. 1: `denied: ` and the first trouble. 2: the words aren't four names, with at
most one start. 3: the netlist is refused. 4: a file can't be read. 5: the answer can't be written. 6: out of memory. 8: the
start is refused. Where gates form several cycles the two may name different ones. It needs Python 3.9 or later and nothing else, and is made to be read, not to be fast:
a vector takes about a microsecond for each gate and each fault that isn't detected yet.

Numbers of nets, gates, flip-flops, faults, vectors and variables count from 0 here, and from 1 in the texts.
"""
import itertools
import os
import re
import sys
from collections import Counter
from typing import NamedTuple

# ---- values, pairs of them, and sets of pairs
#
# A value is 0, 1 or X. A pair is a net's value in the good and in the faulty machine. A set of pairs is a number: bit
# 3 * good + faulty is 1 where the pair is a member.

X = 2
VALUES = 0, 1, X
AND = [[0, 0, 0], [0, 1, X], [0, X, X]]
OR = [[0, 1, X], [1, 1, 1], [X, 1, X]]
XOR = [[0, 1, X], [1, 0, X], [X, X, X]]
NOT = [1, 0, X]
PAIRS = list(itertools.product(VALUES, VALUES))


def set_of(*pairs):
    """The set of these pairs."""
    return sum({1 << 3 * good + faulty for good, faulty in pairs})


def members(pair_set):
    """The pairs of a set."""
    return [(good, faulty) for good, faulty in PAIRS if pair_set >> 3 * good + faulty & 1]


DIFFERENT = set_of((0, 1), (1, 0))
ALIKE = [set_of((value, value)) for value in VALUES]
BIT = ALIKE[0] | ALIKE[1]
ANY_ALIKE = BIT | ALIKE[X]
UNKNOWN = ALIKE[X]
COMPLEMENT = [set_of(*((NOT[good], NOT[faulty]) for good, faulty in members(s))) for s in range(512)]
STUCK = [[set_of(*((good, bit) for good, _ in members(s))) for s in range(512)] for bit in (0, 1)]


class SetTable(dict):
    """What an operation makes of two sets: its results for every choice of a member from each. Filled as it is asked."""

    def __init__(self, table):
        super().__init__()
        self.table = table

    def __missing__(self, sets):
        first, second = map(members, sets)
        table = self.table
        self[sets] = set_of(*((table[a][c], table[b][d]) for (a, b), (c, d) in itertools.product(first, second)))
        return self[sets]


AND_SETS, OR_SETS, XOR_SETS = SetTable(AND), SetTable(OR), SetTable(XOR)
FOLDS = {
    b"AND": AND_SETS, b"NAND": AND_SETS, b"OR": OR_SETS, b"NOR": OR_SETS,
    b"XOR": XOR_SETS, b"XNOR": XOR_SETS, b"NOT": AND_SETS, b"BUFF": AND_SETS,
}  # fmt: skip
INVERTING = {b"NAND", b"NOR", b"XNOR", b"NOT"}


def gate_set(kind, arguments):
    """What a gate makes of the sets at its pins."""
    fold, result = FOLDS[kind], arguments[0]
    for argument in arguments[1:]:
        result = fold[result, argument]
    return COMPLEMENT[result] if kind in INVERTING else result


# ---- lines of a text


def lines_of(text):
    """The lines of a text: without LF, and without one CR before it or at the end of the text."""
    lines = text.split(b"\n")
    if not lines[-1]:
        lines.pop()
    return [line[:-1] if line.endswith(b"\r") else line for line in lines]


# ---- netlists

MAX_NETLIST_BYTES = 16_777_216
MAX_ARGUMENTS = 255
LIMITS = [("nets", 65_535), ("pins", 262_144), ("inputs", 4_096), ("flip-flops", 16_384)]
TOKEN = re.compile(rb"[(),=]|[^ \t(),=]+")
MARKS = {b"(", b")", b",", b"="}
ONE_ARGUMENT = {b"DFF", b"NOT", b"BUFF"}
NAME = re.compile(rb"[!-~]{1,255}")


class Refused(Exception):
    """A netlist that stands for no circuit; the words after `netlist: `."""


class Statement(NamedTuple):
    """What a line of a netlist states: its kind (INPUT, OUTPUT, DFF or a gate's) and names, the driven net first."""

    kind: bytes
    names: list


def argument_names(tokens):
    """The names in `name , .. , name )`, or in `)` none; None where the tokens have another form."""
    if tokens == [b")"]:
        return []
    names, separators = tokens[0::2], tokens[1::2]
    if not tokens or len(names) != len(separators) or MARKS.intersection(names):
        return None
    return names if separators == [b","] * (len(names) - 1) + [b")"] else None


def form_of(tokens):
    """The statement that the tokens of a line have the form of; a bad line where they have none."""
    if len(tokens) >= 4 and tokens[1] == b"=" and not MARKS.intersection(tokens[0:3:2]) and tokens[3] == b"(":
        names = argument_names(tokens[4:])
        if names is not None:
            return Statement(tokens[2].upper(), [tokens[0], *names])
    elif len(tokens) == 4 and tokens[0].upper() in (b"INPUT", b"OUTPUT") and tokens[1::2] == [b"(", b")"]:
        if tokens[2] not in MARKS:
            return Statement(tokens[0].upper(), [tokens[2]])
    raise Refused(b"bad line")


def statement_of(line):
    """What a line states, None where it is empty. Raises its first refusal by itself."""
    tokens = TOKEN.findall(line.split(b"#", 1)[0])
    if not tokens:
        return None
    kind, names = form_of(tokens)
    if not all(NAME.fullmatch(name) for name in names):
        raise Refused(b"bad name")
    if tokens[1] != b"=":
        return Statement(kind, names)
    kind = b"BUFF" if kind == b"BUF" else kind
    if kind != b"DFF" and kind not in FOLDS:
        raise Refused(b"bad kind")
    count = len(names) - 1
    if count != 1 if kind in ONE_ARGUMENT else not 1 <= count <= MAX_ARGUMENTS:
        raise Refused(b"bad count")
    return Statement(kind, names)


class Draft:
    """A netlist in the making."""

    def __init__(self):
        self.mentions = {}  # the line of a name's first mention, in this order
        self.drivers = {}  # a name's line and statement
        self.outputs = {}  # the names of the outputs, as keys in their order
        self.counts = Counter()

    def add(self, number, statement):
        """Takes one more line's statement, or raises its refusal after those before."""
        driven = statement.names[0]
        if statement.kind == b"OUTPUT":
            self.outputs.setdefault(driven)
        elif driven in self.drivers:
            raise Refused(b"second driver " + driven)
        else:
            self.drivers[driven] = number, statement
        for name in statement.names:
            self.mentions.setdefault(name, number)
        self.counts["inputs"] += statement.kind == b"INPUT"
        self.counts["flip-flops"] += statement.kind == b"DFF"
        self.counts["pins"] += len(statement.names) - 1
        self.counts["nets"] = len(self.mentions)
        for counted, limit in LIMITS:
            if self.counts[counted] > limit:
                raise Refused(b"too many " + counted.encode())


class Gate(NamedTuple):
    """A gate: the net that it drives, its kind, and the nets at its pins."""

    net: int
    kind: bytes
    arguments: list


class Circuit(NamedTuple):
    """A circuit. Nets are numbered: inputs, flip-flops, gates, each in the order of its lines."""

    names: list  # by net
    inputs: int
    outputs: list  # nets
    data: list  # the net at the data pin, by flip-flop
    gates: list
    order: list  # the numbers of the gates, each after those that drive its arguments

    @property
    def flip_flops(self):
        return len(self.data)

    @property
    def first_gate_net(self):
        return self.inputs + len(self.data)


def cycle_below(root, reads, done):
    """Adds a name and all that it reads, directly or not, to those that are done, each after what it reads; or gives the
    names of a cycle among them, each read by the next, and the last by the first. What isn't a name of `reads` is no part."""
    path, waiting = {}, [(root, None)]
    while waiting:
        name, rest = waiting.pop()
        if rest is None:
            if name in done:
                continue
            if name in path:
                return list(path)[list(path).index(name) :][::-1]
            path[name], rest = True, iter(reads[name])
        argument = next((argument for argument in rest if argument in reads), None)
        if argument is None:
            del path[name]
            done[name] = True
        else:
            waiting += [(name, rest), (argument, None)]
    return None


def order_of(reads):
    """The names of a mapping, each after those that it reads, and a cycle among them or None."""
    done = {}
    cycles = (cycle_below(root, reads, done) for root in reads)
    cycle = next((cycle for cycle in cycles if cycle is not None), None)
    return list(done), cycle


def judge_whole(draft):
    """The names of the gates in an order, or raises the refusal of the text as a whole."""
    for name, line in draft.mentions.items():
        if name not in draft.drivers:
            raise Refused(b"line %d: undriven %s" % (line, name))
    gates = {name: s.names[1:] for name, (_, s) in draft.drivers.items() if s.kind not in (b"INPUT", b"DFF")}
    order, cycle = order_of(gates)
    if cycle is not None:
        in_cycle = set(cycle)
        first = cycle.index(next(name for name in draft.mentions if name in in_cycle))
        cycle = cycle[first:] + cycle[:first]
        raise Refused(b"line %d: loop %s" % (draft.drivers[cycle[0]][0], b" ".join(cycle)))
    return order


def circuit_of(draft):
    """The circuit of a whole netlist."""
    order = judge_whole(draft)
    statements = [statement for _, statement in draft.drivers.values()]
    inputs = [s.names[0] for s in statements if s.kind == b"INPUT"]
    dffs = [s.names for s in statements if s.kind == b"DFF"]
    gates = [s for s in statements if s.kind not in (b"INPUT", b"DFF")]
    names = inputs + [name for name, _ in dffs] + [gate.names[0] for gate in gates]
    net = {name: number for number, name in enumerate(names)}
    first = len(inputs) + len(dffs)
    return Circuit(
        names,
        len(inputs),
        [net[name] for name in draft.outputs],
        [net[data] for _, data in dffs],
        [Gate(net[g.names[0]], g.kind, [net[name] for name in g.names[1:]]) for g in gates],
        [net[name] - first for name in order],
    )


def read_netlist(text):
    """The circuit of a netlist, or raises its refusal."""
    if len(text) > MAX_NETLIST_BYTES:
        raise Refused(b"too long")
    draft = Draft()
    for number, line in enumerate(lines_of(text), 1):
        try:
            statement = statement_of(line)
            if statement is not None:
                draft.add(number, statement)
        except Refused as refusal:
            raise Refused(b"line %d: %s" % (number, refusal.args[0])) from None
    return circuit_of(draft)


# ---- faults and their classes


class Fault(NamedTuple):
    """A stuck line: ("stem", net), ("data", flip-flop) or ("pin", gate, pin)."""

    site: tuple
    stuck: int


def sites_of(circuit):
    """The fault sites: stems, then data pins and then gate pins whose net has two or more loads."""
    loads = Counter(circuit.outputs) + Counter(circuit.data)
    loads += Counter(argument for gate in circuit.gates for argument in gate.arguments)
    data = [("data", j) for j, net in enumerate(circuit.data) if loads[net] >= 2]
    pins = [
        ("pin", g, i)
        for g, gate in enumerate(circuit.gates)
        for i, net in enumerate(gate.arguments)
        if loads[net] >= 2
    ]
    return [("stem", net) for net in range(len(circuit.names))] + data + pins


def faults_of(circuit):
    """The fault list: each site stuck at 0 and then at 1."""
    return [Fault(site, stuck) for site in sites_of(circuit) for stuck in (0, 1)]


def site_name(circuit, site):
    """How a report names a site."""
    if site[0] == "stem":
        return circuit.names[site[1]]
    if site[0] == "data":
        return b"%s(1)" % circuit.names[circuit.inputs + site[1]]
    return b"%s(%d)" % (circuit.names[circuit.gates[site[1]].net], site[2] + 1)


def equivalent_faults(gate):
    """The pairs (stuck value of an input, stuck value of the output) that are equivalent at a gate."""
    if len(gate.arguments) == 1:
        return [(0, 1), (1, 0)] if gate.kind in INVERTING else [(0, 0), (1, 1)]
    return {b"AND": [(0, 0)], b"NAND": [(0, 1)], b"OR": [(1, 1)], b"NOR": [(1, 0)]}.get(gate.kind, [])


def leader(leaders, number):
    """The end of the chain of leaders from a fault on, which it shortens."""
    while leaders[number] != number:
        leaders[number] = leaders[leaders[number]]
        number = leaders[number]
    return number


def representatives_of(circuit, faults):
    """The representative of each fault: the least number of its class."""
    number = {fault: at for at, fault in enumerate(faults)}
    leaders = list(range(len(faults)))
    pins = ((gate, g, i, net) for g, gate in enumerate(circuit.gates) for i, net in enumerate(gate.arguments))
    for gate, g, i, net in pins:
        line = ("pin", g, i) if Fault(("pin", g, i), 0) in number else ("stem", net)
        for at_input, at_output in equivalent_faults(gate):
            a = leader(leaders, number[Fault(line, at_input)])
            b = leader(leaders, number[Fault(("stem", gate.net), at_output)])
            leaders[max(a, b)] = min(a, b)
    return [leader(leaders, at) for at in range(len(faults))]


# ---- frames, in which a net has the set of pairs that it may carry
#
# A set with one pair is a value of each machine, so simulation over 0, 1 and X is a frame of such sets.


def frame(circuit, fault, inputs, latches):
    """The sets of all nets in one frame. Without a fault both machines are the good one."""
    site, stuck = fault if fault else ((None,), 0)
    nets = inputs + latches + [0] * len(circuit.gates)
    if site[0] == "stem":
        nets[site[1]] = STUCK[stuck][nets[site[1]]]
    for g in circuit.order:
        net, kind, arguments = circuit.gates[g]
        sets = [nets[argument] for argument in arguments]
        if site[0] == "pin" and site[1] == g:
            sets[site[2]] = STUCK[stuck][sets[site[2]]]
        nets[net] = gate_set(kind, sets)
        if site == ("stem", net):
            nets[net] = STUCK[stuck][nets[net]]
    return nets


def next_state(circuit, fault, nets):
    """What the flip-flops take at the end of a frame."""
    state = [nets[net] for net in circuit.data]
    if fault and fault.site[0] == "data":
        state[fault.site[1]] = STUCK[fault.stuck][state[fault.site[1]]]
    return state


def unknown_state(circuit):
    """All flip-flops unknown in both machines."""
    return [UNKNOWN] * circuit.flip_flops


def frames(circuit, fault, vectors, latches):
    """Frame by frame what the outputs show and what the flip-flops take, from a state on."""
    for vector in vectors:
        nets = frame(circuit, fault, [ALIKE[bit] for bit in vector], latches)
        latches = next_state(circuit, fault, nets)
        yield [nets[net] for net in circuit.outputs], latches


START_VALUES = {ord("0"): 0, ord("1"): 1, ord("X"): X, ord("x"): X}


class StartRefused(Exception):
    """A text that is no start of the circuit; the words after `start: `."""


def read_start(circuit, text):
    """What each flip-flop holds before the first vector: one line with a character for each. A missing line is read as an
    empty one."""
    lines = lines_of(text) or [b""]
    if len(lines[0]) != circuit.flip_flops or not START_VALUES.keys() >= set(lines[0]):
        raise StartRefused(b"line 1")
    if len(lines) > 1:
        raise StartRefused(b"line 2")
    return [START_VALUES[character] for character in lines[0]]


def allows(start, state):
    """Whether a state has a bit for each flip-flop, and the start's value where that is 0 or 1."""
    return len(start) == len(state) and all(value in (X, bit) for value, bit in zip(start, state))


def first_detection(circuit, fault, vectors, latches=None):
    """The first vector, and there the first output, where the machines show opposite bits, or None.

    Without latches both machines start with every flip-flop unknown.
    """
    latches = unknown_state(circuit) if latches is None else latches
    for at, (outputs, _) in enumerate(frames(circuit, fault, vectors, latches)):
        if any(shown & DIFFERENT for shown in outputs):
            return at, next(o for o, shown in enumerate(outputs) if shown & DIFFERENT)
    return None


# ---- windows: frames whose inputs, and in two kinds latches, a walk decides
#
# A path has the decided values by variable. Variable f * n + i is input i of frame f, where there are n inputs.

SURE, DEAD, OPEN = "sure", "dead", "open"
FORWARD_FRAMES = 16
BACK_LIMIT = 32


def difference_status(places):
    """Sure where a place holds only opposite bits, dead where none may hold them, else open."""
    if any(not place & ~DIFFERENT for place in places):
        return SURE
    return OPEN if any(place & DIFFERENT for place in places) else DEAD


def decided_bit(path, var):
    """The set of a bit that both machines share: the decided one, or 0 and 1."""
    return ALIKE[path[var]] if var in path else BIT


class Window:
    """Frames of a good and a faulty machine from given sets of the latches; a difference at an output is looked for."""

    def __init__(self, circuit, fault, count, latches):
        self.circuit, self.fault, self.count, self.latches = circuit, fault, count, latches

    def may_decide(self, word, var):
        """Whether a token of this word may decide a variable."""
        return word != b"x" and var < self.count * self.circuit.inputs

    def inputs_at(self, path, f):
        first = f * self.circuit.inputs
        return [decided_bit(path, first + i) for i in range(self.circuit.inputs)]

    def status(self, path):
        places, latches = [], self.latches
        for f in range(self.count):
            nets = frame(self.circuit, self.fault, self.inputs_at(path, f), latches)
            latches = next_state(self.circuit, self.fault, nets)
            places += [nets[net] for net in self.circuit.outputs]
        return difference_status(places)

    def window_before(self, path):
        """The window that `before` goes to, or None where it may not."""
        return None


class OneFrameWindow(Window):
    """One frame in which the machines start alike but for the flip-flops of z. A difference is looked for at the outputs
    and in the next states outside z. Variable n + j is latch j, or in z its good half; n + m + j in z is its faulty half,
    where there are m flip-flops."""

    def __init__(self, circuit, fault, z):
        super().__init__(circuit, fault, 1, None)
        self.z = frozenset(z)

    def may_decide(self, word, var):
        first_gate = self.circuit.first_gate_net
        return word != b"x" and (var < first_gate or var - first_gate in self.z)

    def latch_set(self, path, j):
        good = decided_bit(path, self.circuit.inputs + j)
        if j not in self.z:
            return good
        faulty = decided_bit(path, self.circuit.first_gate_net + j)
        return set_of(*((a, b) for a, _ in members(good) for b, _ in members(faulty)))

    def sets_after(self, path):
        """The sets at the outputs, and the next states of all flip-flops."""
        latches = [self.latch_set(path, j) for j in range(self.circuit.flip_flops)]
        nets = frame(self.circuit, self.fault, self.inputs_at(path, 0), latches)
        return [nets[net] for net in self.circuit.outputs], next_state(self.circuit, self.fault, nets)

    def status(self, path):
        outputs, states = self.sets_after(path)
        return difference_status(outputs + [state for j, state in enumerate(states) if j not in self.z])


def meets(values, clause):
    """Whether some literal of a clause, a flip-flop and a bit, has its bit among values by flip-flop."""
    return any(values(j) == bit for j, bit in clause)


def breaks(values, clause):
    """Whether every literal of a clause has the other bit."""
    return all(values(j) == 1 - bit for j, bit in clause)


class ClauseWindow(OneFrameWindow):
    """A one-frame window under clauses on the good latches, which every state that counts meets: a path that breaks one is
    dead, and none is sure before it meets them all. Where a clause is given to be broken, its next states with the other
    bits are looked for in place of a difference, in the good machine."""

    def __init__(self, circuit, fault, z, clauses, broken=None):
        super().__init__(circuit, fault, z)
        self.clauses, self.broken = clauses, broken

    def breach_status(self, path):
        _, states = self.sets_after(path)
        wanted = [(states[j], ALIKE[1 - bit]) for j, bit in self.broken]
        if any(not state & want for state, want in wanted):
            return DEAD
        return SURE if all(state == want for state, want in wanted) else OPEN

    def status(self, path):
        decided = lambda j: path.get(self.circuit.inputs + j)
        if any(breaks(decided, clause) for clause in self.clauses):
            return DEAD
        status = super().status(path) if self.broken is None else self.breach_status(path)
        met = all(meets(decided, clause) for clause in self.clauses)
        return OPEN if status is SURE and not met else status


class BackWindow(Window):
    """One frame of the good machine, after which the latches are to have the values of a cube, where it has one; at most
    `limit` frames, this one among them, may lead there. Variable n + j is latch j, which may be unknown too."""

    def __init__(self, circuit, cube, limit):
        super().__init__(circuit, None, 1, None)
        self.cube, self.limit = cube, limit

    def may_decide(self, word, var):
        n = self.circuit.inputs
        return n <= var < self.circuit.first_gate_net if word == b"x" else var < n

    def status(self, path):
        if not self.cube:
            return SURE
        if not self.limit:
            return DEAD
        n = self.circuit.inputs
        latches = [ALIKE[path[n + j]] if n + j in path else ANY_ALIKE for j in range(self.circuit.flip_flops)]
        states = next_state(self.circuit, None, frame(self.circuit, None, self.inputs_at(path, 0), latches))
        if any(not states[j] & ALIKE[value] for j, value in self.cube.items()):
            return DEAD
        return SURE if all(states[j] == ALIKE[value] for j, value in self.cube.items()) else OPEN

    def window_before(self, path):
        cube = cube_of(self.circuit, path)
        return BackWindow(self.circuit, cube, self.limit - 1) if self.limit and cube else None


def cube_of(circuit, path):
    """The latches that a path decided to 0 or 1, with their values."""
    latches = range(circuit.flip_flops)
    return {j: path[circuit.inputs + j] for j in latches if path.get(circuit.inputs + j, X) != X}


# ---- walks

BRANCHES = {b"lo": (0, 1), b"hi": (1, 0), b"x": (0, 1, X)}


def children(window, path, token):
    """The nodes that come in the place of a node that takes a token, or None where the token doesn't fit."""
    word, var = token
    if word in BRANCHES and (var in path or not window.may_decide(word, var)):
        return None
    status = window.status(path)
    if word == b"dead":
        return [] if status is DEAD else None
    if word == b"before":
        before = window.window_before(path) if status is SURE else None
        return None if before is None else [(before, {})]
    return [(window, {**path, var: value}) for value in BRANCHES[word]] if status is OPEN else None


def nodes_left(window, tokens):
    """How many nodes are left after a walk of a window, or None where some token doesn't fit."""
    stack = [(window, {})]
    for token in tokens:
        below = children(*stack.pop(), token) if stack else None
        if below is None:
            return None
        stack += reversed(below)
    return len(stack)


def is_complete(window, tokens):
    """Every token fits, and no node is left."""
    return nodes_left(window, tokens) == 0


def is_open(window, tokens):
    """Every token fits, and a node is left."""
    return bool(nodes_left(window, tokens))


def fills(budget, unit, weight):
    """The weight is within the budget, and one more token of this unit isn't."""
    return weight <= budget < weight + unit


def is_spent(window, budget, tokens):
    """An open walk that fills the budget; a token weighs the frames of the window."""
    return fills(budget, window.count, window.count * len(tokens)) and is_open(window, tokens)


# ---- entries


class Told(NamedTuple):
    """A told frame: its place, ("output", o) or ("state", j), and the decided bits by variable."""

    place: tuple
    path: dict


class Aim(NamedTuple):
    """How the attempt at the first told frame ended: its word (forward, back or attempt), whether the search closed, its
    tokens, and the two lists of vectors of an attempt."""

    word: bytes
    closed: bool
    tokens: list
    justify: list
    ahead: list


class Entry:
    """What was read of an entry."""

    def __init__(self, number, kind):
        self.number, self.kind = number, kind
        self.z, self.told, self.sweep, self.clauses, self.sets = [], [], [], [], {}
        self.cubes, self.steps = [], []
        self.walk, self.aim, self.state = None, None, None


def told_set(circuit, fault, z, told):
    """The set at the place of a frame that is told where z may differ, or None where that is none of its places."""
    kind, at = told.place
    window = OneFrameWindow(circuit, fault, z)
    legal = all(window.may_decide(b"lo", var) for var in told.path)
    if not legal or at >= len(circuit.outputs if kind == b"output" else circuit.data) or kind == b"state" and at in z:
        return None
    outputs, states = window.sets_after(told.path)
    return outputs[at] if kind == b"output" else states[at]


def is_told_chain(circuit, fault, chain):
    """Each frame shows a difference for certain, where the flip-flops told before it may differ; none after an output."""
    z = []
    for place, told in enumerate(chain):
        held = told_set(circuit, fault, z, told)
        if held is None or held & ~DIFFERENT or told.place[0] == b"output" and place + 1 < len(chain):
            return False
        z += [told.place[1]] if told.place[0] == b"state" else []
    return True


def states_after(circuit, fault, told):
    """The pairs that the flip-flops hold after a told frame, from the latches that it decides; all others are unknown."""
    cube = cube_of(circuit, told.path)
    latches = [ALIKE[cube.get(j, X)] for j in range(circuit.flip_flops)]
    return next_state(circuit, fault, frame(circuit, fault, [ALIKE[bit] for bit in told_vector(circuit, told)], latches))


def told_vector(circuit, told):
    """The vector of a told frame: an input that it leaves undecided is 0."""
    return [told.path.get(i, 0) for i in range(circuit.inputs)]


def reaches(circuit, vectors, cube):
    """The vectors bring the good machine from all-unknown to the values of a cube."""
    state = unknown_state(circuit)
    for _, state in frames(circuit, None, vectors, state):
        pass
    return all(state[j] == ALIKE[value] for j, value in cube.items())


def goes_ahead(circuit, fault, told, ahead):
    """No list where the place is an output; else the last of at most 16 vectors shows the difference at an output."""
    if told.place[0] == b"output":
        return not ahead
    if not 1 <= len(ahead) <= FORWARD_FRAMES:
        return False
    *_, (outputs, _) = frames(circuit, fault, ahead, states_after(circuit, fault, told))
    return any(shown & DIFFERENT for shown in outputs)


def is_failed_attempt(circuit, fault, told, aim):
    """A list back that reaches the frame's latches, a list ahead that shows the difference, and both with the frame's
    vector between them detect nothing."""
    if any(len(vector) != circuit.inputs for vector in aim.justify + aim.ahead) or len(aim.justify) > BACK_LIMIT:
        return False
    whole = aim.justify + [told_vector(circuit, told)] + aim.ahead
    return (
        reaches(circuit, aim.justify, cube_of(circuit, told.path))
        and goes_ahead(circuit, fault, told, aim.ahead)
        and first_detection(circuit, fault, whole) is None
    )


def is_aim(circuit, fault, budget, told, aim):
    """The aim shows how the attempt at a told frame ended."""
    if aim.word == b"attempt":
        return is_failed_attempt(circuit, fault, told, aim)
    cube = cube_of(circuit, told.path)
    if aim.word == b"back":
        window = BackWindow(circuit, cube, BACK_LIMIT) if cube else None
    elif told.place[0] == b"state":
        window = Window(circuit, fault, FORWARD_FRAMES, states_after(circuit, fault, told))
    else:
        window = None
    if window is None:
        return False
    return is_complete(window, aim.tokens) if aim.closed else is_spent(window, budget, aim.tokens)


def is_sweep(circuit, fault, budget, walks):
    """Walks of the windows of 1 frame, 2 frames and so on from all-unknown, all complete but the last, which is open;
    together they fill the budget."""
    weight = sum(count * len(walk) for count, walk in enumerate(walks, 1))
    windows = [Window(circuit, fault, count, unknown_state(circuit)) for count in range(1, len(walks) + 1)]
    return (
        fills(budget, len(walks), weight)
        and all(is_complete(window, walk) for window, walk in zip(windows[:-1], walks))
        and is_open(windows[-1], walks[-1])
    )


class Clause(NamedTuple):
    """A clause on latches: its literals, each a flip-flop and a bit, and the walk of its closing window."""

    literals: list
    tokens: list


def is_invariant(circuit, state, clauses):
    """The state has a bit for each flip-flop and meets 1 to 32 clauses, and from a state that meets them no frame leads to
    one that doesn't."""
    literals = [clause.literals for clause in clauses]
    known = all(j < circuit.flip_flops for clause in literals for j, _ in clause)
    if len(state) != circuit.flip_flops or not 1 <= len(clauses) <= MAX_CLAUSES or not known:
        return False
    return all(meets(lambda j: state[j], clause) for clause in literals) and all(
        is_complete(ClauseWindow(circuit, None, [], literals, clause.literals), clause.tokens) for clause in clauses
    )


def closes(circuit, fault, start, sets):
    """These sets, and the start's pair alone for the flip-flops without one, are kept by every frame, and no output differs."""
    if any(j >= circuit.flip_flops for j in sets):
        return False
    family = [sets.get(j, ALIKE[value]) for j, value in enumerate(start)]
    nets = frame(circuit, fault, [BIT] * circuit.inputs, family)
    taken = next_state(circuit, fault, nets)
    return (
        all(ALIKE[value] & held for value, held in zip(start, family))
        and not any(more & ~held for more, held in zip(taken, family))
        and not any(nets[net] & DIFFERENT for net in circuit.outputs)
    )


# ---- forbidden cubes
#
# A rail is a machine, 0 for the good and 1 for the faulty one, a flip-flop and a bit: in this machine the flip-flop surely
# holds the bit. A literal is the number of a variable, or its negative. TRUE and FALSE stand for a stuck line while clauses
# are made, and for no variable.

TRUE, FALSE = "true", "false"
COMPLETE_PARITY = 8


def opposite(literal):
    """What is true where a literal is false."""
    return {TRUE: FALSE, FALSE: TRUE}[literal] if literal in (TRUE, FALSE) else -literal


def cone_of(circuit, site):
    """The nets to which the effect of a stuck line can come."""
    reading = [[] for _ in circuit.names]
    for gate in circuit.gates:
        for net in gate.arguments:
            reading[net].append(gate.net)
    for j, net in enumerate(circuit.data):
        reading[net].append(circuit.inputs + j)
    drives = {"stem": 0, "data": circuit.inputs, "pin": circuit.first_gate_net}[site[0]]
    cone, found = set(), [drives + site[1]]
    while found:
        net = found.pop()
        if net not in cone:
            cone.add(net)
            found += reading[net]
    return cone


class Formula:
    """Clauses that say: one frame after a state of both machines that avoids all cubes, a cube comes about or an output
    differs. `last` is the greatest variable."""

    def __init__(self, circuit, fault, cubes):
        self.circuit, self.fault, self.cone = circuit, fault, cone_of(circuit, fault.site)
        self.clauses, self.last = [], 4 * len(circuit.names)
        self.say_held()
        for g in range(len(circuit.gates)):
            self.say_gate(g)
        for cube in cubes:
            self.add(*(opposite(self.held(*rail)) for rail in cube))
        self.say_some(self.targets(cubes))

    def add(self, *literals):
        if TRUE not in literals:
            self.clauses.append({literal for literal in literals if literal != FALSE})

    def driven(self, machine, net, bit):
        """What drives a net is surely a bit. Outside the cone both machines have one variable for that."""
        apart = machine and net in self.cone
        return 2 * len(self.circuit.names) * apart + 2 * net + bit + 1

    def held(self, machine, j, bit):
        return self.driven(machine, self.circuit.inputs + j, bit)

    def at(self, site, machine, literal, bit):
        """A literal as it is seen at a site, which may be the one that is stuck."""
        if machine and site == self.fault.site:
            return TRUE if bit == self.fault.stuck else FALSE
        return literal

    def seen(self, machine, net, bit):
        """The loads of a net see that it is surely a bit."""
        return self.at(("stem", net), machine, self.driven(machine, net, bit), bit)

    def taken(self, machine, j, bit):
        """A flip-flop surely takes a bit for the next frame."""
        return self.at(("data", j), machine, self.seen(machine, self.circuit.data[j], bit), bit)

    def say_held(self):
        for net in range(self.circuit.first_gate_net):
            apart = net in self.cone and net >= self.circuit.inputs
            for machine in (0, 1) if apart else (0,):
                self.add(-self.driven(machine, net, 0), -self.driven(machine, net, 1))

    def say_gate(self, g):
        net = self.circuit.gates[g].net
        self.say_gate_of(0, g)
        if net in self.cone and self.fault.site != ("stem", net):
            self.say_gate_of(1, g)

    def say_gate_of(self, machine, g):
        """What a gate's output needs of its pins, in one machine."""
        net, kind, arguments = self.circuit.gates[g]
        pins = [
            [self.at(("pin", g, i), machine, self.seen(machine, argument, bit), bit) for bit in (0, 1)]
            for i, argument in enumerate(arguments)
        ]
        before = [self.driven(machine, net, bit ^ (kind in INVERTING)) for bit in (0, 1)]
        if len(pins) == 1:
            for bit in (0, 1):
                self.add(-before[bit], pins[0][bit])
        elif kind in (b"XOR", b"XNOR"):
            for bit in (0, 1):
                self.say_parity(before[bit], pins, bit)
        else:
            control = int(kind in (b"OR", b"NOR"))
            for pin in pins:
                self.add(-before[1 - control], pin[1 - control])
            self.add(-before[control], *(pin[control] for pin in pins))

    def say_parity(self, output, pins, bit):
        """An output that surely has this parity needs each pin to be sure, and excludes the choices of another parity."""
        for pin in pins:
            self.add(-output, *pin)
        if len(pins) <= COMPLETE_PARITY:
            for choice in itertools.product((0, 1), repeat=len(pins)):
                if sum(choice) % 2 != bit:
                    self.add(-output, *(opposite(pin[value]) for pin, value in zip(pins, choice)))

    def targets(self, cubes):
        """What must not come: each cube after the frame, and each way in which an output differs."""
        yield from ([self.taken(*rail) for rail in cube] for cube in cubes)
        for net in self.circuit.outputs:
            if net in self.cone:
                yield from ([self.seen(0, net, bit), self.seen(1, net, 1 - bit)] for bit in (0, 1))

    def say_some(self, targets):
        """Some target comes; those that can't have no variable."""
        some = []
        for target in targets:
            if FALSE not in target:
                self.last += 1
                some.append(self.last)
                for literal in target:
                    self.add(-self.last, literal)
        self.add(*some)


def is_contradiction(clauses, facts, hints):
    """Each hint but the last leaves one literal, which is true from there on; the last leaves none."""
    facts = set(facts)
    for place, hint in enumerate(hints, 1):
        if not 1 <= hint <= len(clauses):
            return False
        left = [literal for literal in clauses[hint - 1] if -literal not in facts]
        if place == len(hints):
            return not left
        if len(left) != 1 or left[0] in facts:
            return False
        facts.add(left[0])
    return False


def follow(clauses, steps):
    """Each step, its literals and its hints, follows from the clauses and the steps before it."""
    clauses = list(clauses)
    for literals, hints in steps:
        clause = set(literals)
        if any(-literal in clause for literal in clause) or not is_contradiction(clauses, {-l for l in clause}, hints):
            return False
        clauses.append(clause)
    return True


def refute(circuit, fault, start, cubes, steps):
    """The start avoids each cube, and the steps show that no vector leads to a cube or to a difference at an output."""
    cone = cone_of(circuit, fault.site)
    for machine, j, _ in itertools.chain(*cubes):
        if j >= circuit.flip_flops or machine and circuit.inputs + j not in cone:
            return False
    if any(all(start[j] == bit for _, j, bit in cube) for cube in cubes):
        return False
    formula = Formula(circuit, fault, cubes)
    known = all(abs(literal) <= formula.last for literals, _ in steps for literal in literals)
    return bool(steps) and not steps[-1][0] and known and follow(formula.clauses, steps)


def passes(circuit, fault, start, budget, entry):
    """Whether an entry shows what it says of its fault, from the start."""
    if entry.cubes:
        return refute(circuit, fault, start, entry.cubes, entry.steps)
    if entry.kind == b"undetectable":
        return closes(circuit, fault, start, entry.sets)
    if entry.state is not None:
        known = all(j < circuit.flip_flops for j in entry.z)
        window = ClauseWindow(circuit, fault, entry.z, [clause.literals for clause in entry.clauses])
        return known and is_invariant(circuit, entry.state, entry.clauses) and is_complete(window, entry.walk)
    if entry.kind == b"untestable":
        known = all(j < circuit.flip_flops for j in entry.z)
        return known and is_complete(OneFrameWindow(circuit, fault, entry.z), entry.walk)
    told_states = [told.place[1] for told in entry.told if told.place[0] == b"state"]
    ends_at_output = len(told_states) < len(entry.told)
    if (entry.walk is None) != ends_at_output or (entry.aim is None) != (not entry.told):
        return False
    return (
        is_told_chain(circuit, fault, entry.told)
        and (entry.walk is None or is_spent(OneFrameWindow(circuit, fault, told_states), budget, entry.walk))
        and (entry.aim is None or is_aim(circuit, fault, budget, entry.told[0], entry.aim))
        and is_sweep(circuit, fault, budget, entry.sweep)
    )


# ---- the text of proofs

MAX_NUMBER = 4_294_967_295
MAX_CLAUSES = 32
MAX_LINE_BYTES = 1_048_576
N, BITS = rb"([1-9][0-9]{0,9})", rb"(-|[01]{1,4096})"
NUMBER = rb"[1-9][0-9]{0,9}"
LINES = [
    (kind, re.compile(pattern))
    for kind, pattern in [
        ("proofs", rb"proofs ([123])"),
        ("entry", rb"entry " + N + rb" (untestable|aborted)"),
        ("from", rb"entry " + N + rb" untestable from ([01]{1,16384})"),
        ("by_sets", rb"entry " + N + rb" undetectable by sets"),
        ("pairs", rb"pairs " + N + rb" ([01X]{2}(?: [01X]{2})*)"),
        ("by_cubes", rb"entry " + N + rb" undetectable by cubes"),
        ("never", rb"never((?: (?:good|faulty) " + NUMBER + rb" [01])+)"),
        ("step", rb"step((?: -?" + NUMBER + rb")*) by((?: " + NUMBER + rb")+)"),
        ("clause", rb"clause " + N + rb" ([01])"),
        ("clause", rb"clause " + N + rb" ([01]) " + N + rb" ([01])"),
        ("z", rb"z " + N),
        ("walk", rb"walk"),
        ("token", rb"(lo|hi|x) " + N),
        ("token", rb"(dead|before)"),
        ("frame", rb"frame (output|state) " + N),
        ("set", rb"set " + N + rb" ([01])"),
        ("aim", rb"(forward|back) (closed|open)"),
        ("aim", rb"(attempt)"),
        ("justify", rb"justify " + BITS),
        ("ahead", rb"ahead " + BITS),
        ("sweep", rb"sweep"),
        ("length", rb"length " + N),
        ("end", rb"end"),
    ]
]
# Which lines may come where: by what was read last, the lines that may follow. A walk is one of a refutation or of an
# aborted entry.
ENDS_ENTRY = {"entry", "from", "by_sets", "by_cubes", "end"}
FOLLOWS = {
    "nothing": {"proofs"},
    "proofs": ENDS_ENTRY,
    "untestable": {"z", "walk"},
    "refutation": {"token"} | ENDS_ENTRY,
    "from": {"clause"},
    "clause": {"clause", "token", "z", "walk"},
    "late z": {"z", "walk"},
    "by_sets": {"pairs"} | ENDS_ENTRY,
    "pairs": {"pairs"} | ENDS_ENTRY,
    "by_cubes": {"never"},
    "never": {"never", "step"} | ENDS_ENTRY,
    "step": {"step"} | ENDS_ENTRY,
    "aborted": {"frame", "walk", "aim", "sweep"},
    "frame": {"set", "frame", "walk", "aim", "sweep"},
    "walk": {"token", "aim", "sweep"},
    "search": {"token", "sweep"},
    "attempt": {"justify", "ahead", "sweep"},
    "ahead": {"ahead", "sweep"},
    "sweep": {"length"},
    "length": {"token", "length"} | ENDS_ENTRY,
    "end": set(),
}


class Malformed(Exception):
    """A line that no proofs text has there."""


def is_bits(kind, at):
    """Whether a part of a line is a list of bits or of pairs, whose length counts."""
    return kind in ("justify", "ahead") or (kind, at) in (("from", 1), ("pairs", 1))


def parse_line(line):
    """The kind of a line and its parts: numbers as such, words and bits as bytes."""
    require(len(line) <= MAX_LINE_BYTES)
    for kind, pattern in LINES:
        match = pattern.fullmatch(line)
        if match:
            parts = [part if is_bits(kind, at) or not part.isdigit() else int(part) for at, part in enumerate(match.groups())]
            if any(isinstance(part, int) and part > MAX_NUMBER for part in parts):
                raise Malformed
            return kind, parts
    raise Malformed


def numbers_of(words):
    """Numbers after spaces, some negative."""
    numbers = [int(word) for word in words.split()]
    require(all(abs(number) <= MAX_NUMBER for number in numbers))
    return numbers


def require(holds):
    """What a text has to keep."""
    if not holds:
        raise Malformed


class ProofReader:
    """Reads a proofs text line by line."""

    def __init__(self):
        self.stands, self.entry, self.tokens, self.last, self.format = "nothing", None, None, 0, 0

    def take(self, line):
        """Takes a line, or raises Malformed. The number of the entry that it begins (None for `end`), and the entry that
        it ends (None where it ends none); None where the line does neither."""
        kind, parts = parse_line(line)
        require(kind in FOLLOWS[self.stands])
        ended = None
        if kind in ENDS_ENTRY:
            ended = (parts[0] if parts else None), self.entry
            self.entry = None
        self.stands = getattr(self, "take_" + kind)(*parts) or kind
        return ended

    def take_proofs(self, number):
        self.format = number

    def take_entry(self, number, kind):
        require(number > self.last)
        self.last, self.entry = number, Entry(number, kind)
        return kind.decode()

    def take_from(self, number, bits):
        require(self.format >= 2)
        self.take_entry(number, b"untestable")
        self.entry.state = [bit - ord("0") for bit in bits]

    def take_by_sets(self, number):
        require(self.format >= 3)
        self.take_entry(number, b"undetectable")

    def take_pairs(self, j, words):
        pairs = [tuple(VALUES[b"01X".index(value)] for value in word) for word in words.split(b" ")]
        require(not self.entry.sets or j - 1 > next(reversed(self.entry.sets)))
        require(pairs == sorted(set(pairs)))
        self.entry.sets[j - 1] = set_of(*pairs)

    def take_by_cubes(self, number):
        require(self.format >= 3)
        self.take_entry(number, b"undetectable")

    def take_never(self, words):
        rails = words.split()
        flip_flops = numbers_of(b" ".join(rails[1::3]))
        machines = [(b"good", b"faulty").index(word) for word in rails[0::3]]
        self.entry.cubes.append([(m, j - 1, int(bit)) for m, j, bit in zip(machines, flip_flops, rails[2::3])])

    def take_step(self, literals, hints):
        self.entry.steps.append((numbers_of(literals), numbers_of(hints)))

    def take_clause(self, *parts):
        literals = [(j - 1, bit) for j, bit in zip(parts[0::2], parts[1::2])]
        require(len(self.entry.clauses) < MAX_CLAUSES and (len(literals) == 1 or literals[0][0] < literals[1][0]))
        self.tokens = []
        self.entry.clauses.append(Clause(literals, self.tokens))

    def take_z(self, j):
        require(not self.entry.z or j - 1 > self.entry.z[-1])
        self.entry.z.append(j - 1)
        return "untestable" if self.entry.state is None else "late z"

    def take_walk(self):
        self.tokens = self.entry.walk = []
        return "refutation" if self.entry.kind == b"untestable" else "walk"

    def take_token(self, word, number=0):
        self.tokens.append((word, number - 1))
        return self.stands

    def take_frame(self, kind, number):
        self.entry.told.append(Told((kind, number - 1), {}))

    def take_set(self, number, bit):
        path = self.entry.told[-1].path
        require(not path or number - 1 > next(reversed(path)))
        path[number - 1] = bit
        return "frame"

    def take_aim(self, word, closed=b""):
        self.tokens = []
        self.entry.aim = Aim(word, closed == b"closed", self.tokens, [], [])
        return "attempt" if word == b"attempt" else "search"

    def take_justify(self, bits):
        self.add_vector(self.entry.aim.justify, bits)
        return "attempt"

    def take_ahead(self, bits):
        self.add_vector(self.entry.aim.ahead, bits)

    def add_vector(self, vectors, bits):
        vector = [bit - ord("0") for bit in bits] if bits != b"-" else []
        before = self.entry.aim.justify + self.entry.aim.ahead
        require(not before or len(before[0]) == len(vector))
        vectors.append(vector)

    def take_sweep(self):
        pass

    def take_length(self, count):
        require(count == len(self.entry.sweep) + 1)
        self.tokens = []
        self.entry.sweep.append(self.tokens)

    def take_end(self):
        pass


# ---- the files


class Denied(Exception):
    """The first trouble of files that aren't valid; the words after `denied: `."""


def read_tests(circuit, text):
    """The vectors of a tests text."""
    vectors = []
    for number, line in enumerate(lines_of(text), 1):
        if len(line) != circuit.inputs or line.strip(b"01"):
            raise Denied(b"tests line %d" % number)
        vectors.append([character - ord("0") for character in line])
    return vectors


# The verdicts, in the order in which a total counts them; some only where there are any. Two need no entry.
CLAIMS = b"detected", b"untestable", b"aborted", b"undetectable", b"undetected"
ALWAYS_COUNTED, WITHOUT_ENTRY = CLAIMS[:3], (b"detected", b"undetected")


class Files:
    """A circuit with its faults and their classes, the start, and what its files say one after the other."""

    def __init__(self, circuit):
        self.circuit = circuit
        self.start = [X] * circuit.flip_flops
        self.faults = faults_of(circuit)
        self.representatives = representatives_of(circuit, self.faults)
        self.vectors, self.budget = [], 0
        self.claims = {}  # the verdict that the report gives each representative, without the place of a detection

    def first_line(self):
        """The head of the report, up to its budget."""
        c, classes = self.circuit, len(set(self.representatives))
        sizes = c.inputs, len(c.outputs), c.flip_flops, len(c.gates), len(self.faults), classes
        return b"circuit inputs %d outputs %d flip-flops %d gates %d faults %d classes %d budget " % sizes

    def total_line(self):
        counts = Counter(self.claims.values())
        said = [b" %s %d" % (claim, counts[claim]) for claim in CLAIMS if counts[claim] or claim in ALWAYS_COUNTED]
        return b"total %d" % len(self.claims) + b"".join(said)

    def verdicts(self, number):
        """What a report that agrees with the tests may say of a fault, after the fault's name."""
        if self.representatives[number] != number:
            return [b"as %d" % (self.representatives[number] + 1)]
        latches = [ALIKE[value] for value in self.start]
        detection = first_detection(self.circuit, self.faults[number], self.vectors, latches)
        if detection is None:
            return list(CLAIMS[1:])
        return [b"detected %d %s" % (detection[0] + 1, self.circuit.names[self.circuit.outputs[detection[1]]])]

    def judge_fault_line(self, number, line):
        """Whether a report may have this line for a fault; what it says is kept."""
        site, stuck = self.faults[number]
        front = b"%d %s s-a-%d " % (number + 1, site_name(self.circuit, site), stuck)
        if not line.startswith(front) or line[len(front) :] not in self.verdicts(number):
            return False
        if self.representatives[number] == number:
            self.claims[number] = line[len(front) :].split(b" ")[0]
        return True

    def judge_head(self, line):
        front, budget = self.first_line(), line[len(self.first_line()) :]
        if not line.startswith(front) or not re.fullmatch(rb"[1-9][0-9]{0,5}", budget) or int(budget) > 100_000:
            return False
        self.budget = int(budget)
        return True

    def judge_report(self, text):
        """Reads the report, or denies its first line that is malformed or contradicts the tests."""
        lines, count = lines_of(text), len(self.faults) + 2
        for at, line in enumerate(lines):
            if at == 0:
                fits = self.judge_head(line)
            elif at < count - 1:
                fits = self.judge_fault_line(at - 1, line)
            else:
                fits = at == count - 1 and line == self.total_line()
            if not fits:
                raise Denied(b"report line %d" % (at + 1))
        if len(lines) < count:
            raise Denied(b"report line %d" % (len(lines) + 1))

    def judge_entry(self, entry):
        """Denies an entry that doesn't back what the report says. That of a detected fault isn't judged."""
        number = entry.number - 1
        claim = self.claims.get(number)
        if claim == b"detected":
            return
        allowed = entry.state is None or allows(self.start, entry.state)
        if claim != entry.kind or not allowed or not self.passes(number, entry):
            raise Denied(b"fault %d" % entry.number)

    def passes(self, number, entry):
        return passes(self.circuit, self.faults[number], self.start, self.budget, entry)

    def judge_proofs(self, text):
        """Reads the proofs, or denies the first line that is malformed or after which an entry is wrong or missing."""
        reader, lines = ProofReader(), lines_of(text)
        due = [number for number in sorted(self.claims) if self.claims[number] not in WITHOUT_ENTRY]
        for at, line in enumerate(lines, 1):
            try:
                ended = reader.take(line)
            except Malformed:
                raise Denied(b"proofs line %d" % at) from None
            if ended is not None:
                due = self.judge_ended(due, *ended)
        if reader.stands != "end":
            raise Denied(b"proofs line %d" % (len(lines) + 1))

    def judge_ended(self, due, begun, entry):
        """Judges the entry that a line ends; the faults that still need an entry, none of them before the one begun."""
        if entry is not None:
            self.judge_entry(entry)
            due = [number for number in due if number != entry.number - 1]
        if due and (begun is None or due[0] < begun - 1):
            raise Denied(b"fault %d" % (due[0] + 1))
        return due


def read_file(name):
    with open(name, "rb") as file:
        return file.read()


def judge(netlist, tests, report, proofs, start=None):
    """Reads the files of these names, each after those before it are accepted: the netlist, the start if one is stated, and
    then the tests, the report and the proofs."""
    files = Files(read_netlist(read_file(netlist)))
    if start is not None:
        files.start = read_start(files.circuit, read_file(start))
    files.vectors = read_tests(files.circuit, read_file(tests))
    files.judge_report(read_file(report))
    files.judge_proofs(read_file(proofs))


def answer(names, start=None):
    """The status of the run over four names, and a start's, and the line for the standard error."""
    try:
        judge(*names, start)
    except Denied as denied:
        return 1, b"denied: " + denied.args[0]
    except Refused as refused:
        return 3, b"netlist: " + refused.args[0]
    except OSError:
        return 4, b"read fault"
    except MemoryError:
        return 6, b"no memory"
    except StartRefused as refused:
        return 8, b"start: " + refused.args[0]
    return 0, b""


def is_option(word):
    """The word begins with `-` and has more after it."""
    return word.startswith("-") and word != "-"


def names_in(words):
    """The four names among the words and the start's or None; None where they have no form. The first `--` is left out, and
    each word after it is a name. `--start FILE` or `--start=FILE` stands at most once, the other words are names."""
    names, starts, left = [], [], list(words)
    while left:
        word = left.pop(0)
        if word == "--":
            names, left = names + left, []
        elif word == "--start" and left and not is_option(left[0]):
            starts.append(left.pop(0))
        elif word.startswith("--start="):
            starts.append(word[len("--start=") :])
        elif is_option(word):
            return None
        else:
            names.append(word)
    return (names, starts[0] if starts else None) if len(names) == 4 and len(starts) <= 1 else None


def put(stream, line):
    """Writes a line to a standard stream, or raises OSError."""
    text = line + b"\n"
    while text:
        text = text[os.write(stream, text) :]


def main():
    asked = names_in(sys.argv[1:])
    status, line = answer(*asked) if asked else (2, b"usage: check_proofs.py NETLIST TESTS REPORT PROOFS [--start FILE]")
    try:
        if status == 0:
            put(1, b"valid")
    except OSError:
        status, line = 5, b"write fault"
    try:
        if status != 0:
            put(2, line)
    except OSError:
        pass  # the status says it
    sys.exit(status)


if __name__ == "__main__":
    main()
