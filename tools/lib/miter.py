"""The good and the faulty machine of a stuck line side by side over three values, as a circuit of two-valued logic (AIGER).

A value is two bits, its rails: whether it is 0 for certain, and whether it is 1 for certain; unknown is neither. A flip-flop
is two latches. The one output is 1 exactly in a frame in which some output of the circuit shows opposite definite values. So a
model checker that proves it always 0 says that no list of vectors detects the fault, and a trace that it finds is a list that
does. Faulty nets outside the fault's cone are the good ones. model/confirm and tools/close use it; nothing is taken from it
without a check.
"""
import check_proofs

FALSE, TRUE = 0, 1


class Aiger:
    """Conjunctions over inputs and latches; a literal is twice a node's number, plus one where it is negated (AIGER 1.9)."""

    def __init__(self, inputs, latches):
        self.inputs, self.latches = inputs, latches
        self.ands, self.known = [], {}

    def input(self, at):
        return 2 * (1 + at)

    def latch(self, at):
        return 2 * (1 + self.inputs + at)

    def both(self, a, b):
        a, b = sorted((a, b))
        if a == FALSE or a == b ^ 1:
            return FALSE
        if a == TRUE or a == b:
            return b
        if (a, b) not in self.known:
            self.known[a, b] = 2 * (1 + self.inputs + self.latches + len(self.ands))
            self.ands.append((b, a))
        return self.known[a, b]

    def either(self, a, b):
        return self.both(a ^ 1, b ^ 1) ^ 1

    def text(self, nexts, output):
        """The binary form; each latch is 0 before the first frame."""
        sizes = self.inputs + self.latches + len(self.ands), self.inputs, self.latches, len(self.ands)
        parts = [b"aig %d %d %d 1 %d\n" % sizes, *(b"%d\n" % literal for literal in nexts), b"%d\n" % output]
        for at, (high, low) in enumerate(self.ands):
            literal = 2 * (1 + self.inputs + self.latches + at)
            parts += [delta(literal - high), delta(high - low)]
        return b"".join(parts)


def delta(number):
    """A number in groups of seven bits, the lowest first."""
    groups = bytearray()
    while number > 127:
        groups.append(number & 127 | 128)
        number >>= 7
    return bytes([*groups, number])


# ---- values as (is 0, is 1)


def negated(value):
    return value[1], value[0]


def conjunction(aiger, a, b):
    return aiger.either(a[0], b[0]), aiger.both(a[1], b[1])


def parity(aiger, a, b):
    same = aiger.either(aiger.both(a[0], b[0]), aiger.both(a[1], b[1]))
    return same, aiger.either(aiger.both(a[0], b[1]), aiger.both(a[1], b[0]))


def gate_value(aiger, kind, arguments):
    is_or = kind in (b"OR", b"NOR")
    value, *rest = map(negated, arguments) if is_or else arguments
    for argument in rest:
        value = (parity if kind in (b"XOR", b"XNOR") else conjunction)(aiger, value, argument)
    return negated(value) if is_or != (kind in check_proofs.INVERTING) else value


def constant(bit):
    return (FALSE, TRUE) if bit else (TRUE, FALSE)


# ---- machines


def root_of(circuit, fault):
    """The net at which a fault's cone begins."""
    kind, at, *_ = fault.site
    return {"stem": lambda: at, "data": lambda: circuit.inputs + at, "pin": lambda: circuit.gates[at].net}[kind]()


def cone_of(circuit, fault):
    """The nets that the fault may reach, through flip-flops too."""
    readers = {}
    for j, net in enumerate(circuit.data):
        readers.setdefault(net, []).append(circuit.inputs + j)
    for gate in circuit.gates:
        for net in gate.arguments:
            readers.setdefault(net, []).append(gate.net)
    cone, waiting = set(), [root_of(circuit, fault)]
    while waiting:
        net = waiting.pop()
        if net not in cone:
            cone.add(net)
            waiting += readers.get(net, [])
    return cone


def nets_of(aiger, circuit, sources, fault=None, good=None, cone=()):
    """The value of each net of a machine in a frame, by the values of inputs and flip-flops. Outside the cone the faulty
    machine has the good one's."""
    site, stuck = fault if fault else ((None,), 0)
    nets = list(sources) + [None] * len(circuit.gates)
    if site[0] == "stem" and site[1] < len(sources):
        nets[site[1]] = constant(stuck)
    for g in circuit.order:
        net, kind, arguments = circuit.gates[g]
        if fault and net not in cone:
            nets[net] = good[net]
            continue
        values = [nets[argument] for argument in arguments]
        if site[:2] == ("pin", g):
            values[site[2]] = constant(stuck)
        nets[net] = constant(stuck) if site == ("stem", net) else gate_value(aiger, kind, values)
    return nets


def rails(circuit, fault):
    """What each latch stands for: a machine, 1 being the faulty one, a flip-flop and a bit."""
    cone = cone_of(circuit, fault)
    inside = [j for j in range(circuit.flip_flops) if circuit.inputs + j in cone]
    held = [(0, j) for j in range(circuit.flip_flops)] + [(1, j) for j in inside]
    return [(machine, j, bit) for machine, j in held for bit in (0, 1)]


def says_more(start):
    """Whether a start isn't all-unknown."""
    return any(value != check_proofs.X for value in start or [])


def miter(circuit, fault, start=None):
    """The AIGER text for a fault from a start, or else all-unknown; None where no output can ever differ.

    All latches are 0 at first: all-unknown. A start that says more is loaded after each frame in which one more input, the
    last one, is 1. So the start is one of the states that are reached, all-unknown shows no more than it does, and what is
    known only ever helps: what a model checker keeps out are sets of rails that hold.
    """
    cone = cone_of(circuit, fault)
    held, loads = rails(circuit, fault), says_more(start)
    aiger = Aiger(circuit.inputs + loads, max(len(held), 1))
    latch = {rail: aiger.latch(at) for at, rail in enumerate(held)}
    inputs = [(aiger.input(i) ^ 1, aiger.input(i)) for i in range(circuit.inputs)]
    states = [tuple(latch[0, j, bit] for bit in (0, 1)) for j in range(circuit.flip_flops)]
    good = nets_of(aiger, circuit, inputs + states)
    own = [tuple(latch.get((1, j, bit), state[bit]) for bit in (0, 1)) for j, state in enumerate(states)]
    faulty = nets_of(aiger, circuit, inputs + own, fault, good, cone)
    taken = [[machine[net] for net in circuit.data] for machine in (good, faulty)]
    if fault.site[0] == "data":
        taken[1][fault.site[1]] = constant(fault.stuck)
    nexts = [taken[machine][j][bit] for machine, j, bit in held] or [FALSE]
    if loads:
        load = aiger.input(circuit.inputs)
        at_start = [start[j] == bit for _, j, bit in held]
        nexts = [aiger.either(load, it) if known else aiger.both(load ^ 1, it) for it, known in zip(nexts, at_start)]
    differs = FALSE
    for net in circuit.outputs:
        opposite = [aiger.both(good[net][bit], faulty[net][1 - bit]) for bit in (0, 1)]
        differs = aiger.either(differs, aiger.either(*opposite))
    return None if differs == FALSE else aiger.text(nexts, differs)
