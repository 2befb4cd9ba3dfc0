"""Entries by forbidden cubes: which of them pass, and a maker of such entries.

The maker takes a family of sets that closes: the rails that no pair of a set has are cubes, and a search with unit
propagation shows step by step that no vector leads to one.
"""
import itertools

from plain import entries, netlists

GOOD, FAULTY = 0, 1
YES, NO = "yes", "no"
OTHER = {YES: NO, NO: YES}
MOST_PARITY = 8


def negated(literal):
    return OTHER[literal] if literal in OTHER else -literal


# ---- the formula


def reached(circuit, site):
    """The numbers of the nets to which the effect of a fault site can come: its cone."""
    number = {net: at for at, net in enumerate(circuit.nets())}
    driven = [(net, [pin]) for net, pin in circuit.flip_flops] + [(net, args) for _, net, args in circuit.gates]
    kind, *at = site
    first = {"stem": at[0], "data pin": circuit.flip_flops[at[0]][0] if kind == "data pin" else None}.get(kind)
    first = circuit.gates[at[0]][1] if kind == "pin" else first
    cone, size = {first}, 0
    while len(cone) != size:
        size = len(cone)
        cone |= {net for net, args in driven if cone.intersection(args)}
    return {number[net] for net in cone}


class Formula:
    """The clauses for one fault and cubes, each cube a list of (machine, flip-flop, bit)."""

    def __init__(self, circuit, fault, cubes):
        self.circuit, (self.site, self.value) = circuit, fault
        self.number = {net: at for at, net in enumerate(circuit.nets())}
        self.cone, self.clauses = reached(circuit, self.site), []
        self.frame()
        for cube in cubes:
            self.clause([negated(self.latch(*rail)) for rail in cube])
        self.variables = 4 * len(self.number)
        self.some(self.cubes_after(cubes) + self.differences())

    def clause(self, literals):
        if YES not in literals:
            self.clauses.append(frozenset(literals) - {NO})

    def rail(self, machine, net, bit):
        number = self.number[net]
        return 2 * len(self.number) * (machine == FAULTY and number in self.cone) + 2 * number + bit + 1

    def latch(self, machine, j, bit):
        return self.rail(machine, self.circuit.flip_flops[j][0], bit)

    def behind(self, site, machine, bit, literal):
        """A literal behind a site: a constant where the fault is there."""
        return literal if machine == GOOD or site != self.site else YES if bit == self.value else NO

    def load(self, machine, net, bit):
        return self.behind(("stem", net), machine, bit, self.rail(machine, net, bit))

    def frame(self):
        latches = [net for net, _ in self.circuit.flip_flops]
        for net in self.circuit.inputs + latches:
            self.clause([-self.rail(GOOD, net, 0), -self.rail(GOOD, net, 1)])
            if net in latches and self.number[net] in self.cone:
                self.clause([-self.rail(FAULTY, net, 0), -self.rail(FAULTY, net, 1)])
        for g, (kind, net, args) in enumerate(self.circuit.gates):
            self.gate(GOOD, g, kind, net, args)
            if self.number[net] in self.cone and self.site != ("stem", net):
                self.gate(FAULTY, g, kind, net, args)

    def gate(self, machine, g, kind, net, args):
        behind = lambda i, arg, bit: self.behind(("pin", g, i), machine, bit, self.load(machine, arg, bit))
        pins = [tuple(behind(i, arg, bit) for bit in (0, 1)) for i, arg in enumerate(args)]
        turned = kind in netlists.INVERTING
        out = [self.rail(machine, net, bit ^ turned) for bit in (0, 1)]
        if len(pins) == 1:
            self.clause([-out[0], pins[0][0]])
            self.clause([-out[1], pins[0][1]])
        elif kind in (b"XOR", b"XNOR"):
            for bit in (0, 1):
                for pin in pins:
                    self.clause([-out[bit], *pin])
                choices = itertools.product((0, 1), repeat=len(pins)) if len(pins) <= MOST_PARITY else ()
                for choice in choices:
                    if sum(choice) & 1 != bit:
                        self.clause([-out[bit]] + [negated(pin[value]) for pin, value in zip(pins, choice)])
        else:
            control = 1 if kind in (b"OR", b"NOR") else 0
            for pin in pins:
                self.clause([-out[1 - control], pin[1 - control]])
            self.clause([-out[control]] + [pin[control] for pin in pins])

    def after(self, machine, j, bit):
        return self.behind(("data pin", j), machine, bit, self.load(machine, self.circuit.flip_flops[j][1], bit))

    def cubes_after(self, cubes):
        return [[self.after(*rail) for rail in cube] for cube in cubes]

    def differences(self):
        outputs = [net for net in dict.fromkeys(self.circuit.outputs) if self.number[net] in self.cone]
        return [[self.load(GOOD, net, bit), self.load(FAULTY, net, 1 - bit)] for net in outputs for bit in (0, 1)]

    def some(self, targets):
        """One of the targets comes, but for those that can't."""
        names = []
        for target in targets:
            if NO in target:
                continue
            self.variables += 1
            names.append(self.variables)
            for literal in target:
                self.clause([-self.variables, literal])
        self.clause(names)


# ---- the judge


def step_passes(clauses, literals, hints):
    """Whether the hints show a clause after those before it."""
    true = {-literal for literal in literals}
    if true & set(literals):
        return False
    for at, hint in enumerate(hints):
        if not 1 <= hint <= len(clauses):
            return False
        open_ones = [literal for literal in clauses[hint - 1] if -literal not in true]
        if at + 1 == len(hints):
            return not open_ones
        if len(open_ones) != 1 or open_ones[0] in true:
            return False
        true.add(open_ones[0])
    return False


def passes(circuit, fault, start, entry):
    """Whether cubes and steps refute a fault from a start."""
    latches = [net for net, _ in circuit.flip_flops]
    numbers, cone = {net: at for at, net in enumerate(circuit.nets())}, reached(circuit, fault[0])
    for machine, j, bit in itertools.chain(*entry.cubes):
        if j >= len(latches) or machine == FAULTY and numbers[latches[j]] not in cone:
            return False
    if any(all(start[j] == bit for _, j, bit in cube) for cube in entry.cubes):
        return False
    formula = Formula(circuit, fault, entry.cubes)
    clauses = list(formula.clauses)
    if not entry.steps or entry.steps[-1][0]:
        return False
    if any(abs(literal) > formula.variables for literals, _ in entry.steps for literal in literals):
        return False
    for literals, hints in entry.steps:
        if not step_passes(clauses, literals, hints):
            return False
        clauses.append(frozenset(literals))
    return True


# ---- the maker


def cubes_of(family, apart):
    """The rails, alone or in pairs of one flip-flop, that no pair of its set has. A flip-flop of the faulty machine that
    isn't in the cone has no rail of its own."""
    cubes = []
    for j, pairs in enumerate(family):
        shown = [{pair[machine] for pair in pairs} for machine in (GOOD, FAULTY)]
        alone = [(machine, j, bit) for machine in (GOOD, FAULTY) for bit in (0, 1) if bit not in shown[machine]]
        both = [((GOOD, j, a), (FAULTY, j, b)) for a in (0, 1) for b in (0, 1) if (a, b) not in pairs]
        cubes += [[rail] for rail in alone if rail[0] == GOOD or j in apart]
        cubes += [list(two) for two in both if not set(two) & set(alone) and j in apart]
    return cubes


def propagated(clauses, decided):
    """What follows from decided literals, as (literal, clause number) in order, and the number of a clause that fails."""
    true, followed = set(decided), []
    while True:
        for number, clause in enumerate(clauses, 1):
            left = [literal for literal in clause if -literal not in true]
            if not left:
                return followed, number
            if len(left) == 1 and left[0] not in true:
                true.add(left[0])
                followed.append((left[0], number))
                break
        else:
            return followed, None


def add_steps(clauses, decided, steps, most):
    """Adds steps that end with the clause against the decided literals; whether one was found within so many."""
    if len(steps) > most:
        return False
    followed, failed = propagated(clauses, decided)
    if failed is None:
        settled = {abs(literal) for literal, _ in followed} | {abs(literal) for literal in decided}
        free = next((abs(l) for clause in clauses for l in clause if abs(l) not in settled), None)
        if free is None or not all(add_steps(clauses, [*decided, literal], steps, most) for literal in (free, -free)):
            return False
        followed, failed = propagated(clauses, decided)
    literals = tuple(-literal for literal in decided)
    steps.append((literals, tuple(number for _, number in followed) + (failed,)))
    clauses.append(frozenset(literals))
    return True


def entry_of(circuit, fault, family, most=60):
    """The entry of a fault whose family closes, or None where its steps get too many."""
    number = {net: at for at, net in enumerate(circuit.nets())}
    cone = reached(circuit, fault[0])
    apart = {j for j, (net, _) in enumerate(circuit.flip_flops) if number[net] in cone}
    cubes, steps = cubes_of(family, apart), []
    if not cubes or not add_steps(list(Formula(circuit, fault, cubes).clauses), [], steps, most):
        return None
    return entries.UndetectableByCubes([tuple(cube) for cube in cubes], steps)


def other(rng, entry):
    """Another entry: a rail, a literal or a hint dropped or changed, a cube or a step dropped or doubled."""
    cubes, steps = list(entry.cubes), list(entry.steps)
    how = rng.randrange(6)
    if how == 0:
        at = rng.randrange(len(cubes))
        cubes[at : at + 1] = rng.choice([[], [cubes[at]] * 2]) if len(cubes) > 1 else cubes
    elif how == 1:
        at, to = rng.randrange(len(cubes)), rng.randrange(len(cubes))
        machine, j, bit = rng.choice(cubes[at])
        rail = rng.choice([(1 - machine, j, bit), (machine, j + 1, bit), (machine, j, 1 - bit)])
        cubes[at] = rng.choice([(*cubes[at], rail), (rail,), cubes[to]])
    elif how == 2 and steps:
        at = rng.randrange(len(steps))
        steps[at : at + 1] = rng.choice([[], [steps[at]] * 2])
    elif steps:
        at = rng.randrange(len(steps))
        literals, hints = steps[at]
        place = rng.randrange(len(hints))
        if how == 3:
            hints = hints[:place] + hints[place + 1 :] if len(hints) > 1 else hints
        elif how == 4:
            hints = hints[:place] + (max(hints[place] + rng.choice([-1, 1, 1_000]), 1),) + hints[place:]
        else:
            literals = rng.choice([literals[1:], (*literals, rng.choice([-1, 1]) * rng.randint(1, 40)), literals[::-1]])
        steps[at] = literals, hints
    return entries.UndetectableByCubes(cubes, steps)
