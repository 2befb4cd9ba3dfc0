"""Windows over sets of pairs, the walks in them, and runs in three values."""
import functools
import itertools

from plain import entries, simulation
from plain.simulation import X

LO, HI, THREE, DEAD, BEFORE = entries.TOKENS
DIFFERENT = frozenset([(0, 1), (1, 0)])
FORWARD_FRAMES, BACK_LIMIT, TRIED_FRAMES, MOST_FRAMES = 16, 32, 64, 447


# ---- sets of pairs (good, faulty)


def same(*values):
    return frozenset((value, value) for value in values)


def stuck(fault, site, pairs):
    return frozenset((good, fault[1]) for good, _ in pairs) if fault and fault[0] == site else pairs


@functools.lru_cache(100_000)
def lifted(kind, pins):
    values = (zip(*pairs) for pairs in itertools.product(*pins))
    return frozenset(tuple(simulation.gate_value(kind, half) for half in halves) for halves in values)


# ---- windows


class Window:
    """Some frames of a circuit and a fault, from ("one", Z), ("sweep",), ("forward", good, faulty) or ("back", cube, limit)."""

    def __init__(self, circuit, fault, frames, *start):
        self.circuit, self.fault, self.frames, self.start = circuit, fault, frames, start
        self.inputs, self.latches = len(circuit.inputs), len(circuit.flip_flops)

    def first_latch(self, path, j):
        decided = path.get(self.inputs + j)
        values = (0, 1) if decided is None else (decided,)
        if self.start[0] == "one" and j in self.start[1]:
            half = path.get(self.inputs + self.latches + j)
            return frozenset(itertools.product(values, (0, 1) if half is None else (half,)))
        if self.start[0] == "one":
            return same(*values)
        if self.start[0] == "sweep":
            return same(X)
        if self.start[0] == "forward":
            return frozenset([(self.start[1][j], self.start[2][j])])
        return same(0, 1, X) if decided is None else same(decided)

    def cells(self, path):
        """The set of each net, and what the flip-flops take, frame by frame."""
        circuit, fault, frames = self.circuit, self.fault, []
        latches = [self.first_latch(path, j) for j in range(self.latches)]
        for frame in range(self.frames):
            decided = [path.get(frame * self.inputs + i) for i in range(self.inputs)]
            nets = {net: same(0, 1) if value is None else same(value) for net, value in zip(circuit.inputs, decided)}
            nets |= {net: pairs for (net, _), pairs in zip(circuit.flip_flops, latches)}
            nets = {net: stuck(fault, ("stem", net), pairs) for net, pairs in nets.items()}
            for g in circuit.order:
                kind, net, args = circuit.gates[g]
                pins = tuple(stuck(fault, ("pin", g, i), nets[arg]) for i, arg in enumerate(args))
                nets[net] = stuck(fault, ("stem", net), lifted(kind, pins))
            latches = [stuck(fault, ("data pin", j), nets[pin]) for j, (_, pin) in enumerate(circuit.flip_flops)]
            frames.append((nets, latches))
        return frames

    def places(self):
        """The places of a window in which a difference is looked for."""
        places = [(f, "output", o) for f in range(self.frames) for o in range(len(self.circuit.outputs))]
        outside = [j for j in range(self.latches) if j not in self.start[1]] if self.start[0] == "one" else []
        return places + [(0, "state", j) for j in outside]

    def at(self, cells, place):
        frame, kind, index = place
        return cells[frame][0][self.circuit.outputs[index]] if kind == "output" else cells[frame][1][index]

    def wanted(self):
        """The next states that are looked for, in a window that looks for no difference."""
        return [(j, value) for j, value in enumerate(self.start[1]) if value != X]

    def status_of_difference(self, cells):
        sets = [(place, self.at(cells, place)) for place in self.places()]
        sure = next((place for place, pairs in sets if pairs <= DIFFERENT), None)
        return ("sure" if sure else "open" if any(pairs & DIFFERENT for _, pairs in sets) else "dead"), sure

    def status_of_wanted(self, cells):
        nexts = [(cells[0][1][j], value) for j, value in self.wanted()]
        if any((value, value) not in pairs for pairs, value in nexts):
            return "dead", None
        return ("sure" if all(pairs == same(value) for pairs, value in nexts) else "open"), None

    def status(self, path, cells):
        """What the decisions make of the window, and the first place that is sure to differ."""
        if self.start[0] != "back":
            return self.status_of_difference(cells)
        return ("dead", None) if self.start[2] == 0 and self.wanted() else self.status_of_wanted(cells)

    def first_different(self, cells):
        """The frame, the net and the value that the walk back to a variable begins with, at a place that may differ."""
        frame, kind, index = next(place for place in self.places() if self.at(cells, place) & DIFFERENT)
        return frame, self.circuit.outputs[index] if kind == "output" else self.circuit.flip_flops[index][1], 1

    def first_wanted(self, cells):
        """The same at a next state that is looked for and isn't sure, if there is one."""
        undecided = ((j, value) for j, value in self.wanted() if len(cells[0][1][j]) > 1)
        return next(((0, self.circuit.flip_flops[j][1], value) for j, value in undecided), None)

    def beginning(self, cells):
        """Where the walk back to a variable begins."""
        return self.first_wanted(cells) if self.start[0] == "back" else self.first_different(cells)

    def may_two(self, var):
        in_latches = var - self.inputs
        half = in_latches - self.latches
        good = self.start[0] == "one" and (0 <= in_latches < self.latches or half >= 0 and half in self.start[1])
        return var < self.frames * self.inputs or good

    def may_three(self, var):
        return self.start[0] == "back" and self.inputs <= var < self.inputs + self.latches

    def below(self, path):
        """The window one frame earlier, for the latches that the path decides; None where there is none."""
        if self.start[0] != "back" or self.start[2] == 0:
            return None
        cube = [path.get(self.inputs + j, X) for j in range(self.latches)]
        return Window(self.circuit, None, 1, "back", cube, self.start[2] - 1) if set(cube) - {X} else None

    def vector(self, path, frame=0):
        return tuple(path.get(frame * self.inputs + i, 0) for i in range(self.inputs))


def one_frame(circuit, fault, z):
    return Window(circuit, fault, 1, "one", z)


# ---- windows under clauses


def is_met(clause, bit_of):
    return any(bit_of(j) == bit for j, bit in clause)


def is_broken(clause, bit_of):
    return all(bit_of(j) == 1 - bit for j, bit in clause)


class ClauseWindow(Window):
    """A one-frame window whose good latches keep clauses. Where a clause is to be broken, next states that break it are
    looked for in place of a difference."""

    def __init__(self, circuit, fault, z, clauses, broken=None):
        super().__init__(circuit, fault, 1, "one", z)
        self.clauses, self.broken = clauses, broken

    def wanted(self):
        return [(j, 1 - bit) for j, bit in self.broken]

    def status_without_clauses(self, cells):
        return self.status_of_difference(cells) if self.broken is None else self.status_of_wanted(cells)

    def bit_in(self, path):
        return lambda j: path.get(self.inputs + j)

    def status(self, path, cells):
        if any(is_broken(clause, self.bit_in(path)) for clause in self.clauses):
            return "dead", None
        status, place = self.status_without_clauses(cells)
        met = all(is_met(clause, self.bit_in(path)) for clause in self.clauses)
        return ("open", None) if status == "sure" and not met else (status, place)

    def beginning(self, cells):
        """Nothing where what is looked for is sure, and only a clause isn't met."""
        if self.broken is not None:
            return self.first_wanted(cells)
        return None if self.status_of_difference(cells)[0] == "sure" else self.first_different(cells)

    def choice_of_clause(self, path):
        """The first undecided latch of the first clause that the path doesn't meet, and its literal's bit."""
        clause = next(clause for clause in self.clauses if not is_met(clause, self.bit_in(path)))
        return next((self.inputs + j, bit) for j, bit in clause if self.inputs + j not in path)


# ---- walks


def walk_of(window, tokens):
    """Whether the tokens are a complete walk, an open one, or none."""
    stack = [(window, {})]
    for form, var in tokens:
        if not stack:
            return None
        window, path = stack.pop()
        status, _ = window.status(path, window.cells(path))
        if form in (LO, HI, THREE):
            legal = window.may_three(var) if form == THREE else window.may_two(var)
            if status != "open" or not legal or var in path:
                return None
            values = (X, 1, 0) if form == THREE else (1, 0) if form == LO else (0, 1)
            stack += [(window, path | {var: value}) for value in values]
        elif form == BEFORE:
            if status != "sure" or window.below(path) is None:
                return None
            stack.append((window.below(path), {}))
        elif status != "dead":
            return None
    return "open" if stack else "complete"


def is_spent(window, budget, tokens):
    weight = len(tokens) * window.frames
    return weight <= budget < weight + window.frames and walk_of(window, tokens) == "open"


# ---- runs in three values


def run(circuit, fault, vectors, state):
    """The outputs at each vector, and the state after them: each cell has one pair where all is decided."""
    outputs = []
    for vector in vectors:
        window = Window(circuit, fault, 1, "forward", state, state)
        nets, latches = window.cells(dict(enumerate(vector)))[0]
        outputs.append([faulty for net in circuit.outputs for _, faulty in nets[net]])
        state = [faulty for pairs in latches for _, faulty in pairs]
    return outputs, state


def is_shown(good, faulty):
    return any(X not in pair and pair[0] != pair[1] for pair in zip(good, faulty))


def detects(circuit, fault, vectors):
    unknown = [X] * len(circuit.flip_flops)
    return any(map(is_shown, run(circuit, None, vectors, unknown)[0], run(circuit, fault, vectors, unknown)[0]))
