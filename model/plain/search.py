"""The searches of the generator, and its work on one fault."""
import dataclasses
import itertools

from plain import entries, judging, netlists, pcg, windows
from plain.simulation import X
from plain.windows import LO, HI, THREE, DEAD, BEFORE


def choice(window, path, cells):
    """The variable that is decided next and its first value; no value where it has three."""
    circuit, begins = window.circuit, window.beginning(cells)
    if begins is None:
        return window.choice_of_clause(path)
    frame, net, wanted = begins
    latches = [latch for latch, _ in circuit.flip_flops]
    by_net = {gate[1]: g for g, gate in enumerate(circuit.gates)}
    while net in by_net or net in latches and frame > 0:
        if net in latches:
            frame, net = frame - 1, circuit.flip_flops[latches.index(net)][1]
            continue
        kind, _, args = circuit.gates[by_net[net]]
        pins = [windows.stuck(window.fault, ("pin", by_net[net], i), cells[frame][0][arg]) for i, arg in enumerate(args)]
        net = next(arg for arg, pairs in zip(args, pins) if len(pairs) > 1)
        wanted ^= kind in netlists.INVERTING
    if net in circuit.inputs:
        return frame * window.inputs + circuit.inputs.index(net), wanted
    var = window.inputs + latches.index(net)
    if window.start[0] == "back":
        return var, None
    return var + window.latches * (var in path), wanted


def search(window, budget):
    """How a search ends, its tokens, the windows and paths to the node that was found, and the place that is sure there."""
    stack, tokens, unit = [[(window, {})]], [], window.frames
    while stack:
        node = stack.pop()
        own, path = node[-1]
        cells = own.cells(path)
        status, place = own.status(path, cells)
        if status == "sure" and own.below(path) is None:
            return "found", tokens, node, place
        if (len(tokens) + 1) * unit > budget:
            return "spent", tokens, None, None
        if status == "dead":
            tokens.append((DEAD, 0))
        elif status == "sure":
            tokens.append((BEFORE, 0))
            stack.append([*node, (own.below(path), {})])
        else:
            var, first = choice(own, path, cells)
            tokens.append((THREE if first is None else (LO, HI)[first], var))
            values = (X, 1, 0) if first is None else (1 - first, first)
            stack += [[*node[:-1], (own, path | {var: value})] for value in values]
    return "closed", tokens, None, None


def refute(circuit, fault, budget):
    """The told chain, and the last walk or None; or an entry of an untestable fault."""
    chain, z = [], []
    while True:
        end, tokens, node, place = search(windows.one_frame(circuit, fault, tuple(z)), budget)
        if end == "closed":
            return entries.Untestable(sorted(z), tokens)
        if end == "spent":
            return chain, tokens
        chain.append((place[1].encode(), place[2], sorted(node[-1][1].items())))
        if place[1] == "output":
            return chain, None
        z.append(place[2])


def candidates(circuit, state):
    """Clauses of one literal, and of two that are near each other, which the state meets."""
    count = len(circuit.flip_flops)
    for i in range(count):
        yield [(i, state[i])]
        for j in range(i + 1, min(i + 9, count)):
            for literals in itertools.product([(i, 0), (i, 1)], [(j, 0), (j, 1)]):
                if windows.is_met(literals, lambda j: state[j]):
                    yield [*literals]


def states_from(circuit, state, vectors):
    """The state and those after it in the good machine."""
    states = [state]
    for vector in vectors:
        states.append(windows.run(circuit, None, [vector], states[-1])[1])
    return states


def kept_in_round(circuit, clauses, budget):
    """Those of the clauses that are closed under those that are still kept, with their walks."""
    kept, rest = [], clauses
    while rest:
        clause, *later = rest
        window = windows.ClauseWindow(circuit, None, (), [*judging.literals_of(kept), *rest], clause)
        end, tokens, _, _ = search(window, budget)
        kept += [(clause, tokens)] if end == "closed" else []
        rest = later
    return kept


def find(circuit, state, vectors, budget):
    """The clauses of an invariant, of the first that hold in all states to which the vectors lead from this one."""
    states = states_from(circuit, state, vectors)
    holding = [clause for clause in candidates(circuit, state) if all(windows.is_met(clause, s.__getitem__) for s in states)]
    clauses = holding[: entries.MOST_CLAUSES]
    while len(kept := kept_in_round(circuit, clauses, budget)) < len(clauses):
        clauses = judging.literals_of(kept)
    return kept


def refute_from(circuit, fault, state, clauses, budget):
    """An entry of a fault that is untestable from a state with such clauses, or None."""
    z = []
    while clauses:
        window = windows.ClauseWindow(circuit, fault, tuple(z), judging.literals_of(clauses))
        end, tokens, _, place = search(window, budget)
        if end == "closed":
            return entries.UntestableFrom(state, clauses, sorted(z), tokens)
        if end == "spent" or place[1] == "output":
            return None
        z.append(place[2])
    return None


def aim_at(circuit, fault, budget, told):
    """How the attempt at a told frame ends; a list of vectors where it detects."""
    cube, vector, states = judging.told_parts(circuit, fault, told)
    ahead, back = [], []
    if told[0] == b"state":
        end, tokens, node, place = search(windows.Window(circuit, fault, windows.FORWARD_FRAMES, "forward", *states), budget)
        if end != "found":
            return b"forward closed" if end == "closed" else b"forward open", tokens
        ahead = [node[-1][0].vector(node[-1][1], frame) for frame in range(place[0] + 1)]
    if set(cube) - {X}:
        end, tokens, node, _ = search(windows.Window(circuit, None, 1, "back", cube, windows.BACK_LIMIT), budget)
        if end != "found":
            return b"back closed" if end == "closed" else b"back open", tokens
        back = [window.vector(path) for window, path in reversed(node)]
    list_of_three = [*back, vector, *ahead]
    return list_of_three if windows.detects(circuit, fault, list_of_three) else (b"attempt", [back, ahead])


def sweep(circuit, fault, budget, *states):
    """The walks of the sweep, and the list that it found or None; from all-unknown, or from a state of each machine."""
    walks = []
    while True:
        frames = len(walks) + 1
        if frames > windows.MOST_FRAMES:
            return walks, None
        start = ("forward", *states) if states else ("sweep",)
        end, tokens, node, place = search(windows.Window(circuit, fault, frames, *start), budget)
        if end == "found":
            return walks, [node[-1][0].vector(node[-1][1], frame) for frame in range(place[0] + 1)]
        walks.append(tokens)
        if end == "spent":
            return walks, None
        budget -= frames * len(tokens)


def named_invariant(circuit, budget, start=None):
    """The state that a generator names, and the clauses that are found from it: a start, or else all-unknown, with 0 where
    it is unknown."""
    state = tuple(int(value == 1) for value in start or [X] * len(circuit.flip_flops))
    return state, find(circuit, state, pcg.random_vectors(len(circuit.inputs), windows.TRIED_FRAMES, 0), budget)


@dataclasses.dataclass
class Deep:
    """What a deep search goes by: the start, and the states to which the vectors so far lead the good and the faulty machine."""

    start: list
    good: list
    faulty: list


def work_on(circuit, fault, budget, state, clauses, deep=None):
    """What the work on a fault gives: a list of vectors that detects it, or its entry. The state and the clauses are those
    of an invariant, if there are clauses. A deep search looks for a family too, and at last goes on from the states reached."""
    refuted = refute(circuit, fault, budget)
    if isinstance(refuted, entries.Untestable):
        return refuted
    under = refute_from(circuit, fault, state, clauses, budget)
    if under is not None:
        return under
    family = judging.closing(circuit, fault, deep.start) if deep else None
    if family is not None:
        return entries.UndetectableBySets(judging.rows_of(deep.start, family))
    chain, walk = refuted
    aim = aim_at(circuit, fault, budget, chain[0]) if chain else None
    if isinstance(aim, list):
        return aim
    walks, found = sweep(circuit, fault, budget)
    if found is None and deep:
        _, found = sweep(circuit, fault, budget, deep.good, deep.faulty)
    return entries.Aborted(chain, walk, aim, walks) if found is None else found


def entry_of(circuit, fault, budget, invariant):
    """The entry of a fault, or None where a list is found."""
    worked = work_on(circuit, fault, budget, *invariant)
    return None if isinstance(worked, list) else worked
