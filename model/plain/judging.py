"""Which entries pass, and which families of sets close."""
import itertools

from plain import cubes, entries, windows
from plain.simulation import X

VALUES = b"01X"


# ---- entries


def told_parts(circuit, fault, told):
    """The cube that a told frame needs, its vector, and the two states that it leaves."""
    sets, inputs = dict(told[2]), len(circuit.inputs)
    cube = [sets.get(inputs + j, X) for j in range(len(circuit.flip_flops))]
    vector = tuple(sets.get(i, 0) for i in range(inputs))
    return cube, vector, [windows.run(circuit, machine, [vector], cube)[1] for machine in (None, fault)]


def attempt_passes(circuit, fault, told, back, ahead):
    cube, vector, states = told_parts(circuit, fault, told)
    reached = windows.run(circuit, None, back, [X] * len(cube))[1] if all(len(v) == len(vector) for v in back + ahead) else None
    if reached is None or len(back) > windows.BACK_LIMIT or any(a not in (X, b) for a, b in zip(cube, reached)):
        return False
    if told[0] == b"output":
        goes = not ahead
    else:
        shown = [windows.run(circuit, machine, ahead, state)[0] for machine, state in zip((None, fault), states)]
        goes = 1 <= len(ahead) <= windows.FORWARD_FRAMES and windows.is_shown(shown[0][-1], shown[1][-1])
    return goes and not windows.detects(circuit, fault, [*back, vector, *ahead])


def aim_passes(circuit, fault, budget, told, aim):
    form, parts = aim
    if form == b"attempt":
        return attempt_passes(circuit, fault, told, *parts)
    cube, _, states = told_parts(circuit, fault, told)
    if form.startswith(b"forward"):
        fits, window = told[0] == b"state", windows.Window(circuit, fault, windows.FORWARD_FRAMES, "forward", *states)
    else:
        fits, window = set(cube) - {X}, windows.Window(circuit, None, 1, "back", cube, windows.BACK_LIMIT)
    closed = form.endswith(b"closed")
    return bool(fits) and (windows.walk_of(window, parts) == "complete" if closed else windows.is_spent(window, budget, parts))


def states_told(circuit, fault, chain):
    """The flip-flops that a told chain tells, and whether it comes to an output; None where it is no told chain."""
    z, ended = [], False
    for place, index, sets in chain:
        window = windows.one_frame(circuit, fault, tuple(z))
        there = (0, place.decode(), index) in window.places()
        rises = all(a[0] < b[0] for a, b in itertools.pairwise(sets))
        if ended or not there or not rises or not all(window.may_two(var) for var, _ in sets):
            return None
        if not window.at(window.cells(dict(sets)), (0, place.decode(), index)) <= windows.DIFFERENT:
            return None
        ended = place == b"output"
        z += [] if ended else [index]
    return tuple(z), ended


def sweep_passes(circuit, fault, budget, walks):
    weight = sum(frames * len(tokens) for frames, tokens in enumerate(walks, 1))
    if not weight <= budget < weight + len(walks):
        return False
    wanted = ["complete"] * (len(walks) - 1) + ["open"]
    each = (windows.Window(circuit, fault, k, "sweep") for k in range(1, len(walks) + 1))
    return all(windows.walk_of(window, walk) == want for window, walk, want in zip(each, walks, wanted))


# ---- families of sets that close


def frame_of_sets(circuit, fault, family):
    """What the outputs may show and the flip-flops may take after any vector, from latches in the sets of a family."""
    nets = {net: windows.same(0, 1) for net in circuit.inputs}
    nets |= {net: pairs for (net, _), pairs in zip(circuit.flip_flops, family)}
    nets = {net: windows.stuck(fault, ("stem", net), pairs) for net, pairs in nets.items()}
    for g in circuit.order:
        kind, net, args = circuit.gates[g]
        pins = tuple(windows.stuck(fault, ("pin", g, i), nets[arg]) for i, arg in enumerate(args))
        nets[net] = windows.stuck(fault, ("stem", net), windows.lifted(kind, pins))
    taken = [windows.stuck(fault, ("data pin", j), nets[pin]) for j, (_, pin) in enumerate(circuit.flip_flops)]
    return [nets[net] for net in circuit.outputs], taken


def may_differ(shown):
    return any(pairs & windows.DIFFERENT for pairs in shown)


def closes(circuit, fault, start, family):
    shown, taken = frame_of_sets(circuit, fault, family)
    begun = all((value, value) in pairs for value, pairs in zip(start, family))
    return begun and all(more <= pairs for more, pairs in zip(taken, family)) and not may_differ(shown)


def closing(circuit, fault, start):
    """The least family that closes, or None."""
    family = [windows.same(value) for value in start]
    while True:
        shown, taken = frame_of_sets(circuit, fault, family)
        if may_differ(shown):
            return None
        if all(more <= pairs for more, pairs in zip(taken, family)):
            return family
        family = [pairs | more for pairs, more in zip(family, taken)]


def family_of(circuit, start, rows):
    """The family that the rows of an entry tell: without a row a flip-flop has the start's pair alone."""
    told = dict(rows)
    pairs = {j: frozenset(tuple(VALUES.index(value) for value in pair) for pair in told[j]) for j in told}
    return [pairs.get(j, windows.same(value)) for j, value in enumerate(start)]


def rows_of(start, family):
    """The rows of the flip-flops whose set isn't the start's pair alone, each with its members as a text has them."""
    texts = [sorted(bytes(VALUES[half] for half in pair) for pair in pairs) for pairs in family]
    ordered = [tuple(sorted(text, key=entries.PAIRS.index)) for text in texts]
    return [(j, pairs) for j, (pairs, value) in enumerate(zip(ordered, start)) if family[j] != windows.same(value)]


def by_sets_passes(circuit, fault, start, entry):
    rows = [j for j, _ in entry.rows]
    return are_rising(circuit, rows) and closes(circuit, fault, start, family_of(circuit, start, entry.rows))


# ---- entries


def are_rising(circuit, numbers):
    """Whether these are flip-flops in rising order."""
    return all(a < b for a, b in itertools.pairwise(numbers)) and all(j < len(circuit.flip_flops) for j in numbers)


def literals_of(clauses):
    return [literals for literals, _ in clauses]


def is_invariant(circuit, state, clauses):
    """Whether the state meets 1 to 32 clauses, and no frame leads from a state that meets them to one that doesn't."""
    kept = literals_of(clauses)
    rise = all(are_rising(circuit, [j for j, _ in clause]) for clause in kept)
    if len(state) != len(circuit.flip_flops) or not 1 <= len(kept) <= entries.MOST_CLAUSES or not rise:
        return False
    closing_windows = (windows.ClauseWindow(circuit, None, (), kept, literals) for literals in kept)
    return all(windows.is_met(clause, lambda j: state[j]) for clause in kept) and all(
        windows.walk_of(window, tokens) == "complete" for window, (_, tokens) in zip(closing_windows, clauses)
    )


def from_state_passes(circuit, fault, entry):
    if not are_rising(circuit, entry.z) or not is_invariant(circuit, entry.state, entry.clauses):
        return False
    window = windows.ClauseWindow(circuit, fault, tuple(entry.z), literals_of(entry.clauses))
    return windows.walk_of(window, entry.tokens) == "complete"


def allows(start, entry):
    """Whether a start allows the state that an entry names, if it names one; None for all-unknown."""
    if start is None or not isinstance(entry, entries.UntestableFrom):
        return True
    return len(start) == len(entry.state) and all(value in (X, bit) for value, bit in zip(start, entry.state))


def passes(circuit, fault, budget, entry, start=None):
    """Whether an entry passes, from a start or else all-unknown."""
    if isinstance(entry, entries.UndetectableBySets):
        return by_sets_passes(circuit, fault, start or [X] * len(circuit.flip_flops), entry)
    if isinstance(entry, entries.UndetectableByCubes):
        return cubes.passes(circuit, fault, start or [X] * len(circuit.flip_flops), entry)
    if isinstance(entry, entries.UntestableFrom):
        return from_state_passes(circuit, fault, entry)
    if isinstance(entry, entries.Untestable):
        window = windows.one_frame(circuit, fault, tuple(entry.z))
        return are_rising(circuit, entry.z) and windows.walk_of(window, entry.tokens) == "complete"
    told = states_told(circuit, fault, entry.told)
    if told is None or (entry.walk is None) != told[1] or (entry.aim is None) != (not entry.told):
        return False
    if entry.walk is not None and not windows.is_spent(windows.one_frame(circuit, fault, told[0]), budget, entry.walk):
        return False
    if entry.aim is not None and not aim_passes(circuit, fault, budget, entry.told[0], entry.aim):
        return False
    return sweep_passes(circuit, fault, budget, entry.sweep)
