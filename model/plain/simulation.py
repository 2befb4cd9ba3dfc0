"""Frames and runs in three values, faults and their classes, starts and vectors, and the report of `sim`."""
from plain import netlists, texts

X = 2


# ---- simulation


def gate_value(kind, args):
    if kind in (b"AND", b"NAND"):
        value = 0 if 0 in args else X if X in args else 1
    elif kind in (b"OR", b"NOR"):
        value = 1 if 1 in args else X if X in args else 0
    else:
        value = X if X in args else sum(args) % 2
    return 1 - value if kind in netlists.INVERTING and value != X else value


def values_of(circuit, vector, state, site=None, stuck=None):
    """What each net has at a vector from a state, with a line stuck or with none."""
    values = dict(zip(circuit.inputs, vector))
    values.update((net, latch) for (net, _), latch in zip(circuit.flip_flops, state))
    if site and site[0] == "stem" and site[1] in values:
        values[site[1]] = stuck
    for g in circuit.order:
        kind, net, args = circuit.gates[g]
        pins = [stuck if site == ("pin", g, i) else values[arg] for i, arg in enumerate(args)]
        values[net] = stuck if site == ("stem", net) else gate_value(kind, pins)
    return values


def frame_of(circuit, vector, state, site=None, stuck=None):
    """What the outputs show at a vector from a state, and the next state, with a line stuck or with none."""
    values = values_of(circuit, vector, state, site, stuck)
    state = [stuck if site == ("data pin", j) else values[pin] for j, (_, pin) in enumerate(circuit.flip_flops)]
    return [values[net] for net in circuit.outputs], state


def outputs_of(circuit, vectors, site=None, stuck=None, start=None):
    """What the outputs show at each vector, with a line stuck or with none, from a start or else all-unknown."""
    state, shown = start or [X] * len(circuit.flip_flops), []
    for vector in vectors:
        outputs, state = frame_of(circuit, vector, state, site, stuck)
        shown.append(outputs)
    return shown


def traces_of(circuit, vectors, site=None, stuck=None, start=None):
    """What each net has at each vector, in the order of their stems in the list of faults; the rest is as of outputs_of."""
    state, shown = start or [X] * len(circuit.flip_flops), []
    for vector in vectors:
        values = values_of(circuit, vector, state, site, stuck)
        _, state = frame_of(circuit, vector, state, site, stuck)
        shown.append([values[net] for net in circuit.nets()])
    return shown


def first_opposite(circuit, ours, theirs):
    """The first vector, from 1, and there the first output at which two machines show opposite definite values."""
    for number, rows in enumerate(zip(ours, theirs), 1):
        for net, a, b in zip(circuit.outputs, *rows):
            if X not in (a, b) and a != b:
                return number, net
    return None


def verdict(circuit, good, faulty):
    place = first_opposite(circuit, good, faulty)
    return b"detected %d %s" % place if place else b"undetected"


# ---- faults, classes and the report


def sites_of(circuit):
    loads = circuit.loads()
    sites = [("stem", net) for net in circuit.nets()]
    sites += [("data pin", j) for j, (_, pin) in enumerate(circuit.flip_flops) if loads[pin] > 1]
    return sites + [("pin", g, i) for g, (_, _, args) in enumerate(circuit.gates) for i, arg in enumerate(args) if loads[arg] > 1]


def equivalent_values(kind, pins):
    """The pairs (stuck value of an input, stuck value of the output) that can't be told apart at a gate."""
    turn = 1 if kind in netlists.INVERTING else 0
    if pins == 1:
        return [(0, turn), (1, 1 - turn)]
    controlling = {b"AND": 0, b"NAND": 0, b"OR": 1, b"NOR": 1}.get(kind)
    return [] if controlling is None else [(controlling, controlling ^ turn)]


def representatives_of(circuit, faults):
    number = {fault: i for i, fault in enumerate(faults)}
    loads, representatives = circuit.loads(), list(range(len(faults)))
    for g, (kind, net, args) in enumerate(circuit.gates):
        for i, arg in enumerate(args):
            site = ("pin", g, i) if loads[arg] > 1 else ("stem", arg)
            for at_input, at_output in equivalent_values(kind, len(args)):
                pair = {representatives[number[site, at_input]], representatives[number[("stem", net), at_output]]}
                representatives = [min(pair) if r in pair else r for r in representatives]
    return representatives


def site_text(circuit, site):
    if site[0] == "stem":
        return site[1]
    if site[0] == "data pin":
        return b"%s(1)" % circuit.flip_flops[site[1]][0]
    return b"%s(%d)" % (circuit.gates[site[1]][1], site[2] + 1)


def report_of(circuit, vectors, start=None):
    """The report, and its total line, from a start or else all-unknown."""
    faults = [(site, stuck) for site in sites_of(circuit) for stuck in (0, 1)]
    representatives = representatives_of(circuit, faults)
    good, lines, detected = outputs_of(circuit, vectors, start=start), [], 0
    for i, (site, stuck) in enumerate(faults):
        said = b"as %d" % (representatives[i] + 1)
        if representatives[i] == i:
            said = verdict(circuit, good, outputs_of(circuit, vectors, site, stuck, start))
            detected += said != b"undetected"
        lines.append(b"%d %s s-a-%d %s\n" % (i + 1, site_text(circuit, site), stuck, said))
    classes = len(set(representatives))
    sizes = len(circuit.inputs), len(circuit.outputs), len(circuit.flip_flops), len(circuit.gates), len(faults), classes
    head = b"circuit inputs %d outputs %d flip-flops %d gates %d faults %d classes %d\n" % sizes
    total = b"total %d detected %d\n" % (classes, detected)
    return head + b"".join(lines) + total, total


def start_of(circuit, text):
    """What each flip-flop holds before the first vector."""
    line, *more = texts.lines_of(text) or [b""]
    if len(line) != len(circuit.flip_flops) or line.strip(b"01Xx"):
        raise netlists.Refusal(b"start: line 1\n")
    if more:
        raise netlists.Refusal(b"start: line 2\n")
    return [X if byte in b"Xx" else byte - 48 for byte in line]


def vectors_of(circuit, text):
    return vectors_in(circuit, texts.lines_of(text))


def vectors_in(circuit, lines):
    vectors = []
    for number, line in enumerate(lines, 1):
        if len(line) != len(circuit.inputs) or line.strip(b"01"):
            raise netlists.Refusal(b"tests: line %d\n" % number)
        vectors.append([byte - 48 for byte in line])
    return vectors
