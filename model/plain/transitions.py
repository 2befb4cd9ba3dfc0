"""Transition faults by their direct definition: a machine with one value more than its latches, what the line carried before."""
from plain import simulation
from plain.simulation import X


def late(bit, before, value):
    """What the loads of a slow line see of what it carries: slow to rise by AND, slow to fall by OR."""
    return simulation.gate_value(b"OR" if bit else b"AND", [value, before])


def frame_of(circuit, vector, state, before, site, bit):
    """What the outputs show at a vector, the next state, and what the slow line carried."""
    carried = []

    def seen(at, value):
        if at != site:
            return value
        carried.append(value)
        return late(bit, before, value)

    values = {net: seen(("stem", net), value) for net, value in zip(circuit.inputs, vector)}
    values.update((net, seen(("stem", net), latch)) for (net, _), latch in zip(circuit.flip_flops, state))
    for g in circuit.order:
        kind, net, args = circuit.gates[g]
        pins = [seen(("pin", g, i), values[arg]) for i, arg in enumerate(args)]
        values[net] = seen(("stem", net), simulation.gate_value(kind, pins))
    state = [seen(("data pin", j), values[pin]) for j, (_, pin) in enumerate(circuit.flip_flops)]
    return [values[net] for net in circuit.outputs], state, carried[0]


def outputs_of(circuit, vectors, site, bit, start=None):
    """What the outputs show at each vector with a slow line, from a start or else all-unknown."""
    state, before, shown = start or [X] * len(circuit.flip_flops), X, []
    for vector in vectors:
        outputs, state, before = frame_of(circuit, vector, state, before, site, bit)
        shown.append(outputs)
    return shown
