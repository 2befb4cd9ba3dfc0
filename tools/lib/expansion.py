"""The expansion of lines: a netlist in which their transition faults are stuck-at faults of pins (docs/FORMATS.md).

For a line that carries D:   P = DFF(D)   L = OR(D, B)   B = AND(D, P)   and the loads of the line read L. In the good machine
L is D, also where D is unknown. With the first pin of L stuck at 0 L is AND(D, P), so the line is slow to rise; with the first
pin of B stuck at 1 it is OR(D, P), slow to fall."""
from typing import NamedTuple

import check_proofs

LIMITS = dict(check_proofs.LIMITS)


class Expansion(NamedTuple):
    """The text of an expanded netlist, and the numbers of the listed faults: slow to rise and slow to fall of each line."""

    text: bytes
    numbers: list


class Refusal(Exception):
    """Why a circuit isn't expanded; the words after `expand: `."""


def stump_of(circuit, line):
    """What the names of a line begin with: `x~` of the stem of x, `y~I` of pin I of the gate or flip-flop that drives y."""
    kind, at = line[:2]
    if kind == "stem":
        return circuit.names[at] + b"~"
    if kind == "data":
        return circuit.names[circuit.inputs + at] + b"~1"
    return b"%s~%d" % (circuit.names[circuit.gates[at].net], line[2] + 1)


def refuse(circuit, lines):
    """Raises the first refusal that holds."""
    long = set()
    for line in lines:
        kind, at = line[:2]
        net = at if kind == "stem" else circuit.inputs + at if kind == "data" else circuit.gates[at].net
        if len(stump_of(circuit, line)) + 1 > 255:
            long.add(net)
    for net, name in enumerate(circuit.names):
        if b"~" in name or net in long:
            raise Refusal(b"name " + name)
    pins = len(circuit.data) + sum(len(gate.arguments) for gate in circuit.gates)
    counts = {"nets": len(circuit.names) + 3 * len(lines), "pins": pins + 5 * len(lines), "flip-flops": len(circuit.data) + len(lines)}
    for counted, count in counts.items():
        if count > LIMITS[counted]:
            raise Refusal(b"too many " + counted.encode())


def expand(circuit, lines):
    """The expansion of lines, which are sites of the circuit in the order of its fault list, or raises its refusal."""
    refuse(circuit, lines)
    chosen = set(lines)
    names = circuit.names
    driver = [name + b"~" if ("stem", net) in chosen else name for net, name in enumerate(names)]

    def read(line, net):
        return stump_of(circuit, line) if line in chosen else names[net]

    first = circuit.inputs
    text = [b"INPUT(%s)" % name for name in driver[:first]] + [b"OUTPUT(%s)" % names[net] for net in circuit.outputs]
    text += [b"%s = DFF(%s)" % (driver[first + j], read(("data", j), net)) for j, net in enumerate(circuit.data)]
    gates = []
    for g, gate in enumerate(circuit.gates):
        pins = [read(("pin", g, i), net) for i, net in enumerate(gate.arguments)]
        gates.append(b"%s = %s(%s)" % (driver[gate.net], gate.kind, b", ".join(pins)))
    for line in lines:
        stump = stump_of(circuit, line)
        if line[0] == "stem":
            shown, carried = names[line[1]], stump
        else:
            shown = stump
            carried = names[circuit.data[line[1]] if line[0] == "data" else circuit.gates[line[1]].arguments[line[2]]]
        text.append(b"%sp = DFF(%s)" % (stump, carried))
        gates += [b"%s = OR(%s, %sb)" % (shown, carried, stump), b"%sb = AND(%s, %sp)" % (stump, carried, stump)]
    whole = b"".join(line + b"\n" for line in text + gates)
    return Expansion(whole, numbers_of(whole, len(circuit.gates), len(lines)))


def numbers_of(text, first, count):
    """The numbers of the listed faults of so many lines, whose gates come from `first` on."""
    sites = {site: number for number, site in enumerate(check_proofs.sites_of(check_proofs.read_netlist(text)))}
    return [2 * sites["pin", first + gate, 0] + gate % 2 + 1 for gate in range(2 * count)]
