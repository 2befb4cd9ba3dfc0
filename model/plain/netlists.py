"""Netlists: what their lines state, the circuit of all, why a text is refused, and the normal text."""
import collections
import dataclasses
import re

from plain import texts

MARKS = (b"(", b")", b",", b"=")
KINDS = {name: name for name in (b"AND", b"NAND", b"OR", b"NOR", b"XOR", b"XNOR", b"NOT", b"BUFF", b"DFF")} | {b"BUF": b"BUFF"}
ONE_PIN = (b"NOT", b"BUFF", b"DFF")
INVERTING = (b"NAND", b"NOR", b"XNOR", b"NOT")


class Refusal(Exception):
    """Why a text is refused: the line on the standard error, or None where it names some cycle."""


# ---- texts


def is_name(word):
    return len(word) <= 255 and all(33 <= byte <= 126 for byte in word)


def statement_of(line):
    """What a line states: its kind, its net and its arguments; None where it states nothing. Raises the refusal's words."""
    tokens = re.findall(rb"[(),=]|[^(),= \t]+", line.split(b"#")[0])
    if not tokens:
        return None
    defines = len(tokens) > 1 and tokens[1] == b"="
    if defines:
        form = len(tokens) > 4 and tokens[2] not in MARKS and tokens[3] == b"(" and tokens[-1] == b")"
        net, inner = tokens[0], tokens[4:-1] if form else []
        form = form and (not inner or len(inner) % 2 == 1) and all(mark == b"," for mark in inner[1::2])
    else:
        form = len(tokens) == 4 and tokens[0].upper() in (b"INPUT", b"OUTPUT") and tokens[1] == b"(" and tokens[3] == b")"
        net, inner = tokens[2] if form else b"=", []
    names = [net, *inner[::2]]
    if not form or any(name in MARKS for name in names):
        raise Refusal("bad line")
    if not all(is_name(name) for name in names):
        raise Refusal("bad name")
    if not defines:
        return tokens[0].upper(), net, []
    kind = KINDS.get(tokens[2].upper())
    if kind is None:
        raise Refusal("bad kind")
    if not 1 <= len(names) - 1 <= (1 if kind in ONE_PIN else 255):
        raise Refusal("bad count")
    return kind, net, names[1:]


# ---- circuits


@dataclasses.dataclass
class Circuit:
    """Nets by name; flip-flops as (net, data pin), gates as (kind, net, arguments); gate numbers, arguments first."""

    inputs: list
    outputs: list
    flip_flops: list
    gates: list
    order: list

    def nets(self):
        return self.inputs + [net for net, _ in self.flip_flops] + [net for _, net, _ in self.gates]

    def loads(self):
        pins = [pin for _, pin in self.flip_flops] + [pin for _, _, args in self.gates for pin in args]
        return collections.Counter(pins + self.outputs)


def order_of(gates):
    """The gates, each after those that drive its arguments; None where some form a cycle."""
    by_net = {net: number for number, (_, net, _) in enumerate(gates)}
    order, done, left = [], set(), set(range(len(gates)))
    while left:
        ready = [g for g in sorted(left) if all(by_net.get(arg, -1) in done or arg not in by_net for arg in gates[g][2])]
        if not ready:
            return None
        order += ready
        done.update(ready)
        left.difference_update(ready)
    return order


def read(text):
    """The circuit of a netlist. Limits aren't reached by the netlists of this script."""
    inputs, outputs, flip_flops, gates, driven, mentions = [], [], [], [], set(), {}
    for number, line in enumerate(texts.lines_of(text), 1):
        try:
            statement = statement_of(line)
        except Refusal as words:
            raise Refusal(b"netlist: line %d: %s\n" % (number, str(words).encode())) from None
        if statement is None:
            continue
        kind, net, args = statement
        if kind != b"OUTPUT" and net in driven:
            raise Refusal(b"netlist: line %d: second driver %s\n" % (number, net))
        for name in (net, *args):
            mentions.setdefault(name, number)
        if kind == b"OUTPUT":
            outputs += [net] if net not in outputs else []
            continue
        driven.add(net)
        if kind == b"INPUT":
            inputs.append(net)
        elif kind == b"DFF":
            flip_flops.append((net, args[0]))
        else:
            gates.append((kind, net, args))
    for name, number in mentions.items():
        if name not in driven:
            raise Refusal(b"netlist: line %d: undriven %s\n" % (number, name))
    order = order_of(gates)
    if order is None:
        raise Refusal(None)
    return Circuit(inputs, outputs, flip_flops, gates, order)


def names_a_cycle(text, line):
    """Whether a line on the standard error names a cycle of the text, the net of first mention first."""
    told = re.fullmatch(rb"netlist: line (\d+): loop (.*)\n", line, re.S)
    if not told:
        return False
    cycle, mentions, drivers, feeds = told[2].split(b" "), {}, {}, {}
    for number, statement in enumerate(map(statement_of, texts.lines_of(text)), 1):
        if statement:
            kind, net, args = statement
            for name in (net, *args):
                mentions.setdefault(name, len(mentions))
            if kind != b"OUTPUT":
                drivers[net] = number
            if kind not in (b"INPUT", b"OUTPUT", b"DFF"):
                feeds[net] = args
    turns = zip(cycle, cycle[1:] + cycle[:1])
    first = min(cycle, key=lambda net: mentions.get(net, -1))
    differ = len(set(cycle)) == len(cycle)
    return differ and cycle[0] == first and drivers[first] == int(told[1]) and all(a in feeds.get(b, []) for a, b in turns)


def normal_text(circuit):
    lines = [b"INPUT(%s)" % net for net in circuit.inputs] + [b"OUTPUT(%s)" % net for net in circuit.outputs]
    lines += [b"%s = DFF(%s)" % flip_flop for flip_flop in circuit.flip_flops]
    lines += [b"%s = %s(%s)" % (net, kind, b", ".join(args)) for kind, net, args in circuit.gates]
    return b"".join(line + b"\n" for line in lines)
