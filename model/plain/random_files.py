"""Random netlists, vectors and starts, in order or damaged."""
from plain import netlists, simulation


# ---- random files


def random_name(rng):
    if rng.random() < 0.05:
        return rng.choice([b"INPUT", b"OUTPUT", b"AND", b"a" * 255, b"b" * 256, b"\xc3\xa9", b"a\rb", b'"', b"~", b"\x7f"])
    return b"%c%d" % (rng.choice(b"abcn"), rng.randrange(6))


def random_statements(rng):
    """The lines of a netlist, mostly in order and mostly well formed."""
    counts = rng.randrange(5), rng.randrange(4), rng.randrange(9)
    nets = [b"n%d" % k for k in range(sum(counts))]
    rng.shuffle(nets)
    inputs, latches, driven = nets[: counts[0]], nets[counts[0] : sum(counts[:2])], nets[sum(counts[:2]) :]
    lines = [b"INPUT(%s)" % net for net in inputs]
    lines += [b"OUTPUT(%s)" % rng.choice(nets) for _ in range(rng.randrange(4)) if nets]
    lines += [b"%s = DFF(%s)" % (net, rng.choice(nets)) for net in latches]
    for k, net in enumerate(driven):
        before = inputs + latches + driven[:k]
        sources = before if before and rng.random() < 0.97 else nets
        kind = rng.choice([name for name in netlists.KINDS if name != b"DFF"])
        pins = 1 if netlists.KINDS[kind] in netlists.ONE_PIN else rng.choice([1, 2, 2, 2, 3, 4])
        lines.append(b"%s = %s(%s)" % (net, kind, b", ".join(rng.choice(sources) for _ in range(pins))))
    if rng.random() < 0.5:
        rng.shuffle(lines)
    return lines


def strange_line(rng):
    kind = rng.choice([b"AND", b"MUX", b"DFF", b"NOT", b"Xor"])
    args = b",".join(random_name(rng) for _ in range(rng.randrange(3)))
    definition = b"%s = %s(%s)" % (random_name(rng), kind, args)
    return rng.choice([b"", b"# c", b"  ", b"\r", b"INPUT(%s)" % random_name(rng), b"OUTPUT(%s)" % random_name(rng), definition])


def damaged_line(rng, line):
    at = rng.randrange(len(line) + 1)
    return rng.choice(
        [
            line[:at] + line[at + 1 :],
            line[:at] + bytes([rng.choice(b"(),=# \tax\r\x00\xff1")]) + line[at:],
            line.replace(b" ", rng.choice([b"", b"\t", b"   "])),
            line.lower(),
            line + rng.choice([b" # c", b"#", b"\r", b"\r\r", b" x", b")"]),
            line.replace(b"n1", random_name(rng)),
        ]
    )


def damage(rng, lines):
    """Damages some lines, doubles some, drops some, and adds strange ones."""
    for _ in range(rng.choice([0, 0, 0, 1, 1, 2])):
        if lines:
            at = rng.randrange(len(lines))
            how = rng.random()
            if how < 0.6:
                lines[at] = damaged_line(rng, lines[at])
            elif how < 0.7:
                lines.insert(at, rng.choice(lines))
            elif how < 0.8:
                del lines[at]
            else:
                lines.insert(at, strange_line(rng))
    return lines


def random_tests(rng, width):
    lines = [bytes(rng.choice(b"01") for _ in range(width)) for _ in range(rng.choice([0, 1, 3, 8]))]
    if lines and rng.random() < 0.15:
        at = rng.randrange(len(lines))
        line = lines[at]
        lines[at] = rng.choice([line + b"0", line[:-1], line.replace(b"1", b"x"), b" " + line, line + b"\r"])
    return lines


def random_start(rng, width):
    """The text of a start, mostly a good one."""
    lines = [bytes(rng.choice(b"01Xx") for _ in range(width))]
    if rng.random() < 0.15:
        lines = rng.choice([[], [b""], lines * 2, [lines[0] + b"0"], [lines[0][:-1]], [b"-" + lines[0][1:]], [*lines, b""]])
    return joined(rng, lines)


def joined(rng, lines):
    end = rng.choice([b"\n", b"\n", b"\r\n"])
    return end.join(lines) + (end if lines and rng.random() < 0.8 else b"")


# ---- comparing


def write_or_remove(path, text):
    """Makes the file hold the text, or be missing where that is None."""
    if text is None:
        path.unlink(missing_ok=True)
    else:
        path.write_bytes(text)


def looping_statements(rng):
    """A few gates, most of them XORs, around flip-flops: there a fault often spoils the attempt at its own frame."""
    counts = rng.randint(1, 2), rng.randint(1, 3), rng.randint(1, 5)
    nets = [b"n%d" % k for k in range(sum(counts))]
    driven = nets[sum(counts[:2]) :]
    lines = [b"INPUT(%s)" % net for net in nets[: counts[0]]] + [b"OUTPUT(%s)" % rng.choice(driven) for _ in range(2)]
    lines += [b"%s = DFF(%s)" % (net, rng.choice(nets)) for net in nets[counts[0] : sum(counts[:2])]]
    for net in driven:
        kind = rng.choice([b"XOR", b"XNOR", b"AND", b"OR", b"NOT"])
        args = [rng.choice(nets[: nets.index(net)]) for _ in range(1 if kind in netlists.ONE_PIN else 2)]
        lines.append(b"%s = %s(%s)" % (net, kind, b", ".join(args)))
    return lines


def tied_statements(rng):
    """The same with flip-flops that are tied to others: their data pins have equal or opposite values, and gates compare
    them. There clauses hold from most states, and some faults show from others alone."""
    lines = looping_statements(rng)
    copied = [line for line in lines if b"DFF" in line]
    for at, line in enumerate(copied):
        latch, data = line.split(b" = DFF(")[0], line.split(b"(")[1].rstrip(b")")
        turned = rng.random() < 0.5
        lines += [b"t%d = DFF(%s)" % (at, b"d%d" % at if turned else data)]
        lines += [b"d%d = NOT(%s)" % (at, data)] if turned else []
        kind = rng.choice([b"XOR", b"XNOR", b"AND", b"NOR", b"NAND", b"OR"])
        lines += [b"c%d = %s(%s, t%d)" % (at, kind, latch, at)]
        lines += [b"OUTPUT(o%d)" % at, b"o%d = %s(c%d, n0)" % (at, rng.choice([b"AND", b"OR", b"XOR"]), at)]
    return lines


def random_circuit(rng):
    while True:
        lines = rng.choice([random_statements, looping_statements, tied_statements])(rng)
        netlist = b"".join(line + b"\n" for line in lines)
        try:
            circuit = netlists.read(netlist)
        except netlists.Refusal:
            continue
        return netlist, circuit, [(site, value) for site in simulation.sites_of(circuit) for value in (0, 1)]


def random_statements_text(rng):
    """A netlist, most often accepted or with one line that isn't."""
    return joined(rng, damage(rng, random_statements(rng)))


def random_netlist(rng):
    """A netlist that is accepted, but one in ten."""
    return random_statements_text(rng) if rng.random() < 0.1 else random_circuit(rng)[0]
