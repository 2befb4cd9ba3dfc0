#!/usr/bin/env python3
"""Makes a .bench netlist of the JSON that yosys writes of gates and plain flip-flops.

    examples/verilog/to_bench.py GATES.json NETLIST NAMES

The module is the only one, or the one that is marked as the top. Its cells are those that gates.ys leaves: gates of one or
two arguments and `$_DFF_P_`, all on one clock, which is dropped. Inputs, outputs and nets with a name of the design keep it,
with `[k]` for bit k of a port; a byte that a .bench name can't hold becomes `_`, and a number is added where names would be
equal. Other nets are called w1, w2 and so on. NAMES says what was done, a line for each:

    module NAME
    clock NAME
    input BENCH PORT           an input, and the port of the module that has it; the bits of a port come lowest first
    output BENCH PORT          the same of an output; one net may be several outputs
    net BENCH VERILOG          another net whose name was changed

Ends with 0, or with 1 and a line on standard error where the module has something that a .bench file can't hold: a constant,
another cell, two clocks, or a clock that is also a signal.
"""
import itertools
import json
import re
import sys

GATES = {"$_NOT_": "NOT", "$_BUF_": "BUFF"} | {f"$_{kind}_": kind for kind in ("AND", "NAND", "OR", "NOR", "XOR", "XNOR")}
FLIP_FLOP = "$_DFF_P_"
STRANGE = re.compile(r"[^!-~]|[#(),=]")
MAX_NAME_BYTES = 255


def top_of(design):
    """The name and the body of the module that is converted."""
    modules = design["modules"]
    tops = [name for name, module in modules.items() if int(module["attributes"].get("top", "0"), 2)]
    names = tops or list(modules)
    if len(names) != 1:
        sys.exit("to_bench: there is more than one module")
    return names[0], modules[names[0]]


def bits_of(name, net):
    """(Verilog name, bit) of a port or a net, whose range may begin anywhere and rise or fall."""
    width = len(net["bits"])
    for place, bit in enumerate(net["bits"]):
        number = net.get("offset", 0) + (width - 1 - place if net.get("upto") else place)
        yield (name if width == 1 else f"{name}[{number}]"), bit


def port_bits(module, direction):
    """(port, bit) of the ports of a direction, in the order of the module, the bits of each the lowest first."""
    for name, port in module["ports"].items():
        if port["direction"] == direction:
            yield from ((name, bit) for bit in port["bits"])


def clock_of(module):
    """The bit of the clock, or None where there is no flip-flop."""
    clocks = {cell["connections"]["C"][0] for cell in module["cells"].values() if cell["type"] == FLIP_FLOP}
    if len(clocks) > 1:
        sys.exit("to_bench: there are two clocks")
    return clocks.pop() if clocks else None


def verilog_names(module):
    """A name of the design for each bit that has one: that of a port, or of a wire that isn't hidden."""
    names = {}
    inputs_first = sorted(module["ports"].items(), key=lambda port: port[1]["direction"] != "input")
    shown = [(name, net) for name, net in module["netnames"].items() if not net["hide_name"]]
    for name, net in inputs_first + shown:
        for wire, bit in bits_of(name, net):
            names.setdefault(bit, wire)
    return names


def bench_names(verilog, bits):
    """A name of its own for each bit, as a .bench file can hold it. Names that need no change come first."""
    held = {bit: STRANGE.sub("_", name)[: MAX_NAME_BYTES - 10] for bit, name in verilog.items()}
    taken, names = set(), {}
    for bit in sorted(bits, key=lambda bit: (bit not in held, held.get(bit) != verilog.get(bit))):
        wanted = held.get(bit, "")
        tries = itertools.chain([wanted] * bool(wanted), (f"{wanted}_{k}" if wanted else f"w{k}" for k in itertools.count(1)))
        names[bit] = next(name for name in tries if name not in taken)
        taken.add(names[bit])
    return names


def statement(cell, names):
    """The .bench line of a cell."""
    kind, pins = cell["type"], {pin: bits[0] for pin, bits in cell["connections"].items()}
    if kind == FLIP_FLOP:
        return f"{names[pins['Q']]} = DFF({names[pins['D']]})"
    arguments = ", ".join(names[pins[pin]] for pin in ("A", "B") if pin in pins)
    return f"{names[pins['Y']]} = {GATES[kind]}({arguments})"


def refuse_what_bench_lacks(module, clock):
    """Ends where a cell, a pin or a port can't be stated."""
    cells = module["cells"].values()
    read = [bit for cell in cells for pin, bits in cell["connections"].items() if pin != "C" for bit in bits]
    read += [bit for _, bit in port_bits(module, "output")]
    for cell in cells:
        if cell["type"] not in GATES and cell["type"] != FLIP_FLOP:
            sys.exit(f"to_bench: there is a cell {cell['type']}")
    if any(isinstance(bit, str) for bit in read):
        sys.exit("to_bench: there is a constant, which no .bench line states")
    if clock in read or clock is not None and clock not in [bit for _, bit in port_bits(module, "input")]:
        sys.exit("to_bench: the clock is also a signal, or isn't an input")
    if list(port_bits(module, "inout")):
        sys.exit("to_bench: there is an inout port")


def converted(name, module):
    """The lines of the netlist and those of the names."""
    clock, verilog = clock_of(module), verilog_names(module)
    refuse_what_bench_lacks(module, clock)
    inputs = [(port, bit) for port, bit in port_bits(module, "input") if bit != clock]
    outputs = list(port_bits(module, "output"))
    cells = sorted(module["cells"].values(), key=lambda cell: cell["type"] != FLIP_FLOP)
    driven = [bit for cell in cells for pin in ("Q", "Y") for bit in cell["connections"].get(pin, [])]
    names = bench_names(verilog, [bit for _, bit in inputs] + driven)
    netlist = [f"INPUT({names[bit]})" for _, bit in inputs]
    netlist += dict.fromkeys(f"OUTPUT({names[bit]})" for _, bit in outputs)
    netlist += [statement(cell, names) for cell in cells]
    kept = [f"module {name}"] + ([f"clock {verilog[clock]}"] if clock is not None else [])
    kept += [f"input {names[bit]} {port}" for port, bit in inputs]
    kept += [f"output {names[bit]} {port}" for port, bit in outputs]
    kept += [f"net {names[bit]} {verilog[bit]}" for bit in driven if bit in verilog and names[bit] != verilog[bit]]
    return netlist, kept


def main():
    if len(sys.argv) != 4:
        sys.exit("usage: to_bench.py GATES.json NETLIST NAMES")
    try:
        with open(sys.argv[1]) as file:
            texts = converted(*top_of(json.load(file)))
        for path, lines in zip(sys.argv[2:], texts):
            with open(path, "w") as file:
                file.writelines(line + "\n" for line in lines)
    except OSError as error:
        sys.exit(f"to_bench: {error}")


if __name__ == "__main__":
    main()
