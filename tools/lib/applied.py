"""What is applied to a chip and what it shows: the netlist, the tests and the responses that tools/stil, tools/vcd and
examples/verilog/test_bench.py take (docs/FORMATS.md)."""
import pathlib
import sys
from typing import NamedTuple

import check_proofs


class Applied(NamedTuple):
    """A circuit, and for each vector its line of the tests and its line of the responses."""

    circuit: check_proofs.Circuit
    tests: list  # texts of 0 and 1, one character for each input
    responses: list  # texts of 0, 1 and X, one character for each output, or for each net

    @property
    def inputs(self):
        return [name.decode() for name in self.circuit.names[: self.circuit.inputs]]

    @property
    def outputs(self):
        return [self.circuit.names[net].decode() for net in self.circuit.outputs]

    @property
    def nets(self):
        return [name.decode() for name in self.circuit.names]


def rows_of(text, width, characters, kind):
    """The lines of a text, each with so many of these characters; ends the program where one is none."""
    lines = check_proofs.lines_of(text)
    for number, line in enumerate(lines, 1):
        if len(line) != width or line.strip(characters):
            sys.exit(f"{kind}: line {number}")
    return [line.decode() for line in lines]


def read_applied(netlist, tests, responses, lines=False):
    """What the three files say, by their names, where a response has a character for each output, or, with lines, for each net;
    ends the program where one can't be read or is refused."""
    try:
        netlist, tests, responses = (pathlib.Path(name).read_bytes() for name in (netlist, tests, responses))
        circuit = check_proofs.read_netlist(netlist)
    except OSError as error:
        sys.exit(str(error))
    except check_proofs.Refused as refused:
        sys.exit(f"netlist: {refused.args[0].decode(errors='replace')}")
    vectors = rows_of(tests, circuit.inputs, b"01", "tests")
    rows = rows_of(responses, len(circuit.names if lines else circuit.outputs), b"01X", "responses")
    if len(rows) != len(vectors):
        sys.exit(f"responses: line {min(len(rows), len(vectors)) + 1}")
    return Applied(circuit, vectors, rows)


def another_name(wanted, taken):
    """The wanted name, with a number where it is taken; it is taken from then on."""
    name, number = wanted, 0
    while name in taken:
        number += 1
        name = f"{wanted}_{number}"
    taken.add(name)
    return name
