#!/usr/bin/env python3
"""Makes a Verilog test bench of a netlist, its tests, their responses and its report.

    examples/verilog/test_bench.py NETLIST TESTS RESPONSES REPORT NAMES OUT.v

The bench reads the tests and the responses and runs, each from flip-flops at x:

- for each detected fault two machines made of Verilog's gates, one of them with its line held at the stuck value by `force`:
  the first opposite bits have to be shown at the vector and the output that the report names;
- once the machine beside the module that NAMES says (the design, or the netlist of yosys): no output may show the opposite;
- in that run the machine beside the responses: each output has to show the bit that stands there. An X isn't compared.

It prints a line for each detected fault, and a last one that ends in `0 failed` where all of this holds. The tests and the
responses are read from the folder that the bench runs in, by the names in TESTS and RESPONSES. The fault list is that of
tools/check_proofs.py. NAMES is what to_bench.py writes.
"""
import pathlib
import re
import sys

sys.dont_write_bytecode = True
TOOLS = pathlib.Path(__file__).resolve().parent.parent.parent / "tools"
sys.path[:0] = [str(TOOLS), str(TOOLS / "lib")]
import check_proofs  # noqa: E402
from applied import read_applied  # noqa: E402

DETECTED = re.compile(r"(\d+) (\S+) s-a-([01]) detected (\d+) (\S+)")


def escaped(name):
    """A name as Verilog takes any."""
    return f"\\{name} "


class Machine:
    """A circuit as a Verilog module, in which each pin is a wire of its own, so that it can be held apart from its net."""

    def __init__(self, circuit):
        self.circuit = circuit
        self.nets = [escaped(name.decode()) for name in circuit.names]

    def line(self, site):
        """The wire of a fault site."""
        if site[0] == "stem":
            return self.nets[site[1]]
        return f"data_{site[1]}" if site[0] == "data" else f"pin_{site[1]}_{site[2]}"

    def flip_flop_lines(self):
        for j, net in enumerate(self.circuit.data):
            q = self.nets[self.circuit.inputs + j]
            yield f"  reg latch_{j}; wire {q}= latch_{j}; wire data_{j} = {self.nets[net]};"
            yield f"  always @(posedge clk) latch_{j} <= data_{j};"

    def gate_lines(self):
        for g, gate in enumerate(self.circuit.gates):
            kind = "buf" if gate.kind == b"BUFF" else gate.kind.decode().lower()
            pins = [f"pin_{g}_{i}" for i in range(len(gate.arguments))]
            yield "  " + " ".join(f"wire {pin} = {self.nets[net]};" for pin, net in zip(pins, gate.arguments))
            yield f"  {kind} ({self.nets[gate.net]}, {', '.join(pins)});"

    def text(self):
        """The module. Input i is bit i from the left of `in`, as a line of the tests has it; output o is bit o of `out`."""
        c = self.circuit
        gates = [f"  wire {self.nets[gate.net]};" for gate in c.gates]
        inputs = [f"  wire {self.nets[i]}= in[{c.inputs - 1 - i}];" for i in range(c.inputs)]
        outputs = [f"  assign out[{o}] = {self.nets[net]};" for o, net in enumerate(c.outputs)]
        start = ["  task start;", "    begin", *(f"      latch_{j} = 1'bx;" for j in range(len(c.data))), "    end", "  endtask"]
        head = f"module machine (input clk, input [{c.inputs - 1}:0] in, output [{len(c.outputs) - 1}:0] out);"
        body = [*gates, *inputs, *self.flip_flop_lines(), *self.gate_lines(), *outputs, *start]
        return "\n".join([head, *body, "endmodule", ""])


TASKS = """
  // From flip-flops at x to the first opposite bits, or through this many vectors; at 0 is where there were none.
  task follow(input integer count);
    begin
      at = 0;
      clk = 0;
      good.start;
      faulty.start;
      for (t = 0; t < count && at == 0; t = t + 1) begin
        in = vectors[t];
        #1;
        for (o = 0; o < OUTPUTS && at == 0; o = o + 1)
          if ((good_out[o] ^ faulty_out[o]) === 1'b1) begin
            at = t + 1;
            place = o;
            good_bit = good_out[o];
            faulty_bit = faulty_out[o];
          end
        #1 clk = 1;
        #1 clk = 0;
      end
    end
  endtask

  task shows(input integer number, vector, output_place);
    begin
      follow(vector);
      if (at == vector && place == output_place) begin
        shown = shown + 1;
        $display("fault %0d: vector %0d output %0d: good %b faulty %b", number, at, place + 1, good_bit, faulty_bit);
      end else begin
        failed = failed + 1;
        $display("fault %0d: not at vector %0d output %0d", number, vector, output_place + 1);
      end
    end
  endtask

  // The good machine beside the responses at vector t; the first output is the leftmost of a line.
  task compare_responses;
    for (o = 0; o < OUTPUTS; o = o + 1) begin
      expected = responses[t][OUTPUTS-1-o];
      if (expected !== 1'bx) begin
        compared = compared + 1;
        if (good_out[o] !== expected) begin
          failed = failed + 1;
          $display("responses: another bit at vector %0d output %0d: %b", t + 1, o + 1, good_out[o]);
        end
      end
    end
  endtask

  // The good machine over all vectors beside the responses and beside the design, whose flip-flops are at x by themselves in
  // the first run.
  task compare_design;
    begin
      clk = 0;
      good.start;
      for (t = 0; t < VECTORS; t = t + 1) begin
        in = vectors[t];
        #1;
        compare_responses;
        for (o = 0; o < PORTS; o = o + 1)
          if ((port_values[o] ^ design_values[o]) === 1'b1) begin
            failed = failed + 1;
            $display("design: opposite at vector %0d, %0d", t + 1, o);
          end
        #1 clk = 1;
        #1 clk = 0;
      end
    end
  endtask
"""


def ports_by_name(bits):
    """The bits of each port of the design as Verilog joins them, from (bench name, port), the lowest first."""
    ports = {}
    for name, port in bits:
        ports.setdefault(port, []).insert(0, name)
    return ports


def design_lines(machine, names_text):
    """The instance of the design and the nets beside its outputs."""
    words = [line.split(" ", 2) for line in names_text.splitlines()]
    said = {line[0]: line[1] for line in words if line[0] in ("module", "clock")}
    net_of = {name.decode(): net for net, name in enumerate(machine.circuit.names)}
    inputs = ports_by_name([line[1:] for line in words if line[0] == "input"])
    outputs = ports_by_name([line[1:] for line in words if line[0] == "output"])
    ports = [f".{escaped(said['clock'])}(clk)"] if "clock" in said else []
    for base, named in inputs.items():
        bits = ", ".join(f"in[{machine.circuit.inputs - 1 - net_of[name]}]" for name in named)
        ports.append(f".{escaped(base)}({{{bits}}})")
    places, beside = 0, []
    for base, named in outputs.items():
        ports.append(f".{escaped(base)}(design_values[{places + len(named) - 1}:{places}])")
        beside = [f"good.{machine.nets[net_of[name]]}" for name in named] + beside
        places += len(named)
    return [
        f"  localparam PORTS = {places};",
        "  wire [PORTS-1:0] design_values, port_values;",
        f"  assign port_values = {{{', '.join(beside)}}};",
        f"  {escaped(said['module'])}dut ({', '.join(ports)});",
    ]


def fault_lines(machine, report):
    """For each detected fault the force of its line, and what is expected."""
    circuit = machine.circuit
    faults = check_proofs.faults_of(circuit)
    output_of = {circuit.names[net].decode(): o for o, net in enumerate(circuit.outputs)}
    for line in report.splitlines():
        match = DETECTED.fullmatch(line)
        if match:
            number, vector = int(match[1]), int(match[4])
            wire = f"faulty.{machine.line(faults[number - 1].site)}"
            yield f"    // {line}"
            yield f"    force {wire}= 1'b{match[3]}; shows({number}, {vector}, {output_of[match[5]]}); release {wire};"


def bench_text(machine, vectors, tests_name, responses_name, report, names_text):
    """The whole file."""
    c = machine.circuit
    head = [
        "module test;",
        f"  localparam INPUTS = {c.inputs}, OUTPUTS = {len(c.outputs)}, VECTORS = {vectors};",
        "  reg clk; reg [INPUTS-1:0] in; reg [INPUTS-1:0] vectors [0:VECTORS-1];",
        "  reg [OUTPUTS-1:0] responses [0:VECTORS-1]; wire [OUTPUTS-1:0] good_out, faulty_out;",
        "  integer t, o, at, place, shown = 0, compared = 0, failed = 0; reg good_bit, faulty_bit, expected;",
        "  machine good (clk, in, good_out);",
        "  machine faulty (clk, in, faulty_out);",
    ]
    read = [f'    $readmemb("{tests_name}", vectors);', f'    $readmemb("{responses_name}", responses);']
    run = ["  initial begin", *read, "    compare_design;", *fault_lines(machine, report)]
    said = '"%0d bits as in the responses, %0d detected faults shown, %0d failed"'
    run += [f"    $display({said}, compared, shown, failed);", "  end", "endmodule", ""]
    return "\n".join([machine.text(), *head, *design_lines(machine, names_text), TASKS, *run])


def main():
    if len(sys.argv) != 7:
        sys.exit("usage: test_bench.py NETLIST TESTS RESPONSES REPORT NAMES OUT.v")
    netlist, tests, responses, report, names, out = map(pathlib.Path, sys.argv[1:])
    applied = read_applied(netlist, tests, responses)
    circuit, count = applied.circuit, len(applied.tests)
    if not circuit.inputs or not circuit.outputs or not count:
        sys.exit("test_bench: there is no input, no output or no vector to run")
    out.write_text(bench_text(Machine(circuit), count, tests, responses, report.read_text(), names.read_text()))


if __name__ == "__main__":
    main()
