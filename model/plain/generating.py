"""The generator, and the three files that it writes."""
import dataclasses
import sys

from plain import entries, netlists, pcg, reports, search, simulation, texts
from plain.simulation import X

FILES = ("tests", "report", "proofs")


@dataclasses.dataclass
class Ending:
    """How a run ended: its status, what it said, and the tests, the report and the proofs where they are there."""

    status: int
    out: bytes = b""
    err: bytes = b""
    files: tuple = (None, None, None)


# ---- the generator


class Machine:
    """The circuit with a line stuck, or with none, after the vectors so far, from a start or else all-unknown."""

    def __init__(self, circuit, start, fault=(None, None)):
        self.circuit, self.fault, self.state = circuit, fault, start or [X] * len(circuit.flip_flops)

    def step(self, vector):
        shown, self.state = simulation.frame_of(self.circuit, vector, self.state, *self.fault)
        return shown


class Generator:
    """The vectors so far, the entries, and of each representative where the vectors detect it first from the start."""

    def __init__(self, circuit, budget, start=None, deep=False):
        self.circuit, self.budget, self.start, self.deep = circuit, budget, start, deep
        self.faults = [(site, stuck) for site in simulation.sites_of(circuit) for stuck in (0, 1)]
        self.representatives = simulation.representatives_of(circuit, self.faults)
        self.live = {n: Machine(circuit, start, self.faults[n]) for n in sorted(set(self.representatives))}
        self.good, self.vectors, self.entries, self.verdicts = Machine(circuit, start), [], [], {}
        self.invariant = search.named_invariant(circuit, budget, start)

    def add(self, vector):
        """Writes a vector; the faults that it shows are detected."""
        self.vectors.append(vector)
        good = self.good.step(vector)
        for number, machine in list(self.live.items()):
            faulty = machine.step(vector)
            shown = [net for net, *pair in zip(self.circuit.outputs, good, faulty) if sorted(pair) == [0, 1]]
            if shown:
                self.verdicts[number] = b"detected %d %s" % (len(self.vectors), shown[0])
                del self.live[number]

    def reached(self, number):
        """What a deep search on a fault goes by."""
        start = self.start or [X] * len(self.circuit.flip_flops)
        return search.Deep(start, self.good.state, self.live[number].state) if self.deep else None

    def work(self, chosen=None):
        """Takes the representatives in order, but those that the vectors so far detect, and where faults are chosen by their
        numbers from 1 those alone whose class has one."""
        which = {self.representatives[number - 1] for number in chosen or ()}
        for number in list(self.live):
            if number not in self.live:
                continue
            if chosen is not None and number not in which:
                self.verdicts[number] = b"undetected"
                continue
            worked = search.work_on(self.circuit, self.faults[number], self.budget, *self.invariant, self.reached(number))
            if not isinstance(worked, list):
                self.entries.append((number + 1, worked))
                self.verdicts[number] = entries.KINDS[type(worked)]
                continue
            for vector in worked:
                self.add(vector)
            if number in self.live:
                sys.exit(f"gen: the model's list doesn't detect fault {number + 1}: {worked}")


def generated(netlist, budget, random=0, seed=0, weighted=0, start=None, first=(), chosen=None, deep=False):
    """How a run over an accepted netlist has to end, from a start or else all-unknown."""
    generator = Generator(netlists.read(netlist), budget, start, deep)
    inputs = len(generator.circuit.inputs)
    for vector in [*first, *pcg.random_vectors(inputs, random, seed), *pcg.weighted_vectors(inputs, weighted, seed)]:
        generator.add(vector)
    generator.work(chosen)
    tests = texts.text_of(b"".join(b"%d" % value for value in vector) for vector in generator.vectors)
    report = reports.report_lines(reports.circuit_of(netlist), budget, generator.verdicts)
    proofs = texts.text_of(entries.proofs_lines(generator.entries, b"proofs 3" if deep else b"proofs 2"))
    return Ending(0, out=report[-1] + b"\n", files=(tests, texts.text_of(report), proofs))


# ---- comparing


def start_of_example(folder):
    """The start of the example that has this folder, or None."""
    example = folder.parent
    if not (example / "start").exists():
        return None
    return simulation.start_of(netlists.read((example / "netlist.bench").read_bytes()), (example / "start").read_bytes())
