"""The checker: how `check` ends over three files."""
import collections

from plain import entries, judging, netlists, reports, simulation, texts


# what is said of a fault that needs no entry
WITHOUT_ENTRY = b"detected", b"undetected"
VALID = 0, b"valid\n", b""


# ---- the model


class Denied(Exception):
    """The first trouble, as Err names it."""


class Checker:
    """A circuit with its faults and classes, and a start or else all-unknown. What entries and lists were judged before is
    kept."""

    def __init__(self, netlist, start=None):
        self.circuit, self.sizes, self.start = netlists.read(netlist), reports.circuit_of(netlist), start
        self.faults = [(site, stuck) for site in simulation.sites_of(self.circuit) for stuck in (0, 1)]
        self.representatives = sorted(set(self.sizes.representatives))
        self.judged, self.detected = {}, {}

    def passes(self, number, budget, entry):
        key = number, budget, repr(entry)
        if key not in self.judged:
            allowed = judging.allows(self.start, entry)
            self.judged[key] = allowed and judging.passes(self.circuit, self.faults[number], budget, entry, self.start)
        return self.judged[key]

    def verdicts(self, vectors):
        """What the vectors show of each representative, as a report says it."""
        key = repr(vectors)
        if key not in self.detected:
            good = simulation.outputs_of(self.circuit, vectors, start=self.start)
            self.detected[key] = {
                number: simulation.verdict(
                    self.circuit, good, simulation.outputs_of(self.circuit, vectors, *self.faults[number], self.start)
                )
                for number in self.representatives
            }
        return self.detected[key]

    def claims(self, vectors, report):
        """The budget and the verdicts of a report that agrees with the vectors."""
        lines, kinds, shown, claims = texts.lines_of(report), collections.Counter(), self.verdicts(vectors), {}
        budget = None
        for at, line in enumerate(lines):
            try:
                said = reports.read_line(self.sizes, at, line, kinds)
            except entries.Malformed:
                raise Denied(b"report line %d" % (at + 1)) from None
            if said[0] == 1:
                budget = said[1]
            elif said[0] == 2:
                claims[said[1]] = line[len(self.sizes.fronts[said[1]]) :]
                if (claims[said[1]] if said[2] == 0 else b"undetected") != shown[said[1]]:
                    raise Denied(b"report line %d" % (at + 1))
        if len(lines) != len(self.sizes.fronts) + 2:
            raise Denied(b"report line %d" % (len(lines) + 1))
        return budget, claims

    def is_right(self, number, entry, budget, claims):
        """Whether the entry of this number, from 1, is that of a representative and backs what is said of it."""
        claim = claims.get(number - 1)
        if claim is None:
            return False
        kind = entries.KINDS[type(entry)]
        return claim.startswith(b"detected") or claim == kind and self.passes(number - 1, budget, entry)

    def judge_proofs(self, budget, claims, proofs):
        given, malformed = entries.read_proofs(proofs)
        ends, held = {line: (number, entry) for line, number, entry in given}, set()
        for at, line in enumerate(texts.lines_of(proofs), 1):
            if at == malformed:
                break
            if at in ends:
                number, entry = ends[at]
                if not self.is_right(number, entry, budget, claims):
                    raise Denied(b"fault %d" % number)
                held.add(number)
            begun = int(line.split()[1]) if line.startswith(b"entry ") else len(self.faults) + 1 if line == b"end" else 0
            for number in self.representatives:
                if number + 1 < begun and not claims[number].startswith(WITHOUT_ENTRY) and number + 1 not in held:
                    raise Denied(b"fault %d" % (number + 1))
        if malformed is not None:
            raise Denied(b"proofs line %d" % malformed)

    def check(self, tests, report, proofs):
        """How `check` has to end over these files; None for one that isn't there."""
        try:
            if tests is None:
                return 4, b"", b"read fault\n"
            try:
                vectors = simulation.vectors_of(self.circuit, tests)
            except netlists.Refusal as refusal:
                raise Denied(refusal.args[0].replace(b":", b"").rstrip(b"\n")) from None
            if report is None:
                return 4, b"", b"read fault\n"
            budget, claims = self.claims(vectors, report)
            if proofs is None:
                return 4, b"", b"read fault\n"
            self.judge_proofs(budget, claims, proofs)
        except Denied as denied:
            return 1, b"", b"denied: %s\n" % denied.args[0]
        return VALID
