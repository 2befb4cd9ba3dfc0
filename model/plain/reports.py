"""The report of a search, read and written."""
import collections
import dataclasses

from plain import entries, netlists, simulation, texts


def circuit_of(netlist):
    """What a report needs of a circuit: its head without the budget, its faults' lines up to the verdict, and more."""
    circuit = netlists.read(netlist)
    faults = [(site, stuck) for site in simulation.sites_of(circuit) for stuck in (0, 1)]
    representatives = simulation.representatives_of(circuit, faults)
    sizes = [len(part) for part in (circuit.inputs, circuit.outputs, circuit.flip_flops, circuit.gates, faults)]
    sizes.append(len(set(representatives)))
    head = b"circuit inputs %d outputs %d flip-flops %d gates %d faults %d classes %d budget " % tuple(sizes)
    fronts = [
        b"%d %s s-a-%d " % (i + 1, simulation.site_text(circuit, site), stuck) for i, (site, stuck) in enumerate(faults)
    ]
    return Sizes(head, fronts, representatives, circuit.outputs)


@dataclasses.dataclass
class Sizes:
    head: bytes
    fronts: list
    representatives: list
    outputs: list


SAID = (b"detected", b"untestable", b"aborted", b"undetectable", b"undetected")
# those of which a total says nothing where there is none
WHERE_ANY = (b"undetectable", b"undetected")


def total_line(counts):
    """The last line of the report of a search, by how often each verdict is said."""
    said = [b" %s %d" % (kind, count) for kind, count in zip(SAID, counts) if count or kind not in WHERE_ANY]
    return b"total %d" % sum(counts) + b"".join(said)


def rest_of(line, front):
    if not line.startswith(front):
        raise entries.Malformed
    return line[len(front) :]


def verdict_of(words, outputs):
    """The kind of a verdict, and the vector and the output from 0 of a detection."""
    if len(words) == 1 and words[0] in SAID[1:]:
        return SAID.index(words[0]), 0, 0
    vector = entries.number(words[1], entries.MOST_VECTORS) if len(words) == 3 else None
    if vector is None or words[0] != b"detected" or words[2] not in outputs:
        raise entries.Malformed
    return 0, vector - 1, outputs.index(words[2])


def read_line(sizes, at, line, kinds):
    """What line `at` of a report says, from 0; `kinds` counts the verdicts so far."""
    if at == 0:
        budget = entries.number(rest_of(line, sizes.head), entries.MOST_BUDGET)
        if budget is None:
            raise entries.Malformed
        return [1, budget]
    fault = at - 1
    if fault == len(sizes.fronts):
        if line != total_line([kinds[kind] for kind in range(len(SAID))]):
            raise entries.Malformed
        return [4]
    if fault > len(sizes.fronts):
        raise entries.Malformed
    rest = rest_of(line, sizes.fronts[fault])
    if sizes.representatives[fault] == fault:
        kind, vector, output = verdict_of(rest.split(b" "), sizes.outputs)
        kinds[kind] += 1
        return [2, fault, kind, vector, output]
    if rest != b"as %d" % (sizes.representatives[fault] + 1):
        raise entries.Malformed
    return [3, fault]


def read_report(sizes, text):
    """What each line says, one after the other, and the malformed line or None."""
    lines, said, kinds = texts.lines_of(text), [], collections.Counter()
    for at, line in enumerate(lines):
        try:
            said.append(read_line(sizes, at, line, kinds))
        except entries.Malformed:
            return said, at + 1
    return said, None if len(lines) == len(sizes.fronts) + 2 else len(lines) + 1


def report_lines(sizes, budget, verdicts):
    """The report that says `verdicts` of the representatives, each as its text."""
    lines = [sizes.head + b"%d" % budget]
    for fault, front in enumerate(sizes.fronts):
        own = sizes.representatives[fault] == fault
        lines.append(front + (verdicts[fault] if own else b"as %d" % (sizes.representatives[fault] + 1)))
    kinds = [verdict.split()[0] for verdict in verdicts.values()]
    return lines + [total_line([kinds.count(kind) for kind in SAID])]
