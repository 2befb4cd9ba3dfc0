"""The classes of a report in groups: by cause, or by the module in whose part of the netlist the representative stands."""
import collections
import re

TOP = "(top)"
LINE = re.compile(r"\d+ (?P<site>\S+) s-a-[01] (?P<said>[a-z]+)(?: \S+)*")


def said_of(text):
    """The site and the verdict of each representative of a report, and the counts of its total line by verdict."""
    _, *faults, total = text.splitlines()
    said = [match for line in faults if (match := LINE.fullmatch(line)) and match["said"] != "as"]
    words = total.split()
    counts = {verdict: int(count) for verdict, count in zip(words[2::2], words[3::2])}
    return [(match["site"], match["said"]) for match in said], int(words[1]), counts


def net_of(site):
    """The net by which a site is named: a pin has its number after it, as in `G8(1)`."""
    return re.sub(r"\(\d+\)$", "", site)


def module_of(site, depth):
    """The parts of a name but the last, at most so many: `u1.alu` of `u1.alu.n45`, and a bus of its bit: `\\alu` of `\\alu[3]`."""
    net = net_of(site)
    ends = [at for at, letter in enumerate(net) if letter in "./"] or [at for at, letter in enumerate(net) if letter == "[" and at]
    if not ends:
        return TOP
    parts = re.split(r"([./])", net[: ends[-1]])
    return "".join(parts[: 2 * depth - 1]) if depth else net[: ends[-1]]


def grouped(said, verdicts, group_of):
    """For each group how many classes have each verdict; the group with most undetected ones first."""
    groups = collections.defaultdict(lambda: collections.Counter({verdict: 0 for verdict in verdicts}))
    for site, verdict in said:
        groups[group_of(site, verdict)][verdict] += 1
    return sorted(groups.items(), key=lambda it: (-lost(it[1]), it[0]))


def lost(counts):
    """How many classes aren't detected."""
    return sum(counts.values()) - counts["detected"]


def checked(groups, classes, counts):
    """The groups, whose numbers are those of the total line; ValueError where they aren't."""
    sums = collections.Counter()
    for _, split in groups:
        sums.update(split)
    # the total line of `sim` has no count of what isn't detected
    if sum(sums.values()) != classes or any(sums[verdict] != count for verdict, count in counts.items()):
        raise ValueError("its lines don't add up to its total line")
    return groups


def share(part, whole):
    return 100 * part / whole if whole else 0.0


def row_of(name, split, verdicts):
    """What a row shows of a group: its classes, each verdict, the coverage, and that with a half for each possible detection."""
    classes = sum(split.values())
    halves = split["detected"] + split["possible"] / 2
    return [name, classes, *(split[it] for it in verdicts), f"{share(split['detected'], classes):.1f} %", f"{share(halves, classes):.1f} %"]


def table_of(groups, verdicts):
    """The groups as a table, the worst first, and their sum."""
    total = collections.Counter({verdict: 0 for verdict in verdicts})
    for _, split in groups:
        total.update(split)
    rows = [["", "classes", *verdicts, "coverage", "with halves"]]
    rows += [row_of(name, split, verdicts) for name, split in groups] + [row_of("total", total, verdicts)]
    wide = [max(len(str(row[at])) for row in rows) for at in range(len(rows[0]))]
    lines = [f"{row[0]:{wide[0]}} " + " ".join(f"{it:>{width}}" for it, width in zip(row[1:], wide[1:])) for row in rows]
    return "\n".join(line.rstrip() for line in lines)


def cause_table(groups):
    """How many classes have each verdict, and the coverage without and with a half for each possible detection."""
    counts = {verdict: sum(split.values()) for verdict, split in groups}
    classes = sum(counts.values())
    rows = [f"{verdict:>12} {count:8} {share(count, classes):8.1f} %" for verdict, count in counts.items()]
    halves = counts.get("detected", 0) + counts.get("possible", 0) / 2
    said = f"coverage {share(counts.get('detected', 0), classes):.1f} %, with halves {share(halves, classes):.1f} %"
    return "\n".join([*rows, f"{'total':>12} {classes:8}            {said}"])


# ---- the nets that many lost classes come to


def gates_of(netlist):
    """For each net that a gate drives the nets that its pins read; inputs and flip-flops end a cone."""
    gates = {}
    for line in netlist.splitlines():
        match = re.fullmatch(r"\s*([^\s()=,]+)\s*=\s*(\w+)\s*\(([^()]*)\)\s*", line.split("#")[0])
        if match and match[2].upper() != "DFF":
            gates[match[1]] = [arg.strip() for arg in match[3].split(",")]
    return gates


def cone_of(gates, net, depth):
    """The nets that so many gates before a net drive, with it."""
    cone = layer = {net}
    for _ in range(depth):
        layer = {arg for it in layer for arg in gates.get(it, [])}
        cone = cone | layer
    return cone


def worst_of(said, netlist, depth, count):
    """The nets with most lost classes within so many gates before them: how many, of how many, and the causes."""
    gates = gates_of(netlist)
    at_net = collections.defaultdict(collections.Counter)
    for site, verdict in said:
        at_net[net_of(site)][verdict] += 1
    rows = []
    for net in gates:
        split = collections.Counter()
        for it in cone_of(gates, net, depth):
            split.update(at_net.get(it, {}))
        rows.append((net, split))
    rows.sort(key=lambda it: (-lost(it[1]), sum(it[1].values()), it[0]))
    return [it for it in rows[:count] if lost(it[1])]


def worst_table(rows):
    lines = [f"{'lost':>6} {'of':>6}  net"]
    for net, split in rows:
        causes = ", ".join(f"{count} {verdict}" for verdict, count in split.most_common() if count and verdict != "detected")
        lines.append(f"{lost(split):6} {sum(split.values()):6}  {net}: {causes}")
    return "\n".join(lines)
