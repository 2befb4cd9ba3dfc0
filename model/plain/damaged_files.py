"""The three files with other entries that pass, and with damage."""
from plain import changed_entries, cubes, entries, judging, random_files, reports, search, strange_lines, texts


# Lines that stand after the end, some of them longer than a line of proofs can be.
LINES_AFTER = [b"", b"end", b"x", b"entry 1 untestable", b"entry 1 untestable from 0", b"clause 1 0", b"j" * 16_417, b"j" * 16_418]
LINES_AFTER += [b"j" * 2**20, b"j" * (2**20 + 1), b"never good 1 0", b"step by 1"]
LINES_AFTER += [b"justify " + b"0" * 4_097, b"entry 1 untestable from " + b"0" * 16_385]


# ---- proofs of the second format


def head_of(given):
    """The first line of proofs with these entries."""
    types = [type(entry) for _, entry in given]
    undetectable = any(entries.KINDS[kind] == b"undetectable" for kind in types)
    return b"proofs %d" % (3 if undetectable else 1 + (entries.UntestableFrom in types))


def entries_of(proofs):
    """The number and the entry of each entry of a proofs text."""
    return [entry[1:] for entry in entries.read_proofs(proofs)[0]]


def with_states(rng, checker, files):
    """The three files with entries from a random state in the place of others, where there are such."""
    tests, report, proofs = files
    lines, given = texts.lines_of(report), entries_of(proofs)
    state, clauses = changed_entries.random_invariant(rng, checker.circuit, 1_000)
    for at, (number, _) in enumerate(given):
        entry = search.refute_from(checker.circuit, checker.faults[number - 1], state, clauses, 1_000)
        if entry is not None and rng.random() < 0.8:
            given[at] = number, entry
            lines[number] = checker.sizes.fronts[number - 1] + b"untestable"
    head = max(texts.lines_of(proofs)[0], head_of(given))
    return tests, texts.text_of(with_total(lines)), texts.text_of(entries.proofs_lines(given, head))


def with_cubes(rng, checker, files):
    """The three files with entries by cubes in the place of those by sets, and of some others where a family closes."""
    tests, report, proofs = files
    lines, given = texts.lines_of(report), entries_of(proofs)
    start = checker.start or [2] * len(checker.circuit.flip_flops)
    for at, (number, entry) in enumerate(given):
        fault = checker.faults[number - 1]
        by_sets = isinstance(entry, entries.UndetectableBySets)
        family = judging.closing(checker.circuit, fault, start) if by_sets or rng.random() < 0.3 else None
        by_cubes = cubes.entry_of(checker.circuit, fault, family, 30) if family and rng.random() < 0.8 else None
        if by_cubes is not None:
            given[at] = number, by_cubes
            lines[number] = checker.sizes.fronts[number - 1] + b"undetectable"
    head = max(texts.lines_of(proofs)[0], head_of(given))
    return tests, texts.text_of(with_total(lines)), texts.text_of(entries.proofs_lines(given, head))


def whole_files(rng, checker, files):
    """The files as they are, or with entries from a state, or by cubes."""
    files = files if rng.random() < 0.5 else with_states(rng, checker, files)
    return files if rng.random() < 0.5 else with_cubes(rng, checker, files)


# ---- damaged files


def text_of(rng, lines):
    return random_files.joined(rng, lines) if rng.random() < 0.1 else texts.text_of(lines)


def with_total(lines):
    """A report whose total counts what its lines say."""
    said = [next((kind for kind in reports.SAID if b" " + kind in line), None) for line in lines[1:-1]]
    return lines[:-1] + [reports.total_line([said.count(kind) for kind in reports.SAID])]


def other_report(rng, checker, lines):
    """Another budget, or another verdict of a representative, most with a total that fits."""
    if not checker.representatives:
        return lines
    lines, number = lines[:], rng.choice(checker.representatives)
    if len(lines) < number + 3:
        return lines
    if rng.random() < 0.3 and b" " in lines[0] and lines[0].split()[-1].isdigit():
        front, budget = lines[0].rsplit(b" ", 1)
        lines[0] = front + b" %d" % max(int(budget) + rng.choice([-1, 1, 10]), 1)
        return lines
    outputs = checker.circuit.outputs or [b"n1"]
    said = rng.choice([*reports.SAID[1:], b"detected %d %s" % (rng.randint(1, 4), rng.choice(outputs))])
    lines[number + 1] = checker.sizes.fronts[number] + said
    return with_total(lines) if rng.random() < 0.8 else lines


def other_tests(rng, lines, width):
    at = rng.randrange(len(lines) + 1)
    vector = bytes(rng.choice(b"01") for _ in range(width))
    more = rng.choice([vector, vector, vector, vector[1:], vector + b"0", vector.replace(b"1", b"x", 1)])
    return rng.choice([lines[:at] + [more] + lines[at:], lines[:at] + lines[at + 1 :], lines[:at] + [more] + lines[at + 1 :]])


def other_entries(rng, checker, given):
    """Entries dropped, doubled, damaged, of other faults, of the other kind, and added for faults that need none."""
    given = given[:]
    for _ in range(rng.choice([1, 1, 2])):
        at, how = rng.randrange(len(given) + 1), rng.randrange(6)
        held = [number for number, _ in given]
        if at == len(given) or how == 0:
            number = rng.choice([*range(1, len(checker.faults) + 4)])
            entry = rng.choice([entries.Untestable([], [(b"dead", 0)]), *(entry for _, entry in given)])
            if number not in held or rng.random() < 0.2:
                given.append((number, entry))
        elif how == 1:
            del given[at]
        elif how in (2, 3):
            given[at] = given[at][0], changed_entries.damage(rng, given[at][1])
        elif how == 4:
            given[at] = given[at][0] + rng.choice([-1, 1]) or 1, given[at][1]
        else:
            given[at] = given[at][0], rng.choice(given)[1]
    return sorted(given, key=lambda entry: entry[0]) if rng.random() < 0.95 else given


def damaged(rng, checker, files, given):
    """The three files with one or two damages; some stay whole."""
    tests, report, proofs = (texts.lines_of(file) for file in files)
    for _ in range(rng.choice([0, 1, 1, 1, 1, 2])):
        how = rng.randrange(8)
        if how == 0:
            tests = other_tests(rng, tests, len(checker.circuit.inputs))
        elif how in (1, 2):
            report = other_report(rng, checker, report)
        elif how == 3:
            report = strange_lines.damage(rng, report[:], report or [b""], [*strange_lines.REPORT_WORDS, *checker.sizes.outputs])
        elif how == 4:
            proofs = strange_lines.damage(rng, proofs[:], strange_lines.PROOFS_LINES, strange_lines.PROOFS_LINES)
        elif how == 5:
            proofs = proofs + [rng.choice(LINES_AFTER)]
        else:
            others = other_entries(rng, checker, given)
            proofs = entries.proofs_lines(others, head_of(others) if rng.random() < 0.9 else rng.choice([*entries.FORMATS]))
    return [text_of(rng, lines) for lines in (tests, report, proofs)]


# ---- comparing


def random_faults(rng, checker):
    """The faults that are worked on: all, or some."""
    every = range(1, len(checker.faults) + 1)
    return None if rng.random() < 0.7 else sorted(rng.sample(every, rng.randint(0, len(every))))
