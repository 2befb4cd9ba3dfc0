"""Entries and the proofs text, read and written: a grammar over whole lines."""
import dataclasses
import itertools

from plain import texts

MOST = 2**32 - 1
MOST_VECTORS = 2**64 - 1
MOST_BUDGET = 100_000
MOST_BITS = 4_096
MOST_STATE_BITS = 16_384
MOST_CLAUSES = 32
MOST_LINE_BYTES = 2**20


class Malformed(Exception):
    """No text has the next line after the lines before."""


# ---- words of a line


def number(word, most=MOST):
    """A number from 1, without leading zeros."""
    right = word.isdigit() and len(word) <= 20 and not word.startswith(b"0")
    return int(word) if right and int(word) <= most else None


def bit(word):
    return {b"0": 0, b"1": 1}.get(word)


def bits(word):
    """The bits of a vector; `-` where there are no inputs."""
    if word == b"-":
        return ()
    return tuple(byte - 48 for byte in word) if 1 <= len(word) <= MOST_BITS and not word.strip(b"01") else None


def state(word):
    """The bits of a state, at least one."""
    return tuple(byte - 48 for byte in word) if 1 <= len(word) <= MOST_STATE_BITS and not word.strip(b"01") else None


WORDS = {b"N": number, b"B": bit, b"BITS": bits, b"STATE": state}
# the pairs of a good and a faulty value, in the order of a text
PAIRS = [bytes(pair) for pair in itertools.product(b"01X", repeat=2)]


def set_of(words):
    """A set of pairs, at least one and in order."""
    known = words and all(word in PAIRS for word in words)
    return tuple(words) if known and words == sorted(set(words), key=PAIRS.index) else None


def rail(words):
    """A rail: whether it is of the faulty machine, a flip-flop from 0, and a bit."""
    machine, (index, value) = {b"good": 0, b"faulty": 1}.get(words[0]), (number(words[1]), bit(words[2]))
    return None if None in (machine, index, value) else (machine, index - 1, value)


def rails(words):
    """Rails, at least one."""
    found = [rail(words[at : at + 3]) for at in range(0, len(words), 3)] if len(words) % 3 == 0 else []
    return tuple(found) if found and None not in found else None


def signed(word):
    """The number of a variable, with a hyphen where it is negative."""
    found = number(word[1:] if word.startswith(b"-") else word)
    return -found if found and word.startswith(b"-") else found


def step(words):
    """Literals, the word `by`, and the numbers of clauses, at least one."""
    at = words.index(b"by") if b"by" in words else 0
    literals, hints = tuple(map(signed, words[:at])), tuple(map(number, words[at + 1 :]))
    right = b"by" in words and hints and None not in literals + hints
    return (literals, hints) if right else None


# what the words of a line from a place on are together
ENDINGS = {b"SET": set_of, b"RAILS": rails, b"STEP": step}


def values(form, line):
    """What stands for the capital words of a form in a line, or None where the line doesn't have the form."""
    words, wanted, found = line.split(b" "), form.split(b" "), []
    if wanted[-1] in ENDINGS:
        told = values(b" ".join(wanted[:-1]), b" ".join(words[: len(wanted) - 1]))
        if told is None or len(line) > MOST_LINE_BYTES:
            return None
        ending = ENDINGS[wanted[-1]](words[len(wanted) - 1 :])
        return None if ending is None else [*told, ending]
    if len(words) != len(wanted):
        return None
    for word, want in zip(words, wanted):
        value = WORDS[want](word) if want in WORDS else word == want or None
        if value is None:
            return None
        found += [value] if want in WORDS else []
    return found


# ---- proofs


@dataclasses.dataclass
class Untestable:
    """Flip-flops from 0, and the walk."""

    z: list
    tokens: list


@dataclasses.dataclass
class UntestableFrom:
    """The bits of a state, clauses as ([(flip-flop, bit)], walk), flip-flops from 0, and the walk."""

    state: list
    clauses: list
    z: list
    tokens: list


@dataclasses.dataclass
class UndetectableBySets:
    """Flip-flops from 0, each with the members of its set."""

    rows: list


@dataclasses.dataclass
class UndetectableByCubes:
    """Cubes, each of rails as (machine, flip-flop from 0, bit), and steps as (literals, hints)."""

    cubes: list
    steps: list


@dataclasses.dataclass
class Aborted:
    """Told frames as (place, number, [(variable, bit)]), the walk or None, the aim as (form, parts) or None, the walks."""

    told: list
    walk: list | None
    aim: tuple | None
    sweep: list


KINDS = {Untestable: b"untestable", UntestableFrom: b"untestable", Aborted: b"aborted"}
KINDS |= {UndetectableBySets: b"undetectable", UndetectableByCubes: b"undetectable"}
TOKENS = (b"lo N", b"hi N", b"x N", b"dead", b"before")
SEARCHED = (b"forward closed", b"forward open", b"back closed", b"back open")


class Lines:
    """Lines that are taken one by one, each in one of the forms that may stand there."""

    def __init__(self, lines):
        self.lines, self.at = lines, 0

    def take(self, form, fits=lambda *values: True):
        """The values of the next line where it has the form and its values fit, else None and the line stays."""
        found = values(form, self.lines[self.at]) if self.at < len(self.lines) else None
        if found is None or not fits(*found):
            return None
        self.at += 1
        return found

    def want(self, form, fits=lambda *values: True):
        found = self.take(form, fits)
        if found is None:
            raise Malformed
        return found

    def each(self, *forms, fits=lambda found, *values: True):
        """As many lines of these forms as come, as (form, values); `fits` is given those before."""
        found = []
        while True:
            for form in forms:
                taken = self.take(form, lambda *values: fits(found, *values))
                if taken is not None:
                    found.append((form, taken))
                    break
            else:
                return found


def rises(found, first, *rest):
    return not found or found[-1][1][0] < first


def tokens_of(lines):
    return [(form, taken[0] - 1 if taken else 0) for form, taken in lines.each(*TOKENS)]


def told_of(lines):
    told = []
    while True:
        for place in (b"output", b"state"):
            taken = lines.take(b"frame %s N" % place)
            if taken is not None:
                sets = [(taken[0] - 1, taken[1]) for _, taken in lines.each(b"set N B", fits=rises)]
                told.append((place, taken[0] - 1, sets))
                break
        else:
            return told


def aim_of(lines):
    for form in SEARCHED:
        if lines.take(form) is not None:
            return form, tokens_of(lines)
    if lines.take(b"attempt") is None:
        return None
    width = lambda vector: not widths or widths[0] == len(vector)
    widths, parts = [], []
    for form in (b"justify BITS", b"ahead BITS"):
        parts.append([])
        while (taken := lines.take(form, width)) is not None:
            parts[-1].append(taken[0])
            widths.append(len(taken[0]))
    return b"attempt", parts


def sweep_of(lines):
    lines.want(b"sweep")
    walks = []
    while (lines.take if walks else lines.want)(b"length N", lambda length: length == len(walks) + 1) is not None:
        walks.append(tokens_of(lines))
    return walks


def refutation_of(lines):
    z = [taken[0] - 1 for _, taken in lines.each(b"z N", fits=rises)]
    lines.want(b"walk")
    return z, tokens_of(lines)


def untestable_of(lines):
    return Untestable(*refutation_of(lines))


CLAUSES = (b"clause N B", b"clause N B N B")


def clauses_of(lines):
    """The clauses, at least one and no more than may be; the two literals of one rise."""
    found = []
    while len(found) < MOST_CLAUSES:
        for form in CLAUSES:
            taken = lines.take(form, lambda j, bit, *second: not second or j < second[0])
            if taken is not None:
                literals = [(j - 1, bit) for j, bit in zip(taken[0::2], taken[1::2])]
                found.append((literals, tokens_of(lines)))
                break
        else:
            break
    if not found:
        raise Malformed
    return found


def untestable_from_of(lines, bits):
    return UntestableFrom(bits, clauses_of(lines), *refutation_of(lines))


def by_sets_of(lines):
    return UndetectableBySets([(taken[0] - 1, taken[1]) for _, taken in lines.each(b"pairs N SET", fits=rises)])


def by_cubes_of(lines):
    """The cubes, at least one, and then the steps."""
    cubes = lines.want(b"never RAILS") + [taken[0] for _, taken in lines.each(b"never RAILS")]
    return UndetectableByCubes(cubes, [taken[0] for _, taken in lines.each(b"step STEP")])


def aborted_of(lines):
    told = told_of(lines)
    walk = tokens_of(lines) if lines.take(b"walk") is not None else None
    return Aborted(told, walk, aim_of(lines), sweep_of(lines))


FIRST_FORMS = {b"entry N untestable": untestable_of, b"entry N aborted": aborted_of}
SECOND_FORMS = {**FIRST_FORMS, b"entry N untestable from STATE": untestable_from_of}
THIRD_FORMS = {**SECOND_FORMS, b"entry N undetectable by sets": by_sets_of, b"entry N undetectable by cubes": by_cubes_of}
FORMATS = {b"proofs 1": FIRST_FORMS, b"proofs 2": SECOND_FORMS, b"proofs 3": THIRD_FORMS}


def take_format(lines):
    """The forms of entries that the text's format has, by their first lines."""
    for head, forms in FORMATS.items():
        if lines.take(head) is not None:
            return forms
    raise Malformed


def take_head(lines, forms, last):
    """What an entry's first line tells, its number first, and how the other lines are read; or None."""
    for form, entry_of in forms.items():
        taken = lines.take(form, lambda n, *more: last < n)
        if taken is not None:
            return taken, entry_of
    return None


def read_proofs(text):
    """The entries as (the line that ends it, its number, the entry), and the malformed line or None."""
    lines, given, last = Lines(texts.lines_of(text)), [], None
    try:
        forms = take_format(lines)
        while (head := take_head(lines, forms, last[0] if last else 0)) is not None:
            given += [(lines.at, *last)] if last else []
            (number, *told), entry_of = head
            last = number, entry_of(lines, *told)
        lines.want(b"end")
        given += [(lines.at, *last)] if last else []
        if lines.at < len(lines.lines):
            raise Malformed
    except Malformed:
        return given, lines.at + 1
    return given, None


def token_line(token):
    form, var = token
    return form.replace(b"N", b"%d" % (var + 1))


def bits_text(vector):
    return b"".join(b"%d" % value for value in vector) or b"-"


def told_lines(told):
    place, at, sets = told
    return [b"frame %s %d" % (place, at + 1)] + [b"set %d %d" % (var + 1, value) for var, value in sets]


def aim_lines(aim):
    form, parts = aim
    if form != b"attempt":
        return [form, *map(token_line, parts)]
    return [form, *(b"justify " + bits_text(v) for v in parts[0]), *(b"ahead " + bits_text(v) for v in parts[1])]


def clause_lines(clause):
    literals, tokens = clause
    told = b"".join(b" %d %d" % (j + 1, bit) for j, bit in literals)
    return [b"clause" + told, *map(token_line, tokens)]


def rail_text(rail):
    machine, j, value = rail
    return b"%s %d %d" % ((b"good", b"faulty")[machine], j + 1, value)


def step_line(step):
    literals, hints = step
    return b" ".join([b"step", *(b"%d" % literal for literal in literals), b"by", *(b"%d" % hint for hint in hints)])


def entry_lines(number, entry):
    if isinstance(entry, UndetectableBySets):
        rows = [b"pairs %d %s" % (j + 1, b" ".join(pairs)) for j, pairs in entry.rows]
        return [b"entry %d undetectable by sets" % number, *rows]
    if isinstance(entry, UndetectableByCubes):
        lines = [b"never " + b" ".join(map(rail_text, cube)) for cube in entry.cubes]
        return [b"entry %d undetectable by cubes" % number, *lines, *map(step_line, entry.steps)]
    if not isinstance(entry, Aborted):
        lines = [b"entry %d untestable" % number]
        if isinstance(entry, UntestableFrom):
            lines = [lines[0] + b" from " + bits_text(entry.state)]
            lines += [line for clause in entry.clauses for line in clause_lines(clause)]
        lines += [b"z %d" % (j + 1) for j in entry.z]
        return lines + [b"walk"] + [token_line(token) for token in entry.tokens]
    lines = [b"entry %d aborted" % number] + [line for told in entry.told for line in told_lines(told)]
    lines += [] if entry.walk is None else [b"walk"] + [token_line(token) for token in entry.walk]
    lines += [] if entry.aim is None else aim_lines(entry.aim)
    lines.append(b"sweep")
    for length, walk in enumerate(entry.sweep, 1):
        lines += [b"length %d" % length] + [token_line(token) for token in walk]
    return lines


def entry_text(number, entry):
    return b"".join(line + b"\n" for line in entry_lines(number, entry))


def proofs_lines(entries, head=b"proofs 2"):
    return [head, *(line for number, entry in entries for line in entry_lines(number, entry)), b"end"]
