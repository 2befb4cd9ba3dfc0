"""The built library of C names (ht_exports), and the rows of numbers in which entries cross to it."""
import ctypes
import itertools
import pathlib
import shutil
import subprocess
import tempfile

from plain import ROOT, entries, texts
from plain.simulation import X


# ---- what the built code answers, as one row of numbers


def token_numbers(token):
    form, var = token
    return [entries.TOKENS.index(form), var]


def row_of(members, numbers_of):
    return [len(members)] + [value for member in members for value in numbers_of(member)]


def told_numbers(told):
    place, at, sets = told
    return [int(place == b"state"), at, *row_of(sets, list)]


def vector_numbers(vector):
    return row_of(vector, lambda value: [value])


def clause_numbers(clause):
    """The first literal, how many more there are and these, and the walk."""
    (first, *more), tokens = clause
    return [*first, *row_of(more, list), *row_of(tokens, token_numbers)]


def aim_numbers(aim, with_width):
    if aim is None:
        return [0]
    form, parts = aim
    if form == b"attempt":
        width = [max((len(vector) for part in parts for vector in part), default=0)] if with_width else []
        return [5, *width, *row_of(parts[0], vector_numbers), *row_of(parts[1], vector_numbers)]
    return [1 + entries.SEARCHED.index(form), *row_of(parts, token_numbers)]


def step_numbers(step):
    """The literals, each by whether it is positive and its variable, and the hints."""
    literals, hints = step
    return row_of(literals, lambda l: [int(l > 0), abs(l)]) + row_of(hints, lambda hint: [hint])


def entry_numbers(entry, with_width=False):
    """An entry as a row; one that is given to the code has the width of an attempt's vectors before them."""
    tokens_numbers = lambda tokens: row_of(tokens, token_numbers)
    if isinstance(entry, entries.Untestable):
        return [0, *row_of(entry.z, lambda j: [j]), *tokens_numbers(entry.tokens)]
    if isinstance(entry, entries.UntestableFrom):
        parts = vector_numbers(entry.state) + row_of(entry.clauses, clause_numbers)
        return [2, *parts, *row_of(entry.z, lambda j: [j]), *tokens_numbers(entry.tokens)]
    if isinstance(entry, entries.UndetectableBySets):
        return [3, *row_of(entry.rows, lambda row: [row[0], *row_of(row[1], lambda pair: [entries.PAIRS.index(pair)])])]
    if isinstance(entry, entries.UndetectableByCubes):
        return [4, *row_of(entry.cubes, lambda cube: row_of(cube, list)), *row_of(entry.steps, step_numbers)]
    walk = [0] if entry.walk is None else [1, *tokens_numbers(entry.walk)]
    aim = aim_numbers(entry.aim, with_width)
    return [1, *row_of(entry.told, told_numbers), *walk, *aim, *row_of(entry.sweep, tokens_numbers)]


# ---- the built code


def library():
    """The static library of ht_exports as one that a script can load; the crate is proved for that."""
    folder, shared = ROOT / "crates/ht_exports", f"{tempfile.mkdtemp()}/ht_exports.so"
    subprocess.run(["rt", "lib"], cwd=folder, check=True, stdout=subprocess.DEVNULL)
    kit = pathlib.Path(shutil.which("rt")).resolve().parent.parent / "c"
    parts = ["-Wl,--whole-archive", folder / "out/libht_exports.a", kit / "liblibc_c.a", "-Wl,--no-whole-archive"]
    subprocess.run(["cc", "-shared", "-o", shared, *parts], check=True)
    return shared


class Built:
    """The built readers, writer and checker. They answer in rows that are long enough for every text of the scripts."""

    def __init__(self, path):
        self.code = ctypes.CDLL(str(path or library()))
        self.row = (ctypes.c_uint64 * 1_000_000)()
        self.text = (ctypes.c_uint8 * 1_000_000)()

    def answer(self, name, into, *parts):
        """What a function puts into a row, or none."""
        called = getattr(self.code, name)
        called.restype = ctypes.c_uint64
        count = called(*parts, *slice_of(into))
        return into[:count] if count <= len(into) else ["no answer"]

    def proofs(self, text):
        return self.answer("ht_entries_proofs", self.row, *lines_parts(text))

    def report(self, netlist, text):
        return self.answer("ht_entries_report", self.row, *slice_of(netlist), *lines_parts(text))

    def written(self, number, entry):
        return bytes(self.answer("ht_entries_written", self.text, ctypes.c_uint32(number), *row_parts(entry)))

    def passes(self, netlist, fault, budget, entry):
        self.code.ht_entries_passes.restype = ctypes.c_uint8
        asked = ctypes.c_uint32(fault), ctypes.c_uint64(budget)
        return self.code.ht_entries_passes(*slice_of(netlist), *asked, *row_parts(entry))


def slice_of(members):
    return (ctypes.c_char_p(members) if isinstance(members, bytes) else members), ctypes.c_size_t(len(members))


def row_parts(entry):
    numbers = entry_numbers(entry, with_width=True)
    return slice_of((ctypes.c_uint64 * len(numbers))(*numbers))


def lines_parts(text):
    """A text's lines without what ends them, and where each ends."""
    lines = texts.lines_of(text)
    ends = (ctypes.c_size_t * len(lines))(*itertools.accumulate(map(len, lines)))
    return *slice_of(b"".join(lines)), *slice_of(ends)


PAIRS = [(good, faulty) for good in (0, 1, X) for faulty in (0, 1, X)]


def bits_of(pairs):
    return sum(1 << PAIRS.index(pair) for pair in pairs)


def pairs_of(bits):
    return frozenset(pair for k, pair in enumerate(PAIRS) if bits >> k & 1)


class Families:
    """The built search for families, and its judge."""

    def __init__(self, path):
        self.code = ctypes.CDLL(str(path or library()))
        self.code.ht_exportslosing.restype = self.code.ht_exportsloses.restype = ctypes.c_uint8
        self.code.ht_exportsount.restype = ctypes.c_uint64

    def parts(self, netlist, fault, start, sets):
        row = (ctypes.c_uint8 * len(start))(*start)
        return *slice_of(netlist), ctypes.c_uint32(fault), *slice_of(row), *slice_of(sets)

    def closing(self, netlist, fault, start):
        sets = (ctypes.c_uint16 * len(start))(*[511] * len(start))
        said = self.code.ht_exportslosing(*self.parts(netlist, fault, start, sets))
        return [pairs_of(bits) for bits in sets] if said == 1 else None if said == 0 else "no answer"

    def closes(self, netlist, fault, start, family):
        sets = (ctypes.c_uint16 * len(start))(*map(bits_of, family))
        return {0: False, 1: True}.get(self.code.ht_exportsloses(*self.parts(netlist, fault, start, sets)), "no answer")

    def count(self, netlist):
        return self.code.ht_exportsount(*slice_of(netlist))
