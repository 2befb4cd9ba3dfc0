"""The folder of tools/close: rounds of chunks of faults, and what was said of each.

`given/` has the files that the work began with. `rounds/R` lists the faults of round R, a number a line: of the first those that
the given report leaves open, of a later one those that are still open where larger limits are asked for. Chunk K of a round
with M chunks has the K-th of its faults, the (K + M)-th, and so on, so that each chunk is a sample of all. What is found for it
stands in four files `work/R.K.*`, of which the last one is made last:

    tests     vectors, which detect their faults from all-unknown
    shown     the numbers of all faults of the first round that these vectors detect
    said      a line for each fault of the chunk (`Said`)
    proofs    entries

A file takes its name once it is whole.
"""
import os
import re
from typing import NamedTuple

# the faults of a chunk, at most; of a later round fewer, since each of them may take all of its time
CHUNK, LATER_CHUNK = 64, 8
OPEN = "open"
KINDS = "proofs", "said", "shown", "tests"
SAID = re.compile(r"([1-9]\d*) (?:(detected|undetectable) by (\S.*)|open after (\d+) propagations and (\d+) seconds: \S.*)")
NUMBERS = re.compile(r"(?:[1-9]\d*\n)*")


class Damaged(Exception):
    """A file of the folder isn't what was made; the words name it."""


class Said(NamedTuple):
    """What was said of a fault: its verdict and by whom it is, or `open` and the limits of the engines that were asked."""

    number: int
    verdict: str
    by: str
    limit: int
    seconds: int


class Chunk(NamedTuple):
    """A chunk of a round, both from 1. Its text names its files."""

    round: int
    number: int

    def __str__(self):
        return f"{self.round}.{self.number}"


def write(path, text):
    """Writes a file, which takes its name once it is whole."""
    part = path.with_name(path.name + ".part")
    part.write_bytes(text if isinstance(text, bytes) else text.encode())
    os.replace(part, path)


def read_numbers(path):
    """The numbers of a file, one a line."""
    text = path.read_text(errors="replace")
    if not NUMBERS.fullmatch(text):
        raise Damaged(f"{path} holds something else than numbers")
    return list(map(int, text.split()))


def write_numbers(path, numbers):
    write(path, "".join(f"{number}\n" for number in numbers))


def read_said(line):
    """What a line says of a fault."""
    match = SAID.fullmatch(line)
    if not match:
        raise Damaged(f"a line says {line!r}")
    number, verdict, by, limit, seconds = match.groups()
    return Said(int(number), verdict or OPEN, by or "", int(limit or 0), int(seconds or 0))


class Folder:
    """The folder OUT."""

    def __init__(self, out):
        self.out, self.netlist, self.known = out, out / "given/netlist", {}
        start = out / "given/start"
        self.start_words = ["--start", start] if start.exists() else []

    # ---- rounds and chunks

    def rounds(self):
        """The rounds so far, from 1."""
        path = self.out / "rounds"
        return sorted(int(file.name) for file in path.iterdir() if file.name.isdigit()) if path.exists() else []

    def faults(self, at):
        """The faults of a round, which never change."""
        if at not in self.known:
            self.known[at] = read_numbers(self.out / "rounds" / str(at))
        return self.known[at]

    def begin_round(self, numbers):
        """Begins one more round."""
        path, at = self.out / "rounds", len(self.rounds()) + 1
        path.mkdir(exist_ok=True)
        write_numbers(path / str(at), numbers)

    def chunks(self, at):
        """The chunks of a round."""
        size = CHUNK if at == 1 else LATER_CHUNK
        return [Chunk(at, number) for number in range(1, -(-len(self.faults(at)) // size) + 1)]

    def all_chunks(self):
        """The chunks of all rounds, the earliest first."""
        return [chunk for at in self.rounds() for chunk in self.chunks(at)]

    def faults_of(self, chunk):
        """The faults of a chunk."""
        return self.faults(chunk.round)[chunk.number - 1 :: len(self.chunks(chunk.round))]

    # ---- what was made for a chunk

    def file(self, chunk, kind):
        return self.out / "work" / f"{chunk}.{kind}"

    def is_done(self, chunk):
        return self.file(chunk, "proofs").exists()

    def said(self, chunk):
        """What was said of each fault of a chunk that is done."""
        lines = self.file(chunk, "said").read_text(errors="replace").splitlines()
        said = {it.number: it for it in map(read_said, lines)}
        if sorted(said) != sorted(self.faults_of(chunk)) or len(said) != len(lines):
            raise Damaged(f"{self.file(chunk, 'said')} is of other faults")
        return said

    def shown(self, chunk):
        """The faults that the vectors of a chunk detect; none where the file can't be read."""
        try:
            return set(read_numbers(self.file(chunk, "shown")))
        except (Damaged, OSError):
            return set()

    def all_shown(self):
        """The faults that vectors of the chunks that are done detect."""
        return set().union(*map(self.shown, filter(self.is_done, self.all_chunks())))

    def all_said(self):
        """What was said last of each fault, over the chunks that are done; that it is decided, where that was said."""
        found = {}
        for chunk in filter(self.is_done, self.all_chunks()):
            for number, said in self.said(chunk).items():
                if number not in found or found[number].verdict == OPEN:
                    found[number] = said
        return found

    def take_away(self, chunk):
        """Takes away what was made for a chunk, so that it is worked on again."""
        for kind in KINDS:
            self.file(chunk, kind).unlink(missing_ok=True)
