"""The work of tools/close on a chunk of faults: one engine after the other, and what the program says of their answers.

Vectors count as far as `sim` says from all-unknown: what is detected from there is detected after any other vectors too, since
where an unknown is known instead, no value that was known before changes. Entries count where `report` takes them.
"""
import pathlib
import re
import subprocess
import tempfile

import engines
import rounds

HEAD, NO_ENTRY = b"proofs 3\n", b"proofs 1\nend\n"
ENTRIES = re.compile(rb"^(?=entry |end$)", re.M)
ENTRY = re.compile(rb"entry ([1-9][0-9]*) undetectable by cubes\n")
DENIED = re.compile(r"denied: fault (\d+)")
OTHERS = "the vectors of others"


class WorkError(Exception):
    """Why the work on a chunk can't be done."""


def asked(program, *words):
    """Runs the program; None, or what it says on standard error where it doesn't end with 0, without what ht says of that."""
    command = [str(word) for word in (program, *words)]
    run = subprocess.run(command, stdin=subprocess.DEVNULL, capture_output=True, text=True, errors="replace")
    if run.returncode < 0:
        raise WorkError(f"{words[0]} was ended by signal {-run.returncode}")
    said = [line for line in run.stderr.splitlines() if line and not line.startswith("ht: ")]
    return (said or [f"status {run.returncode}"])[-1] if run.returncode else None


def verdicts_of(report):
    """The words of each representative's verdict in a report, by its number."""
    lines = (line.split() for line in report.read_text().splitlines()[1:-1])
    return {int(words[0]): words[3:] for words in lines if words[3] != "as"}


def entries_in(proofs, numbers):
    """The entries by cubes of a text of proofs, the first for each of these faults."""
    found = {}
    for block in ENTRIES.split(proofs):
        entry = ENTRY.match(block)
        if entry and int(entry[1]) in numbers:
            found.setdefault(int(entry[1]), block)
    return found


def proofs_of(entries):
    """The text of entries, by their numbers."""
    return HEAD + b"".join(entries[number] for number in sorted(entries)) + b"end\n" if entries else NO_ENTRY


class Work:
    """The work on one chunk: `said` by fault once that is decided, and what shows it."""

    def __init__(self, folder, chunk, options):
        self.folder, self.chunk, self.options = folder, chunk, options
        self.faults = folder.faults_of(chunk)
        self.said, self.shown, self.tests, self.entries = {}, set(), [], {}
        self.reasons = {}

    def left(self):
        return [number for number in self.faults if number not in self.said]

    def do(self):
        """Asks one engine after the other about what is left."""
        before = self.folder.all_said()
        self.spent = {number: (before[number].limit, before[number].seconds) if number in before else (0, 0) for number in self.faults}
        self.note_shown(self.folder.all_shown(), OTHERS)
        with tempfile.TemporaryDirectory() as name:
            self.scratch = pathlib.Path(name)
            limits = engines.at_hand(self.options)
            self.ask_closer(limits[0])
            if not engines.lacks(engines.ABC):
                self.ask_abc(self.options.seconds)
        self.write(*limits)

    def write(self, limit, seconds):
        """Writes the files of the chunk, the proofs last."""
        lines = []
        for number in self.faults:
            limits = max(limit, self.spent[number][0]), max(seconds, self.spent[number][1])
            reason = self.reasons.get(number, "no engine has an answer")
            still_open = "open after {} propagations and {} seconds: {}".format(*limits, reason)
            lines.append(f"{number} {self.said.get(number, still_open)}\n")
        rounds.write(self.folder.file(self.chunk, "tests"), b"".join(self.tests))
        rounds.write_numbers(self.folder.file(self.chunk, "shown"), sorted(self.shown))
        rounds.write(self.folder.file(self.chunk, "said"), "".join(lines))
        rounds.write(self.folder.file(self.chunk, "proofs"), proofs_of(self.entries))

    # ---- what is found

    def note_shown(self, numbers, by):
        for number in self.left():
            if number in numbers:
                self.said[number] = f"detected by {by}"

    def take_tests(self, text, by, fault=None):
        """Keeps vectors where `sim` says that they detect a fault that is left; of those for one fault, up to its detection."""
        tests, report = self.scratch / "tests", self.scratch / "report"
        tests.write_bytes(text)
        if not text or asked(self.options.program, "sim", self.folder.netlist, tests, report):
            return
        first = {number: int(words[1]) for number, words in verdicts_of(report).items() if words[0] == "detected"}
        last = max(first.values(), default=0) if fault is None else first.get(fault, 0)
        shown = {number for number, vector in first.items() if vector <= last}
        if shown.isdisjoint(self.left()):
            return
        self.tests += text.splitlines(keepends=True)[:last]
        self.shown |= shown.intersection(self.folder.faults(1))
        self.note_shown(shown, by)

    def judged(self, entries):
        """Those of some entries that `report` takes; why it doesn't take another one stands in `reasons`."""
        proofs = self.scratch / "proofs"
        while entries:
            rounds.write(proofs, proofs_of(entries))
            words = "report", self.folder.netlist, "/dev/null", proofs, self.scratch / "report", *self.folder.start_words
            trouble = asked(self.options.program, *words)
            if trouble is None:
                return entries
            denied = DENIED.fullmatch(trouble)
            number = int(denied[1]) if denied else None
            if number not in entries and len(entries) > 1:
                # it is said of no entry
                numbers = list(entries)
                halves = numbers[: len(numbers) // 2], numbers[len(numbers) // 2 :]
                first, second = ({number: entries[number] for number in half} for half in halves)
                return self.judged(first) | self.judged(second)
            number = number if number in entries else next(iter(entries))
            self.reasons[number] = f"the entry isn't taken: {trouble}"
            entries = {other: text for other, text in entries.items() if other != number}
        return {}

    def take_entries(self, entries, by):
        left = set(self.left())
        taken = self.judged({number: text for number, text in entries.items() if number in left})
        self.entries |= taken
        for number in taken:
            self.said[number] = f"undetectable by {by}"

    # ---- ht_closer

    def ask_closer(self, limit):
        numbers = [number for number in self.left() if self.spent[number][0] < limit]
        if not numbers:
            return
        start = self.folder.start_words[1:]
        words = self.folder.netlist, numbers, limit, self.folder.start_words[1:]
        answers = list(engines.closed(self.options.engine, self.scratch, *words))
        for answer in answers:
            self.take_tests(answer.tests, engines.CLOSER)
            self.reasons |= {number: answer.trouble for number in answer.numbers if answer.trouble}
        found = [entries_in(answer.proofs, answer.numbers) for answer in answers]
        self.take_entries({number: text for part in found for number, text in part.items()}, engines.CLOSER)

    # ---- ABC and CaDiCaL

    def ask_abc(self, seconds):
        numbers = [number for number in self.left() if self.spent[number][1] < seconds]
        if not numbers:
            return
        # reads the circuit, which most chunks don't need
        from model_checking import Asking

        asking, found = Asking(self.folder, self.scratch, seconds), {}
        for number in numbers:
            for by, tests, entry in asking.answers(number) if number not in self.said else ():
                self.take_tests(tests, by, number)
                if entry:
                    found[number] = entry
                if entry or number in self.said:
                    break
        self.reasons |= asking.reasons
        self.take_entries(found, "pdr")
