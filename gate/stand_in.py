#!/usr/bin/env python3
"""Stand-ins for the program and for the engines of tools/close, for gate/try_close.

    gate/stand_in.py ht COMMAND NAME.. [OPTION..]                                  `sim`, `report` and `check`
    gate/stand_in.py ht_closer HOW NETLIST FAULTS LIMIT TESTS PROOFS [START]
    gate/stand_in.py berkeley-abc -c COMMANDS
    gate/stand_in.py cadical -q --no-binary CLAUSES LEMMAS

The program is made of tools/check_proofs.py. The engine knows circuits of toggles, whose flip-flops never get a value, so that
cubes of the good machine refute each fault, and a shift register, whose faults `VECTORS` detect. It answers right, or wrong in
the way HOW. ABC and CaDiCaL always answer, and always wrong.
"""
import argparse
import os
import pathlib
import re
import signal
import sys
import time

sys.dont_write_bytecode = sys.pycache_prefix is None
ROOT = pathlib.Path(__file__).resolve().parent.parent
sys.path[:0] = [str(ROOT / "tools"), str(ROOT / "tools/lib")]
import check_proofs  # noqa: E402
import steps  # noqa: E402

VECTORS = "1\n1\n1\n0\n0\n0\n"
# parts of a circuit
TOGGLE = "OUTPUT(q{0})\nq{0} = DFF(n{0})\nn{0} = NOT(q{0})\n"
SHIFT_REGISTER = "INPUT(s)\nOUTPUT(s2)\ns1 = DFF(s)\ns2 = DFF(s1)\n"


# ---- the program


def lines(files, said, head):
    """A report, but for its last line."""
    yield head
    for number, representative in enumerate(files.representatives):
        site, stuck = files.faults[number]
        front = b"%d %s s-a-%d " % (number + 1, check_proofs.site_name(files.circuit, site), stuck)
        yield front + (said[number] if number == representative else b"as %d" % (representative + 1))


def detections(files):
    """What a report says of each representative by the vectors alone."""
    latches, names = [check_proofs.ALIKE[value] for value in files.start], files.circuit.names
    for number in sorted(set(files.representatives)):
        place = check_proofs.first_detection(files.circuit, files.faults[number], files.vectors, latches)
        shown = place and b"detected %d %s" % (place[0] + 1, names[files.circuit.outputs[place[1]]])
        yield number, shown or b"undetected"


def add_entries(files, said, text):
    """Judges the entries of a proofs text, and adds what they show."""
    reader, ended = check_proofs.ProofReader(), False
    for at, line in enumerate(check_proofs.lines_of(text), 1):
        try:
            _, entry = reader.take(line) or (None, None)
        except check_proofs.Malformed:
            raise check_proofs.Denied(b"proofs line %d" % at) from None
        ended = line == b"end"
        if entry is None or said.get(entry.number - 1, b"") != b"undetected":
            continue
        if not files.passes(entry.number - 1, entry):
            raise check_proofs.Denied(b"fault %d" % entry.number)
        said[entry.number - 1] = entry.kind
    if not ended:
        raise check_proofs.Denied(b"proofs line %d" % (at + 1))


def act(command, names, start, budget):
    """Does what the program does of `sim`, `report` and `check`, on a netlist and a start that are well formed."""
    if command == "check":
        status, said = check_proofs.answer(names, start)
        sys.stderr.write(said.decode() + "\n" if status else "")
        sys.exit(status or print("valid"))
    read = check_proofs.read_file
    files = check_proofs.Files(check_proofs.read_netlist(read(names[0])))
    files.start = check_proofs.read_start(files.circuit, read(start)) if start else files.start
    try:
        files.vectors, files.budget = check_proofs.read_tests(files.circuit, read(names[1])), budget
        said = dict(detections(files))
        if command == "report":
            add_entries(files, said, read(names[2]))
    except check_proofs.Denied as denied:
        sys.exit(f"denied: {denied.args[0].decode()}")
    files.claims = {number: it.split()[0] for number, it in said.items()}
    text = [*lines(files, said, files.first_line() + b"%d" % budget), files.total_line()]
    pathlib.Path(names[-1]).write_bytes(b"".join(line + b"\n" for line in text))
    print(text[-1].decode())


def program(words):
    acting = argparse.ArgumentParser()
    acting.add_argument("words", nargs="+")
    acting.add_argument("--start")
    acting.add_argument("--budget", type=int, default=1000)
    given = acting.parse_args(words)
    act(given.words[0], given.words[1:], given.start, given.budget)


# ---- the engine of the project


def entry_of(circuit, fault, number, toggle):
    """An entry by which the good machine's flip-flop of a toggle is never known."""
    at = circuit.names.index(b"q" + toggle) - circuit.inputs
    cubes = [[(0, at, bit)] for bit in (0, 1)]
    formula = check_proofs.Formula(circuit, fault, cubes)
    return steps.entry_text(number, cubes, steps.steps_of(formula.last, formula.clauses, [], 60))


def found_for(circuit, number):
    """What is found for a fault: vectors, and an entry."""
    fault = check_proofs.faults_of(circuit)[number - 1]
    toggle = re.fullmatch(rb"[nq](\d+)", check_proofs.site_name(circuit, fault.site))
    return ("", entry_of(circuit, fault, number, toggle[1])) if toggle else (VECTORS, "")


def closer(how, netlist, faults, limit, tests, proofs, *start):
    """Writes what is found for the faults of a list: right, or wrong in some way."""
    circuit = check_proofs.read_netlist(pathlib.Path(netlist).read_bytes())
    numbers = list(map(int, pathlib.Path(faults).read_text().split()))
    if how == "waits":
        pathlib.Path(os.environ["BEGUN"]).touch()
        time.sleep(600)
    if how == "stops" and 5 in numbers:
        os.kill(os.getpid(), signal.SIGSEGV)
    found = [found_for(circuit, number) for number in numbers]
    vectors, entries = "".join(it for it, _ in found), [it for _, it in found]
    if how == "wrong lists":
        vectors = "0\n"
    if how == "wrong entries":
        # a hint is missing, or the entry is that of another fault
        shown = [it.replace("by ", "by 1 ", 1) if at % 2 else it for at, it in enumerate(entries)]
        entries = [it or re.sub(r"entry \d+", f"entry {number}", max(entries)) for number, it in zip(numbers, shown)]
    if how == "noise":
        vectors, entries = "01x\n\0\n", ["entry 1 undetectable by cubes\nnever\n", "step by\n", *entries[2:]]
    pathlib.Path(tests).write_text(vectors)
    pathlib.Path(proofs).write_text("".join(["proofs 3\n", *entries, "end\n"]))


# ---- ABC and CaDiCaL


def abc(words):
    """Shows frames of ones for bounded model checking; for property directed reachability says a proof, and one cube."""
    if "pdr" in words[1]:
        pathlib.Path("cubes").write_text(".ilb lo0 lo99999\n1- 1\n" if os.environ["ABC"] == "cube" else ".ilb what\n")
        print("Property proved.")
    else:
        inputs = int(pathlib.Path("miter.aig").read_bytes().split()[2])
        pathlib.Path("trace").write_text(f"0\n{'0' * inputs}\n")


def cadical(words):
    """Says that there is no solution, by the empty clause alone."""
    pathlib.Path(words[-1]).write_text("0\n")
    sys.exit(20)


def main():
    name, words = sys.argv[1], sys.argv[2:]
    if name == "ht_closer":
        closer(*words)
    else:
        {"ht": program, "berkeley-abc": abc, "cadical": cadical}[name](words)


if __name__ == "__main__":
    main()
