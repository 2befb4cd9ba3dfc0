"""The engines that tools/close asks: ht_closer, the model checker ABC and the SAT solver CaDiCaL. What they say is taken as a
hint, never as true.

ht_closer, the engine of this project (crates/ht_closer), gets a netlist and a list of faults, and writes vectors and entries. ABC
gets the two machines of a fault side by side (tools/lib/miter.py). It finds frames in which the output is 1, or cubes of
latches, none of which ever comes about, so that the output is never 1. CaDiCaL gets clauses and finds lemmas that end with a
contradiction, or a solution. Each works for some seconds of a processor, ht_closer for so many propagations, and is ended where
it takes more.
"""
import resource
import shutil
import signal
import subprocess
from typing import NamedTuple

CLOSER, ABC, CADICAL = "ht_closer", "berkeley-abc", "cadical"
# the Debian package of each command
PACKAGES = {ABC: "berkeley-abc", CADICAL: "cadical", "make": "make"}
# an engine looks at the time now and then only; these seconds later it is ended
SLACK = 5
# what ht_closer does in a second at least, on the slowest machine that is thought of
PROPAGATIONS = 1_000_000
NO_SOLUTION = 20


class Unreadable(Exception):
    """An answer of an engine that has no meaning."""


def lacks(command):
    return shutil.which(command) is None


def at_hand(options):
    """The limit of ht_closer and the seconds of the others; 0 where they aren't there."""
    return options.limit if options.engine else 0, 0 if lacks(ABC) or lacks(CADICAL) else options.seconds


def run(command, seconds, folder):
    """Runs an engine in a folder."""

    def limit():
        hard = resource.getrlimit(resource.RLIMIT_CPU)[1]
        soft = seconds + SLACK if hard == resource.RLIM_INFINITY else min(seconds + SLACK, hard)
        resource.setrlimit(resource.RLIMIT_CPU, (soft, hard))

    return subprocess.run(
        command, cwd=folder, preexec_fn=limit, stdin=subprocess.DEVNULL, capture_output=True, text=True, errors="replace"
    )


# ---- ht_closer


class Closed(NamedTuple):
    """What ht_closer finds for some faults: a text of vectors and one of proofs; or else what is wrong with it."""

    numbers: list
    tests: bytes = b""
    proofs: bytes = b""
    trouble: str = ""


def closed(program, folder, netlist, numbers, limit, start):
    """What ht_closer finds for faults. It writes that at its end; so where it ends with an error, it is asked again about each
    half of the faults, until one alone is without an answer."""
    (folder / "faults").write_text("".join(f"{number}\n" for number in numbers))
    made = [folder / "found.tests", folder / "found.proofs"]
    for file in made:
        file.unlink(missing_ok=True)
    ended = run([program, netlist, "faults", str(limit), *made, *start], len(numbers) * (1 + limit // PROPAGATIONS), folder)
    if ended.returncode == 0 and all(file.is_file() for file in made):
        yield Closed(numbers, *(file.read_bytes() for file in made))
    elif len(numbers) == 1 or ended.returncode in (0, -signal.SIGXCPU):
        said = ended.stderr.strip().splitlines() or [f"status {ended.returncode}"]
        yield Closed(numbers, trouble=f"{CLOSER}: {said[-1]}")
    else:
        for half in numbers[: len(numbers) // 2], numbers[len(numbers) // 2 :]:
            yield from closed(program, folder, netlist, half, limit, start)


# ---- ABC


def proves(folder, command, seconds):
    """Whether ABC proves by a command that the output of the circuit in a folder is never 1. Else it may leave a trace."""
    (folder / "trace").unlink(missing_ok=True)
    words = f"read_aiger miter.aig; {command} -T {seconds}; write_cex -a trace"
    return "Property proved" in run([ABC, "-c", words], seconds, folder).stdout


def frames_of(folder, inputs):
    """The inputs of each frame of the trace that ABC left in a folder, if there is one."""
    path = folder / "trace"
    if not path.exists():
        return []
    # the first line has what the latches hold
    lines = path.read_text(errors="replace").replace("# DONE", "").split("\n")[1:]
    return [[int(bit) for bit in line.strip()] for line in lines if len(line.strip()) == inputs and set(line.strip()) <= {"0", "1"}]


def bounded(folder, text, inputs, seconds):
    """Frames of a circuit in the last of which its output is 1, by bounded model checking; none where it finds none."""
    (folder / "miter.aig").write_bytes(text)
    proves(folder, "bmc3", seconds)
    return frames_of(folder, inputs)


def invariant(folder, text, seconds):
    """Cubes, of latches that hold 1, none of which ever comes about, so that the output is never 1: by property directed
    reachability, or None. Latches that hold 0 are left out of a cube: over three values they aren't needed."""
    (folder / "miter.aig").write_bytes(text)
    (folder / "cubes").unlink(missing_ok=True)
    if not proves(folder, "pdr -d -I cubes", seconds):
        return None
    latches, cubes = [], []
    for line in (folder / "cubes").read_text(errors="replace").splitlines() if (folder / "cubes").exists() else []:
        if line.startswith(".ilb "):
            latches = [number_in(word.removeprefix("lo")) for word in line.split()[1:]]
        elif line[:1] in ("0", "1", "-"):
            cubes.append([latch for latch, held in zip(latches, line.split()[0]) if held == "1"])
    return cubes


def number_in(word):
    if not word.removeprefix("-").isdecimal():
        raise Unreadable(f"{word} is no number")
    return int(word)


# ---- CaDiCaL


def lemmas(folder, variables, clauses, seconds):
    """Clauses that follow one after the other and end with the empty one, or None."""
    lines = [f"p cnf {variables} {len(clauses)}", *(" ".join(map(str, [*clause, 0])) for clause in clauses)]
    (folder / "clauses").write_text("".join(line + "\n" for line in lines))
    words = [CADICAL, "-q", "--no-binary", "clauses", "lemmas"]
    if run(words, seconds, folder).returncode != NO_SOLUTION:
        return None
    proof = (folder / "lemmas").read_text(errors="replace").splitlines()
    # what CaDiCaL deletes stays here
    found = [list(map(number_in, line.split()[:-1])) for line in proof if line[:1] not in ("c", "d", "")]
    if any(not 0 < abs(literal) <= variables for lemma in found for literal in lemma):
        raise Unreadable("a lemma has another variable")
    return found
