"""Netlists of any size from a fixed seed, and the processor seconds and memory that programs take over them."""
import dataclasses
import os
import pathlib
import statistics
import subprocess
import sys
import tempfile
import time

ROOT = pathlib.Path(__file__).resolve().parent.parent
SEED = 20_260_314
INPUTS, OUTPUTS = 16, 8
GATES_OF_A_SLICE = 50
# A kind for each share of the gates.
KINDS = ["AND"] * 3 + ["NAND"] * 3 + ["OR"] * 3 + ["NOR"] * 3 + ["XOR"] * 3 + ["XNOR"] * 2 + ["NOT", "BUFF"]


class Numbers:
    """A stream of numbers that is the same on every machine."""

    def __init__(self, seed):
        self.state = seed

    def below(self, bound):
        self.state = (self.state * 6_364_136_223_846_793_005 + 1_442_695_040_888_963_407) % 2**64
        return (self.state >> 33) % bound

    def one_of(self, items):
        return items[self.below(len(items))]


def slice_lines(numbers, sources, names, reset):
    """The gates of one slice, the last of which is the data pin of the slice's flip-flop.

    Each gate reads a net of the slice that none has read yet, so that what happens at a net is seen behind it. The last
    two gates join the nets that are left, and clear the flip-flop where the reset input is 0.
    """
    *names, joined, data_pin = names
    unread = list(sources)
    lines = []
    for name in names:
        kind = numbers.one_of(KINDS)
        args = [unread.pop(numbers.below(len(unread)))]
        while len(args) < 2 and kind not in ("NOT", "BUFF"):
            net = numbers.one_of(sources)
            if net not in args:
                args.append(net)
        lines.append(f"{name} = {kind}({', '.join(args)})")
        unread.append(name)
    lines.append(f"{joined} = XOR({', '.join(unread)})")
    lines.append(f"{data_pin} = AND({joined}, {reset})")
    return lines


@dataclasses.dataclass(frozen=True)
class Size:
    """How large the files are. There is a flip-flop for each 50 gates."""

    gates: int
    vectors: int

    @property
    def flip_flops(self):
        return max(3, self.gates // GATES_OF_A_SLICE)


def netlist_text(numbers, size):
    """A plain netlist of one slice for each flip-flop: it reads its flip-flop, the next two and some inputs."""
    count = size.flip_flops
    inputs = [f"i{k}" for k in range(INPUTS)]
    latches = [f"q{k}" for k in range(count)]
    gates = [f"g{k}" for k in range(size.gates)]
    ends = [(k + 1) * size.gates // count for k in range(count)]
    outputs = [gates[ends[(k + 1) * count // OUTPUTS - 1] - 2] for k in range(OUTPUTS)]
    lines = [f"INPUT({name})" for name in inputs]
    lines += [f"OUTPUT({name})" for name in outputs]
    lines += [f"{latch} = DFF({gates[end - 1]})" for latch, end in zip(latches, ends)]
    for k, end in enumerate(ends):
        near = [net for step in range(3) for net in (latches[(k + step) % count], inputs[(k + step) % INPUTS])]
        lines += slice_lines(numbers, near, gates[k * size.gates // count : end], inputs[(k + 8) % INPUTS])
    return "".join(line + "\n" for line in lines)


def tests_text(numbers, size):
    """One line for each vector, one character for each input."""
    rows = ("".join(str(numbers.below(2)) for _ in range(INPUTS)) for _ in range(size.vectors))
    return "".join(row + "\n" for row in rows)


@dataclasses.dataclass
class Run:
    """What one run took of the processor and of memory, and what it wrote."""

    seconds: float
    megabytes: float
    files: list
    out: str
    errors: str


def peak_megabytes(pid):
    """The most memory that a process has had so far, or 0 where it has ended."""
    try:
        lines = pathlib.Path(f"/proc/{pid}/status").read_text().splitlines()
    except (FileNotFoundError, ProcessLookupError):
        return 0.0
    return max((int(line.split()[1]) / 1024 for line in lines if line.startswith("VmHWM:")), default=0.0)


def wait(child):
    """The most memory that a process had, its status, and the processor time that it took."""
    megabytes, pid = 0.0, 0
    while pid == 0:
        megabytes = max(megabytes, peak_megabytes(child.pid))
        time.sleep(0.005)
        pid, status, usage = os.wait4(child.pid, os.WNOHANG)
    child.returncode = os.waitstatus_to_exitcode(status)
    return megabytes, usage.ru_utime + usage.ru_stime


def run(words, folder, made=("report",), settings=()):
    """Runs a program with these words and environment in a folder, where it makes these files."""
    for name in made:
        (folder / name).unlink(missing_ok=True)
    with tempfile.TemporaryFile() as out, tempfile.TemporaryFile() as err:
        streams = {"stdin": subprocess.DEVNULL, "stdout": out, "stderr": err}
        child = subprocess.Popen(words, cwd=folder, env={**os.environ, **dict(settings)}, **streams)
        megabytes, seconds = wait(child)
        texts = []
        for stream in (out, err):
            stream.seek(0)
            texts.append(stream.read().decode())
    if child.returncode != 0:
        sys.exit(f"{words[0]} ended with status {child.returncode}: {texts[1].strip()}")
    return Run(seconds, megabytes, [(folder / name).read_bytes() for name in made], *texts)


def middle(runs):
    """The run whose seconds are the median, or of two the faster, with the most memory that was seen in any."""
    run = sorted(runs, key=lambda result: result.seconds)[(len(runs) - 1) // 2]
    return dataclasses.replace(run, megabytes=max(each.megabytes for each in runs))


def ratio(runs, others):
    """How many times the seconds of the other program a program takes, where both ran in turn: the median."""
    return statistics.median(one.seconds / other.seconds for one, other in zip(runs, others))


def build_plain(folder, commit=None):
    """The plain program, as the machine's rustc builds it, from its sources as they stand or as a commit has them."""
    program, sources = folder / "plain", ROOT / "bench/plain"
    if commit:
        sources = folder / f"plain_{commit}"
        sources.mkdir(exist_ok=True)
        archive = subprocess.run(["git", "archive", f"{commit}:bench/plain"], cwd=ROOT, stdout=subprocess.PIPE, check=True)
        subprocess.run(["tar", "-x", "-C", sources], input=archive.stdout, check=True)
    subprocess.run(["rustc", "--edition", "2024", "-O", sources / "main.rs", "-o", program], check=True)
    return program
