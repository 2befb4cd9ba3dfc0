"""Jobs: commands that make their last files of the others. How a run ends by its words and the files of its folder, random
words and files, and the comparison of the program with a model of a job.
"""
import argparse
import collections
import dataclasses
import pathlib
import random
import subprocess
import sys
import tempfile

from plain import ROOT, command_line, netlists, simulation


# ---- jobs: how a run ends by its words and the files of its folder


@dataclasses.dataclass
class Ending:
    """How a run ended: its status, what it said, and the files of its folder by name."""

    status: int
    out: bytes
    err: bytes
    files: dict


class Ended(Exception):
    """Why a run ends without its work: the status, and the line on the standard error, or None where it names some cycle."""


def names_of(words, count):
    """The names that the words after a command without options give, where they are so many."""
    names, left = [], list(words)
    while left:
        word = left.pop(0)
        if word == "--":
            names, left = names + left, []
        elif word.startswith("-") and word != "-":
            return None
        else:
            names.append(word)
    return names if len(names) == count else None


def text_at(files, name):
    if name not in files:
        raise Ended(4, b"read fault\n")
    return files[name]


def circuit_at(files, name):
    try:
        return netlists.read(text_at(files, name))
    except netlists.Refusal as refusal:
        raise Ended(3, *refusal.args) from None


def vectors_in(circuit, lines):
    try:
        return simulation.vectors_in(circuit, lines)
    except netlists.Refusal as refusal:
        raise Ended(7, *refusal.args) from None


def start_at(circuit, files, name):
    """The start in a file, or None where no name is given."""
    try:
        return None if name is None else simulation.start_of(circuit, text_at(files, name))
    except netlists.Refusal as refusal:
        raise Ended(8, *refusal.args) from None


def ending(files, out, job):
    """How a run has to end that makes a file, and says a line, or that has no form where no file is named."""
    if out is None:
        return Ending(2, b"", command_line.USAGE, files)
    try:
        text, line = job()
    except Ended as ended:
        return Ending(ended.args[0], b"", ended.args[1], files)
    if "/" in out:
        return Ending(5, b"", b"write fault\n", files)
    return Ending(0, line, b"", files | {out: text})


def wanted(job, count, words, files):
    """The same of a run without options, whose job makes the last of its files of the ones before it."""
    names = names_of(words, count)
    return ending(files, names and names[-1], lambda: job(files, *names[:-1]))


# ---- random files and words


def random_vectors(rng, width, count):
    return [bytes(rng.choice(b"01") for _ in range(width)) for _ in range(count)]


def damaged(rng, lines, strange):
    """Some of the lines damaged, doubled, dropped or made strange; most often none."""
    lines = lines[:]
    for _ in range(rng.choice([0, 0, 0, 0, 0, 0, 1, 1, 2])):
        at = rng.randrange(len(lines) + 1)
        line = lines[at] if at < len(lines) else b""
        bad = rng.choice([line + b"0", line[:-1], b" " + line, line + b"\r", line.replace(b"1", strange, 1), strange])
        lines[at : at + 1] = rng.choice([[bad], [bad], [line, line], []])
    return lines


def random_words(rng, names):
    """The names as words, in most of the forms that a command takes, and some that have no form."""
    words = list(names)
    if rng.random() < 0.06:
        words = rng.choice([words[:-1], [*words, "more"], [*words[:-1], "none/out"], [*words[:-1], "-"], ["none", *words[1:]]])
    if rng.random() < 0.1:
        words.insert(rng.randrange(len(words) + 1), "--")
    if rng.random() < 0.03:
        words.insert(rng.randrange(len(words) + 1), rng.choice(["--help", "-V", "--budget=5", "-x", "--out", "--"]))
    return words


# ---- comparing


def with_start(rng, words, name):
    """The words, half of the time with a start of this name."""
    words = list(words)
    if rng.random() < 0.5:
        at = 0 if "--" in words else len(words)
        words[at:at] = [f"--start={name}"] if rng.random() < 0.3 else ["--start", name]
    return words + rng.choice([["--start", name], ["--start"]]) if rng.random() < 0.02 else words


def ending_of(program, folder, command, words, files):
    """How the program ends in the folder, which has these files and no others."""
    for path in folder.iterdir():
        path.unlink()
    for name, text in files.items():
        (folder / name).write_bytes(text)
    run = subprocess.run([program, command, *words], cwd=folder, capture_output=True, stdin=subprocess.DEVNULL, timeout=600)
    return Ending(run.returncode, run.stdout, run.stderr, {path.name: path.read_bytes() for path in folder.iterdir()})


def equal_run(program, folder, command, model, words, files):
    """The status of one run of the program, and whether it ends as by the model."""
    got, want = ending_of(program, folder, command, words, files), model(words, files)
    if want.status == 3 and want.err is None and netlists.names_a_cycle(files["netlist"], got.err):
        want.err = got.err
    if got != want:
        print(f"differs\nwords {words}\nfiles {files}")
        for field in dataclasses.fields(Ending):
            ours, theirs = getattr(got, field.name), getattr(want, field.name)
            if ours != theirs:
                print(f"{field.name}\n  got {ours}\n  want {theirs}")
    return got.status, got == want


def perturbed(rng, files):
    """The files with one missing now and then, and some with an older file in the place of the one to be made."""
    if rng.random() < 0.04:
        del files[rng.choice(list(files))]
    if rng.random() < 0.3:
        files["out"] = b"older\n" * rng.randrange(1, 50)
    return files


def program_of(options):
    program = options.program.resolve()
    if not program.is_file():
        sys.exit(f"there is no program {program}; `rt run` in crates/ht_cli builds it")
    return program


def compare_runs(command, model, job, options):
    """So many random jobs by the program beside the model; how many differ."""
    program = program_of(options)
    rng, ends, differing = random.Random(options.seed), collections.Counter(), 0
    with tempfile.TemporaryDirectory() as folder:
        for _ in range(options.runs):
            words, files = job(rng)
            status, equal = equal_run(program, pathlib.Path(folder), command, model, words, perturbed(rng, files))
            ends[status] += 1
            differing += not equal
    for status, count in sorted(ends.items()):
        print(f"status {status}: {count}")
    print(f"{options.runs} runs, {differing} differ")
    return differing


def compare_examples(model, examples):
    """The model beside the stored output of each example: its words, its files and the last file; how many differ."""
    differing = 0
    for folder, words, files, stored in examples:
        equal = model(words, files).files.get(words[-1]) == stored
        print(f"{folder.relative_to(ROOT)}: {'equal' if equal else 'differs'}")
        differing += not equal
    return differing


def run(command, model, job, examples=()):
    """The command line of a script that compares a job."""
    parser = argparse.ArgumentParser(description=f"Compares {command} with a model in plain Python.")
    parser.add_argument("--program", type=pathlib.Path, default=ROOT / "crates/ht_cli/out/ht_cli")
    parser.add_argument("--runs", type=int, default=1_000, help="how many jobs are tried")
    parser.add_argument("--seed", type=int, default=1)
    parser.add_argument("--model", action="store_true", help="compare the model with the examples, without the program")
    options = parser.parse_args()
    differing = compare_examples(model, examples) if options.model else compare_runs(command, model, job, options)
    sys.exit(1 if differing else 0)
