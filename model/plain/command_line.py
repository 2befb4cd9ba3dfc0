"""The words of a command, its names and options, and the usage line."""


USAGE = b"""usage: sim NETLIST TESTS REPORT [--start FILE], \
gen NETLIST TESTS REPORT PROOFS [--budget N] [--random N] [--seed S] [--start FILE] [--first FILE] [--faults FILE] \
[--weighted N] [--search plain|deep|full] [--work N], \
check NETLIST TESTS REPORT PROOFS [--start FILE], norm NETLIST OUT, demo SIZE SEED, \
compact NETLIST TESTS OUT [--runs N], diagnose NETLIST TESTS RESPONSES OUT, \
uninit NETLIST OUT [--budget N], sync NETLIST TESTS OUT [--budget N], \
respond NETLIST TESTS OUT [--fault N] [--start FILE] [--lines], \
report NETLIST TESTS PROOFS REPORT [--budget N] [--start FILE], \
breed NETLIST TESTS OUT [--vectors N] [--seed S] [--start FILE], causes NETLIST TESTS OUT [--start FILE]
"""
# of each option what it says where it is left out, and its least and greatest number
OPTIONS = {"budget": (1_000, 1, 100_000), "random": (0, 0, 100_000), "seed": (0, 0, 2**64 - 1), "weighted": (0, 0, 100_000)}
# the options that take a file's name, or one of some words
NAMES, SEARCHES = ("start", "first", "faults"), ("plain", "deep")


# ---- words


def number_of(word, least, greatest):
    number = int(word) if word.isascii() and word.isdigit() else -1
    return number if least <= number <= greatest else None


def is_option(word):
    return word.startswith("-") and word != "-"


def asked(words, count=4, options=OPTIONS, more=("start",), flags=()):
    """The names, the numbers of the options, the words of more options, or None, and whether each flag is given, that the
    words after a command ask for; None where they have no form."""
    names, given, left = [], {}, list(words)
    while left:
        word = left.pop(0)
        option, equals, value = word[2:].partition("=")
        if word == "--":
            names, left = names + left, []
        elif word.startswith("--") and option in flags:
            if option in given or equals:
                return None
            given[option] = True
        elif word.startswith("--") and option in (*options, *more):
            if option in given or not (equals or left) or not equals and is_option(left[0]):
                return None
            value = value if equals else left.pop(0)
            given[option] = value if option in more else number_of(value, *options[option][1:])
        elif is_option(word):
            return None
        else:
            names.append(word)
    if len(names) != count or None in given.values():
        return None
    numbers = [given.get(option, numbers[0]) for option, numbers in options.items()]
    return names, numbers, *map(given.get, more), *(flag in given for flag in flags)


# ---- comparing


def random_option(rng, option, number):
    """An option with a number or a name, in one of its two forms; now and then a strange one."""
    if rng.random() < 0.08:
        number = rng.choice(["0", "00", "007", "1" + number * 5, "100000", "100001", "-1", "+3", "1e1", "", " 4", "x", str(2**64)])
        number = "100" if option in ("random", "weighted") and len(number) > 3 else number
    words = rng.choice([[f"--{option}", number], [f"--{option}={number}"]])
    if rng.random() < 0.03:
        words = rng.choice([words * 2, words[:1], ["-b", number], [f"--{option[:-1]}", number], ["--help"], ["-V"]])
    return words
