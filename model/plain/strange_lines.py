"""Lines and words as they stand in no text, or in another, and the damage that they do."""
from plain import entries

STRANGE_NUMBERS = (b"0", b"01", b"1", b"2", b"3", b"+1", b"-1", b"", b"x", b"4294967295", b"4294967296", b"42949672950")
STRANGE_NUMBERS += (b"100000", b"100001", b"18446744073709551615", b"18446744073709551616", b"99999999999999999999999")
PROOFS_LINES = (b"proofs 1", b"proofs 2", b"proofs 3", b"proofs 4", b"end", b"END", b"sweep", b"walk", b"attempt", b"", b"-")
PROOFS_LINES += (b"dead", b"Dead", b"before", b"lo 1", b"hi 1", b"x 1", b"z 1", b"z 9", b"length 1", b"length 2")
PROOFS_LINES += (b"set 1 0", b"set 9 1", b"set 1 2", b"set 1", b"frame output 1", b"frame state 1", b"frame 1", b"frame cube 1")
PROOFS_LINES += (b"justify", b"justify 01", b"justify -", b"justify 0-", b"ahead 1", b"ahead -", b"ahead 0 1")
PROOFS_LINES += (b"back closed", b"back open", b"forward closed", b"forward open", b"back", b"forward shut")
PROOFS_LINES += (b"entry 1 untestable", b"entry 9 aborted", b"entry 1", b"entry 0 aborted", b"entry 2 untestable from 0")
PROOFS_LINES += (b"entry 9 untestable from 01", b"entry 1 untestable from", b"entry 3 untestable from 2", b"entry 2 from 0")
PROOFS_LINES += (b"clause 1 0", b"clause 2 1", b"clause 1 0 2 1", b"clause 2 1 2 0", b"clause 3 0 1 0", b"clause", b"clause 1")
PROOFS_LINES += (b"clause 1 2", b"clause 1 0 2", b"clause 1 0 4294967295 1", b"clause 1 0 2 1 3 0", b"clause 01 0")
PROOFS_LINES += (b"entry 8 untestable from " + b"0" * entries.MOST_STATE_BITS, b"entry 8 untestable from " + b"1" * (entries.MOST_STATE_BITS + 1))
PROOFS_LINES += (b"justify " + b"0" * entries.MOST_BITS, b"ahead " + b"1" * (entries.MOST_BITS + 1))
PROOFS_LINES += (b"entry 2 undetectable by sets", b"entry 9 undetectable by sets", b"entry 1 undetectable", b"entry 3 undetectable by")
PROOFS_LINES += (b"entry 2 undetectable by cubes", b"entry 9 undetectable by cubes", b"never good 1 0", b"never faulty 2 1 good 1 0")
PROOFS_LINES += (b"never", b"never good 1", b"never good 0 1", b"never bad 1 0", b"never good 1 2", b"never  good 1 0", b"never good 1 X")
PROOFS_LINES += (b"step by 1", b"step 1 -2 by 3", b"step", b"step by", b"step 1 2", b"step -0 by 1", b"step +1 by 1", b"step 1 by -1")
PROOFS_LINES += (b"step -4294967295 by 4294967295", b"step -4294967296 by 1", b"step by 4294967296", b"step by 1 by 2", b"step 1  by 1")
PROOFS_LINES += (b"never" + b" good 1 0" * 116_508, b"never" + b" good 1 0" * 116_507 + b" good 100 1", b"step by" + b" 1" * 524_284 + b" 12")
PROOFS_LINES += (b"pairs 1 XX", b"pairs 2 00 01 0X 10 11 1X X0 X1 XX", b"pairs 1", b"pairs 3 XX X1", b"pairs 2 00 00", b"pairs 9 0x")
REPORT_WORDS = (b"untestable", b"undetectable", b"aborted", b"undetected", b"as", b"as 1", b"detected 1", b"detected", b"s-a-0", b"total", b"")


def other_number(rng, word):
    near = [b"%d" % (int(word) + by) for by in (-1, 1)] if word.isdigit() and len(word) <= 20 else []
    return rng.choice([*near, *near, *near, *STRANGE_NUMBERS])


def other_word(rng, line, strange):
    words = line.split(b" ")
    at = rng.randrange(len(words))
    words[at] = other_number(rng, words[at]) if words[at].isdigit() and rng.random() < 0.8 else rng.choice(strange)
    return b" ".join(words)


def other_bytes(rng, line):
    at = rng.randrange(len(line) + 1)
    return rng.choice(
        [
            line[:at] + line[at + 1 :],
            line[:at] + bytes([rng.choice(b" 01239-ax\t\r\x00\xff")]) + line[at:],
            line[:at] + bytes([rng.choice(b" 01239-ax\t\r\x00\xff")]) + line[at + 1 :],
            line.replace(b" ", b"  ", 1),
            line.upper(),
            line + rng.choice([b" ", b"\r", b" 1", b"0", b"\x00"]),
            b" " + line,
        ]
    )


def damage(rng, lines, strange_lines, strange_words):
    """One or two damages of a text's lines."""
    for _ in range(rng.choice([1, 1, 1, 2])):
        at, how = rng.randrange(len(lines) + 1), rng.randrange(8)
        if at == len(lines) or how == 0:
            lines.insert(at, rng.choice([*strange_lines, *lines]))
        elif how == 1:
            del lines[at]
        elif how == 2:
            other = rng.randrange(len(lines))
            lines[at], lines[other] = lines[other], lines[at]
        elif how == 3:
            del lines[rng.randrange(len(lines)) :]
        elif how == 4:
            lines[at] = rng.choice([*strange_lines, *lines])
        elif how == 5:
            lines[at] = other_bytes(rng, lines[at])
        else:
            lines[at] = other_word(rng, lines[at], strange_words)
        if not lines:
            return lines
    return lines
