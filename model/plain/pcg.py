"""Random words: PCG32 (XSH RR 64/32, O'Neill 2014), whose seed of 16 bytes comes from a number by another PCG32 with a
fixed increment, as the published crates rand_pcg and rand_core have it; and vectors of them.
"""


MASK = (1 << 64) - 1
MULTIPLIER = 6364136223846793005
SEED_INCREMENT = 11634580027462260723


# ---- random words


def xsh_rr(state):
    """The word of a state: an xorshift, then a rotation by the five highest bits."""
    word, turn = (((state >> 18) ^ state) >> 27) & 0xFFFFFFFF, state >> 59
    return (word >> turn | word << (32 - turn)) & 0xFFFFFFFF


def seed_bytes(number):
    """The 16 bytes that a number is expanded to; here the state advances before its word is taken."""
    state, words = number, []
    for _ in range(4):
        state = (state * MULTIPLIER + SEED_INCREMENT) & MASK
        words.append(xsh_rr(state).to_bytes(4, "little"))
    return b"".join(words)


def words_of(seed):
    """The words of a seed, without end."""
    expanded = seed_bytes(seed)
    increment = int.from_bytes(expanded[8:], "little") | 1
    state = (int.from_bytes(expanded[:8], "little") + increment) & MASK
    while True:
        state = (state * MULTIPLIER + increment) & MASK
        yield xsh_rr(state)


def random_vectors(inputs, count, seed):
    words = words_of(seed)
    return [[next(words) % 2 for _ in range(inputs)] for _ in range(count)]


WEIGHTS, BURST = (5, 26, 128, 230, 251), 200


def weighted_vectors(inputs, count, seed):
    """Vectors in bursts, in each of which an input has a weight of its own."""
    words, vectors = words_of(seed), []
    while len(vectors) < count:
        weights = [WEIGHTS[next(words) % 5] for _ in range(inputs)]
        burst = min(BURST, count - len(vectors))
        vectors += [[int(next(words) % 256 < weight) for weight in weights] for _ in range(burst)]
    return vectors
