"""Entries with one thing changed, and random invariants."""
import copy

from plain import cubes, entries, search, windows


# ---- damage


def other_tokens(rng, tokens):
    at = rng.randrange(len(tokens) + 1)
    form = rng.choice(entries.TOKENS)
    front, token = tokens[:at], [(form, rng.randrange(6) if b"N" in form else 0)]
    return front + rng.choice([[], tokens[at + 1 :], token + tokens[at:], token + tokens[at + 1 :]])


def other_vectors(rng, vectors):
    at = rng.randrange(len(vectors) + 1)
    front, more = vectors[:at], [tuple(rng.randrange(2) for _ in vector) for vector in vectors[:1]]
    return front + rng.choice([[], vectors[at + 1 :], more + vectors[at:], more * (windows.BACK_LIMIT + 1)])


def other_aim(rng, aim):
    if aim is None or rng.random() < 0.2:
        return rng.choice([None, (rng.choice(entries.SEARCHED), []), (b"attempt", [[], []])])
    form, parts = aim
    if form != b"attempt":
        return (form, other_tokens(rng, parts)) if rng.random() < 0.7 else (rng.choice(entries.SEARCHED), parts)
    if rng.random() < 0.2:
        return form, [[(*vector, 0) for vector in part] for part in parts]
    return form, [other_vectors(rng, part) if rng.random() < 0.6 else part for part in parts]


def other_frame(rng, told):
    place, index, sets = told
    sets = [(var, value ^ (rng.random() < 0.2)) for var, value in sets if rng.random() < 0.9]
    sets += [(rng.randrange(8), rng.randrange(2))] if rng.random() < 0.3 else []
    change = rng.random()
    index = index + 1 if change < 0.2 else max(index - 1, 0) if change < 0.3 else index
    sets = sorted(dict(sets).items()) if rng.random() < 0.8 else sets
    return rng.choice([b"output", b"state"]) if rng.random() < 0.1 else place, index, sets


def other_chain(rng, chain):
    at = rng.randrange(len(chain) + 1)
    front = chain[:at]
    frame = [other_frame(rng, told) for told in chain[at : at + 1]] or [(b"output", rng.randrange(3), [])]
    return rng.choice([front, front + frame + chain[at:], front + frame + chain[at + 1 :], chain[at:] + front])


def other_walks(rng, walks):
    at = rng.randrange(len(walks))
    return rng.choice([walks[:at] or [[]], [*walks, []], walks[:at] + [other_tokens(rng, walks[at])] + walks[at + 1 :]])


def other_set(rng, z):
    z = rng.choice([sorted, list])({*z} ^ {rng.randrange(4)})
    return z + (z[:1] if rng.random() < 0.2 else [])


def other_state(rng, state):
    at, bit = rng.randrange(len(state)), (rng.randrange(2),)
    return rng.choice([state[:at] + (1 - state[at],) + state[at + 1 :]] * 4 + [state[:at] + state[at + 1 :], state + bit])


def other_literals(rng, literals):
    """One bit or one flip-flop changed, one literal more or fewer, or the two in the other order."""
    at, how = rng.randrange(len(literals)), rng.randrange(5)
    j, bit = literals[at]
    if how < 2:
        changed = (j, 1 - bit) if how else (max(j + rng.choice([-1, 1]), 0), bit)
        return literals[:at] + [changed] + literals[at + 1 :]
    if how == 2:
        return literals[::-1]
    return literals[at:][:1] if len(literals) > 1 else literals + [(j + rng.randrange(2), rng.randrange(2))]


def other_clause(rng, clause):
    literals, tokens = clause
    return (literals, other_tokens(rng, tokens)) if rng.random() < 0.5 else (other_literals(rng, literals), tokens)


def other_clauses(rng, clauses):
    """A clause left out, changed, at another place or there twice, or more of them than may be."""
    at, to, how = rng.randrange(len(clauses)), rng.randrange(len(clauses) + 1), rng.randrange(8)
    left = clauses[:at] + clauses[at + 1 :]
    if how == 0:
        return left
    if how == 1:
        return left[:to] + [clauses[at]] + left[to:]
    if how == 2:
        return (clauses[:to] + [clauses[at]] + clauses[to:]) * rng.choice([1, 1, entries.MOST_CLAUSES])
    return clauses[:at] + [other_clause(rng, clauses[at])] + clauses[at + 1 :]


def damage_from_state(rng, entry):
    part = rng.choice(["state", "clauses", "clauses", "z", "tokens"])
    if part == "state" and entry.state:
        entry.state = other_state(rng, entry.state)
    elif part == "clauses" and entry.clauses:
        entry.clauses = other_clauses(rng, entry.clauses)
    elif part == "z":
        entry.z = other_set(rng, entry.z)
    else:
        entry.tokens = other_tokens(rng, entry.tokens)
    return entry


def other_rows(rng, entry):
    """A row dropped, or with a pair more or fewer, or one more."""
    rows = dict(entry.rows)
    j = rng.choice([*rows, rng.randrange(4)])
    pairs = {*rows.get(j, ())} ^ {rng.choice(entries.PAIRS)}
    rows[j] = tuple(sorted(pairs, key=entries.PAIRS.index))
    if not pairs or rng.random() < 0.3:
        del rows[j]
    return entries.UndetectableBySets(sorted(rows.items()))


def damage(rng, entry):
    """The entry with one thing changed."""
    entry = copy.deepcopy(entry)
    if isinstance(entry, entries.UntestableFrom):
        return damage_from_state(rng, entry)
    if isinstance(entry, entries.UndetectableByCubes):
        return cubes.other(rng, entry)
    if isinstance(entry, entries.UndetectableBySets):
        return other_rows(rng, entry)
    if isinstance(entry, entries.Untestable):
        if rng.random() < 0.4:
            entry.z = other_set(rng, entry.z)
        else:
            entry.tokens = other_tokens(rng, entry.tokens)
        return entry
    part = rng.choice(["told", "walk", "aim", "sweep"])
    if part == "told":
        entry.told = other_chain(rng, entry.told)
    elif part == "walk":
        entry.walk = other_tokens(rng, entry.walk or []) if rng.random() < 0.7 else None
    elif part == "aim":
        entry.aim = other_aim(rng, entry.aim)
    else:
        entry.sweep = other_walks(rng, entry.sweep)
    return entry


# ---- comparing


def random_invariant(rng, circuit, budget):
    """A random state, and the clauses of an invariant with it."""
    state = tuple(rng.randrange(2) for _ in circuit.flip_flops)
    count, width = rng.choice([0, 4, 64]), len(circuit.inputs)
    vectors = [tuple(rng.randrange(2) for _ in range(width)) for _ in range(count)]
    return state, search.find(circuit, state, vectors, budget)
