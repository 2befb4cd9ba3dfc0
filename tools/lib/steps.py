"""Steps with hints that show that clauses contradict each other, from the lemmas of a SAT solver.

A solver's lemmas follow from the clauses by unit propagation, but it doesn't say by which clauses. Here each lemma is
followed in its order: with its literals false, clauses with one literal left make this true, until all literals of one are
false. The clauses that were needed on the way are the hints of its step. Then lemmas that no later step needs are dropped.
Clauses are numbered from 1 and lemmas go on after them, as in the entries by cubes that tools/close makes of it.
"""
import time


class Unfollowed(Exception):
    """Why no steps are made."""


class Propagation:
    """Clauses, and what follows from them by unit propagation. Two literals of each clause are watched: as long as neither
    is false nothing follows from it. Lists by literal have the negative ones at their end, as Python counts."""

    def __init__(self, variables):
        self.clauses = [[]]
        self.value = [0] * (2 * variables + 1)  # of a literal: 1 true, -1 false, 0 neither
        self.watchers = [[] for _ in self.value]  # of a literal: the clauses to look at once it is false
        self.reason = [0] * (variables + 1)  # the clause that made a variable true or false; 0 where it is assumed
        self.place = [0] * (variables + 1)  # where on the trail
        self.trail, self.seen = [], 0

    def set(self, literal, reason):
        self.value[literal], self.value[-literal] = 1, -1
        self.reason[abs(literal)], self.place[abs(literal)] = reason, len(self.trail)
        self.trail.append(literal)

    def add(self, literals):
        """Takes one more clause, while nothing is assumed; the number of a clause all of whose literals are false, or 0."""
        number, clause = len(self.clauses), sorted(literals, key=lambda literal: -self.value[literal])
        self.clauses.append(clause)
        if len(clause) > 1:
            for literal in clause[:2]:
                self.watchers[literal].append(number)
        if not clause or self.value[clause[0]] < 0:
            return number
        if len(clause) == 1 and self.value[clause[0]] > 0:
            # a lemma that stands for all that made its literal true
            self.reason[abs(clause[0])] = number
        elif self.value[clause[0]] == 0 and (len(clause) == 1 or self.value[clause[1]] < 0):
            self.set(clause[0], number)
        return self.propagate()

    def propagate(self):
        """Follows what is set; the number of a clause all of whose literals are false, or 0."""
        while self.seen < len(self.trail):
            literal = -self.trail[self.seen]
            self.seen += 1
            false = self.look(literal)
            if false:
                return false
        return 0

    def look(self, literal):
        """Looks at the clauses that watch a literal which is false now."""
        value, watching, kept = self.value, self.watchers[literal], []
        for at, number in enumerate(watching):
            clause = self.clauses[number]
            if clause[0] == literal:
                clause[0], clause[1] = clause[1], literal
            if value[clause[0]] > 0:
                kept.append(number)
                continue
            for k in range(2, len(clause)):
                if value[clause[k]] >= 0:
                    clause[1], clause[k] = clause[k], literal
                    self.watchers[clause[1]].append(number)
                    break
            else:
                kept.append(number)
                if value[clause[0]] < 0:
                    self.watchers[literal] = kept + watching[at + 1 :]
                    return number
                self.set(clause[0], number)
        self.watchers[literal] = kept
        return 0

    def forget(self, length):
        """Takes back what was set since the trail had this length."""
        for literal in self.trail[length:]:
            self.value[literal] = self.value[-literal] = 0
        del self.trail[length:]
        self.seen = min(self.seen, length)

    def hints(self, false, lemma=()):
        """The clauses by which all literals of one are false where those of a lemma are, in the order of the trail."""
        known, waiting, found = {abs(literal) for literal in lemma}, [false], []
        while waiting:
            for literal in self.clauses[waiting.pop()]:
                variable = abs(literal)
                if variable not in known:
                    known.add(variable)
                    found.append(variable)
                    waiting.append(self.reason[variable])
        found.sort(key=self.place.__getitem__)
        return [self.reason[variable] for variable in found] + [false]

    def follow(self, lemma):
        """The hints of a lemma."""
        length = len(self.trail)
        # of literals that are true without it the first that was so: what made it true needs none of the others
        true = min((it for it in lemma if self.value[it] > 0), key=lambda it: self.place[abs(it)], default=None)
        if true is not None:
            return self.hints(self.reason[abs(true)], lemma)
        for literal in lemma:
            if self.value[literal] == 0:
                self.set(-literal, 0)
        false = self.propagate()
        if not false:
            raise Unfollowed("a lemma doesn't follow by unit propagation")
        hints = self.hints(false, lemma)
        self.forget(length)
        return hints


def trimmed(first, steps):
    """The steps, numbered from `first` on, that the last one needs, with new numbers for them in their hints."""
    needed, waiting = {first + len(steps) - 1}, [first + len(steps) - 1]
    while waiting:
        more = {hint for hint in steps[waiting.pop() - first][1] if hint >= first} - needed
        needed |= more
        waiting += more
    renamed = {number: first + at for at, number in enumerate(sorted(needed))}
    kept = (steps[number - first] for number in sorted(needed))
    return [(literals, [renamed.get(hint, hint) for hint in hints]) for literals, hints in kept]


def steps_of(variables, clauses, lemmas, seconds):
    """The steps (literals, hints) that end with the empty clause. Raises Unfollowed where some lemma doesn't follow, none of
    them leads there, or it takes more seconds of a processor."""
    known, steps, end, false = Propagation(variables), [], time.process_time() + seconds, 0
    for clause in clauses:
        false = false or known.add(clause)
    for lemma in lemmas:
        if false:
            break
        if time.process_time() > end:
            raise Unfollowed(f"the hints take more than {seconds} seconds")
        lemma = list(dict.fromkeys(lemma))
        steps.append((lemma, known.follow(lemma)))
        false = known.add(lemma)
    if not false:
        raise Unfollowed("the lemmas don't end with a contradiction")
    return trimmed(len(clauses) + 1, [*steps, ([], known.hints(false))])


def entry_text(number, cubes, steps):
    """The lines of an entry by cubes; cubes are lists of rails (machine, flip-flop from 0, bit), machine 1 the faulty one."""
    lines = [["entry", number, "undetectable by cubes"]]
    for cube in cubes:
        lines.append(["never", *(word for machine, j, bit in cube for word in (("good", "faulty")[machine], j + 1, bit))])
    lines += [["step", *literals, "by", *hints] for literals, hints in steps]
    return "".join(" ".join(map(str, line)) + "\n" for line in lines)
