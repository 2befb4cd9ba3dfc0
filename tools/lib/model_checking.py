"""What ABC and CaDiCaL answer about one fault at a time, as texts of vectors and entries that tools/lib/chunk.py has judged."""
import check_proofs
import engines
import miter
import steps

SHORT_SECONDS = 1


class Asking:
    """Asks about faults of one circuit, each engine for some seconds a fault."""

    def __init__(self, folder, scratch, seconds):
        self.scratch, self.seconds, self.reasons = scratch, seconds, {}
        self.circuit = check_proofs.read_netlist(folder.netlist.read_bytes())
        self.faults = check_proofs.faults_of(self.circuit)
        start = folder.start_words[1:]
        self.start = check_proofs.read_start(self.circuit, start[0].read_bytes()) if start else None

    def answers(self, number):
        """Who answers, a text of vectors and an entry, each as it is found, until one is taken. Why there is no entry after all
        stands in `reasons`."""
        fault = self.faults[number - 1]
        yield "bmc3", self.bounded(fault, min(SHORT_SECONDS, self.seconds)), b""
        if not engines.lacks(engines.CADICAL):
            try:
                cubes = self.directed(fault)
                if cubes is not None:
                    yield "pdr", b"", self.entry(number, fault, cubes)
                    return
            except (steps.Unfollowed, engines.Unreadable, MemoryError) as error:
                self.reasons[number] = str(error) or "out of memory"
                return
            frames = self.frames_from_start()
            yield "pdr", self.text(frames), b""
            if frames:
                self.reasons[number] = "vectors detect it from the start alone"
        if self.seconds > SHORT_SECONDS:
            yield "bmc3", self.bounded(fault, self.seconds), b""

    def text(self, frames):
        return "".join("".join(map(str, frame)) + "\n" for frame in frames).encode()

    def bounded(self, fault, seconds):
        """Asks bounded model checking for frames from all-unknown."""
        text = miter.miter(self.circuit, fault)
        return self.text(engines.bounded(self.scratch, text, self.circuit.inputs, seconds)) if text else b""

    def directed(self, fault):
        """The cubes of property directed reachability from the start, or None; then it may have left frames."""
        text = miter.miter(self.circuit, fault, self.start)
        return [] if text is None else engines.invariant(self.scratch, text, self.seconds)

    def frames_from_start(self):
        """What a trace of the machines from the start does after the last frame that loads the start."""
        loads = miter.says_more(self.start)
        frames = engines.frames_of(self.scratch, self.circuit.inputs + loads)
        while loads and any(frame[-1] for frame in frames):
            frames = frames[1:]
        return [frame[: self.circuit.inputs] for frame in frames]

    def entry(self, number, fault, held):
        """An entry of cubes that rails never make together."""
        if not self.circuit.flip_flops:
            raise steps.Unfollowed("there are no flip-flops")
        rails = miter.rails(self.circuit, fault)
        if any(latch >= len(rails) for cube in held for latch in cube):
            raise engines.Unreadable("a cube is of another latch")
        cubes = [[rails[latch] for latch in cube] for cube in held]
        # that nothing holds both 0 and 1 stands in the formula
        cubes = [cube for cube in cubes if not any((machine, j, 1 - bit) in cube for machine, j, bit in cube)]
        cubes = cubes or [[(0, 0, 0), (0, 0, 1)]]
        formula = check_proofs.Formula(self.circuit, fault, cubes)
        lemmas = engines.lemmas(self.scratch, formula.last, formula.clauses, self.seconds)
        if lemmas is None:
            raise steps.Unfollowed("CaDiCaL finds no contradiction")
        made = steps.steps_of(formula.last, formula.clauses, lemmas, self.seconds)
        return steps.entry_text(number, cubes, made).encode()
